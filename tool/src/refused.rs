//! A refusal, told.
use crate::args::Options;
use crate::json::{fields, Json};
use crate::show::{self, decimal, hex, paragraph};
use crate::subject::View;
use crate::{commands, refusals, relocations, Said};
use lugwormpin::{elf, Mark, Policy, Refusal, ARENA_LIMIT};

/// What can be told besides docs/REFUSALS.md, from this very set.
fn notes(view: &View, refusal: Refusal) -> Vec<String> {
    let object = refusal.object as usize;
    let (arena, needed) = (view.call.arena as u64, view.needed());
    let mut notes = Vec::new();
    match refusal.number {
        2 => {
            let past = view.call.address % elf::PAGE;
            if past != 0 {
                notes.push(format!("the address {} is no multiple of 4,096", hex(view.call.address)));
            }
            if arena > ARENA_LIMIT as u64 {
                let limit = decimal(ARENA_LIMIT as u64);
                notes.push(format!("the arena has {} bytes, and at most {limit} are allowed", decimal(arena)));
            }
            if u128::from(view.call.address) + u128::from(arena) > 1 << 63 {
                notes.push(format!("{} bytes at {} end over 2^63", decimal(arena), hex(view.call.address)));
            }
        }
        3 => {
            let set = &view.subject.set;
            if let Some(first) = (2..object).find(|k| set.name(*k) == set.name(object)) {
                let file = view.label(first).file.as_deref().unwrap_or("?");
                notes.push(format!("the name `{}` is that of object {first}, {file}, too", view.label(object).name));
            }
        }
        8 if needed > ARENA_LIMIT as u64 => {
            let limit = decimal(ARENA_LIMIT as u64);
            notes.push(format!("the set needs {} bytes, and an arena has at most {limit}", decimal(needed)));
        }
        8 => {
            let at = hex(view.call.address);
            notes.push(format!("the arena has {} bytes; at {at} the set needs {}", decimal(arena), decimal(needed)));
        }
        13 => notes.push(format!("the objects of this set are 0 to {}", view.subject.set.objects() - 1)),
        16 => {
            notes.extend(first_entry(view, object, |kind| kind == 37));
            notes.push(
                "a line `37 pass` in a file for --types has such entries passed over and their places left as they are"
                    .into(),
            );
        }
        24 => {
            let file = view.table.file.as_deref().unwrap_or("?");
            let applied = view.table.changed().into_iter().filter(|(_, mark)| *mark == "apply");
            notes.extend(applied.map(|(kind, _)| {
                let line = view.table.lines[kind as usize].unwrap_or(0);
                format!("{file}, line {line}: type {kind} cannot be applied")
            }));
        }
        25 => {
            let refused = |kind: u32| kind != 37 && view.call.types.mark(kind as usize) == Mark::Refuse;
            notes.extend(first_entry(view, object, refused));
            let file = view.table.file.as_deref().unwrap_or("?");
            let marked = view.table.changed().into_iter().filter(|(_, mark)| *mark == "refuse");
            notes.extend(marked.map(|(kind, _)| {
                let line = view.table.lines[kind as usize].unwrap_or(0);
                format!("{file}, line {line}: {} refuse", relocations::shown(kind))
            }));
        }
        _ => {}
    }
    notes
}

/// The first entry of such a type, and how many there are.
fn first_entry(view: &View, object: usize, wanted: impl Fn(u32) -> bool) -> Option<String> {
    let module = view.modules.get(object)?;
    let mut entries =
        (0..module.entry_count()).map_while(|k| module.entry(k)).enumerate().filter(|(_, e)| wanted(e.kind));
    let (number, entry) = entries.next()?;
    let more = entries.count();
    let kind = relocations::shown(entry.kind);
    let place = hex(view.base(object).wrapping_add(entry.place));
    let more = match more {
        0 => String::new(),
        _ => format!(" (and {} after it)", show::counted(more, "such entry", "such entries")),
    };
    Some(format!("the first such entry is number {number}, {kind}, place {place}{more}"))
}

/// The refusal of a call about a set.
pub fn said(options: &Options, view: &View, refusal: Refusal) -> Said {
    let object = refusal.object as usize;
    let about = !refusals::without_object().contains(&refusal.number) && object < view.subject.labels.len();
    let label = about.then(|| view.label(object));
    let row = refusals::told(refusal.number, refusal.object);
    let unknown = "docs/REFUSALS.md has no row for this number";
    let (meaning, advice) = row.map_or((unknown.into(), String::new()), |row| (row.meaning, row.advice));
    let notes = notes(view, refusal);
    let undefined = undefined(view, refusal);

    let words = || {
        let mut text = match label {
            Some(label) => format!("lugwormpin: refused {}, object {object}: {}\n", refusal.number, label.name),
            None => format!("lugwormpin: refused {}\n", refusal.number),
        };
        if let Some(label) = label {
            text.push_str(&format!("  file        {}\n", label.file.as_deref().unwrap_or("none: the minimal host")));
        }
        text.push_str(&paragraph("  meaning     ", &meaning));
        if !advice.is_empty() {
            text.push_str(&paragraph("  what to do  ", &advice));
        }
        for note in &notes {
            text.push_str(&paragraph("  here        ", note));
        }
        if let Some(undefined) = &undefined {
            text.push('\n');
            text.push_str(&commands::undefined_text(view, undefined));
        }
        text
    };
    let value = || {
        fields! {
            "command": options.command.name(),
            "result": "refused",
            "number": refusal.number,
            "object": about.then_some(object),
            "name": label.map(|label| label.name.clone()),
            "file": label.and_then(|label| label.file.clone()),
            "meaning": meaning.as_str(),
            "advice": advice.as_str(),
            "notes": notes.iter().map(String::as_str).collect::<Json>(),
            "undefined": undefined.as_ref().map(|entries| entries.iter().map(commands::Listed::json).collect::<Json>()),
        }
    };
    Said::new(options.json, words, value).refused()
}

/// After 19, what is undefined, by a call that reports it.
fn undefined(view: &View, refusal: Refusal) -> Option<Vec<commands::Listed>> {
    let mut lenient = view.call.clone();
    lenient.policy = Policy::Lenient;
    let bound = (refusal.number == 19).then(|| lenient.bind().ok())??;
    Some(commands::listed(view, &bound).0)
}
