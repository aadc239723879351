//! The commands: bind, query, order, set.
use crate::args::{Command, Options};
use crate::files::{self, Pending};
use crate::json::{fields, Json};
use crate::show::{self, counted, decimal, hex, table};
use crate::subject::{self, Subject, View};
use crate::{refused, relocations, Failure, Said};
use lugwormpin::{Bound, Found, Mark, Policy, Refusal, Set, Types, Word};
use std::collections::HashMap;
use std::fmt::Write as _;
use std::io::{self, BufWriter, Read, Write};
use std::path::{Path, PathBuf};

/// The most that document 01's program takes.
const PROGRAM_INPUT: usize = 65_536;

pub fn run(options: &Options) -> Result<Said, Failure> {
    check_outputs(options)?;
    let subject = Subject::load(&options.source)?;
    match options.command {
        Command::Bind => bind(options, &subject),
        Command::Query => query(options, &subject),
        Command::Order => order(options, &subject),
        Command::Set => set(options, &subject),
    }
}

/// Nothing that is read may be written over.
fn check_outputs(options: &Options) -> Result<(), Failure> {
    let outputs: Vec<&Path> = [&options.output, &options.report].into_iter().flatten().map(PathBuf::as_path).collect();
    for output in &outputs {
        for source in subject::sources(&options.source) {
            if files::same(output, &source) {
                let name = show::path(output);
                return Err(Failure::files(
                    format!("{name}: this file is part of the set, and would be written over"),
                    output,
                ));
            }
        }
    }
    match outputs[..] {
        [a, b] if files::same(a, b) => {
            Err(Failure::files(format!("{}: both the image and the report are to be written there", show::path(a)), a))
        }
        _ => Ok(()),
    }
}

fn output(options: &Options) -> Result<&Path, Failure> {
    options.output.as_deref().ok_or_else(|| options.command.usage("-o FILE is missing"))
}

// ---- bind

fn bind(options: &Options, subject: &Subject) -> Result<Said, Failure> {
    let image = output(options)?;
    let view = View::new(subject, options)?;
    let call = &view.call;
    subject.say_binding();
    let answer = match own_order(options, subject)? {
        Some(order) => call.bind_ordered(&order).map(|bound| (bound, None)),
        None if options.start_stop => call.start_stop().map(|(bound, lists)| (bound, Some(lists))),
        None => call.bind().map(|bound| (bound, None)),
    };
    let (bound, lists) = match answer {
        Ok(answer) => answer,
        Err(refusal) => return Ok(refused::said(options, &view, refusal)),
    };
    subject.progress.say(|| format!("writing {}: {} bytes", show::path(image), decimal(bound.image.len() as u64)));
    let mut pending = vec![Pending::write(image, |out| out.write_all(&bound.image))?];
    if let Some(path) = &options.report {
        pending.push(Pending::write(path, |out| {
            let mut out = BufWriter::new(out);
            bound.report.iter().try_for_each(|word| writeln!(out, "{word:08x}"))?;
            out.flush()
        })?);
    }
    pending.into_iter().try_for_each(Pending::commit)?;

    let (undefined, passed) = listed(&view, &bound);
    let unlisted = unlisted_needs(&view);
    let words = || {
        let mut text = bound_text(&view, &bound, image, &undefined, &passed, &unlisted);
        if let Some(lists) = &lists {
            text.push_str(&calls_text(&view, "to start", &lists.start));
            text.push_str(&calls_text(&view, "to stop", &lists.stop));
        }
        text
    };
    let value = || {
        fields! {
            "command": "bind",
            "result": "bound",
            "image": show::path(image),
            "address": hex(call.address),
            "arena": call.arena,
            "arena_needed": view.needed(),
            "strict": call.policy == Policy::Strict,
            "types": view.table.changed().into_iter().map(|(kind, mark)| fields! { "type": kind, "mark": mark }).collect::<Json>(),
            "host": object_json(&view, 0),
            "objects": bound.order().map(|k| object_json(&view, k)).collect::<Json>(),
            "undefined": undefined.iter().map(Listed::json).collect::<Json>(),
            "passed": passed.iter().map(Listed::json).collect::<Json>(),
            "needs_not_in_set": unlisted.iter().map(Unlisted::json).collect::<Json>(),
            "start": lists.as_ref().map(|lists| calls_json(&view, &lists.start)),
            "stop": lists.as_ref().map(|lists| calls_json(&view, &lists.stop)),
            "report": bound.report.iter().map(|word| format!("{word:08x}")).collect::<Json>(),
        }
    };
    Ok(Said::new(options.json, words, value))
}

/// The object that has an address.
fn holder(view: &View, address: u64) -> Option<usize> {
    (0..view.places.len()).find(|k| (view.base(*k)..view.end(*k)).contains(&address))
}

fn calls_text(view: &View, what: &str, list: &[u64]) -> String {
    if list.is_empty() {
        return format!("\n{what}: nothing to call\n");
    }
    let rows: Vec<Vec<String>> =
        list.iter().map(|a| vec![hex(*a), holder(view, *a).map_or("-".into(), |k| view.object(k))]).collect();
    format!(
        "\n{what}: {}, in this order\n{}",
        counted(list.len(), "call", "calls"),
        table(&["address", "object"], &rows)
    )
}

fn calls_json(view: &View, list: &[u64]) -> Json {
    list.iter().map(|a| fields! { "address": hex(*a), "object": holder(view, *a) }).collect()
}

fn object_json(view: &View, object: usize) -> Json {
    let label = view.label(object);
    fields! {
        "number": object,
        "name": label.name.clone(),
        "file": label.file.clone(),
        "start": hex(view.base(object)),
        "end": hex(view.end(object)),
    }
}

fn bound_text(
    view: &View,
    bound: &Bound,
    image: &Path,
    undefined: &[Listed],
    passed: &[Listed],
    unlisted: &[Unlisted],
) -> String {
    let arena = match view.arena_given {
        true => format!("the set needs {}", decimal(view.needed())),
        false => "as few as the set needs".to_string(),
    };
    let size = decimal(bound.image.len() as u64);
    let mut text = format!("bound: {}\n", show::path(image));
    let _ = writeln!(text, "to be mapped at {}, {size} bytes ({arena})", hex(view.call.address));
    for (kind, mark) in view.table.changed() {
        let _ = writeln!(text, "types: {} {mark}, not as supplied", relocations::shown(kind));
    }
    let order: Vec<usize> = bound.order().collect();
    let _ = writeln!(text, "\n{}, in binding order", counted(order.len(), "object", "objects"));
    let rows: Vec<Vec<String>> = order.iter().map(|k| object_row(view, *k)).collect();
    text.push_str(&table(&["no.", "name", "address range", "file"], &rows));
    let host = view.label(0).file.clone().unwrap_or_else(|| "the minimal host, which exports nothing".into());
    let _ = writeln!(text, "the host, object 0: {}, {host}", view.range(0));
    text.push('\n');
    text.push_str(&undefined_text(view, undefined));
    text.push('\n');
    if passed.is_empty() {
        text.push_str("passed over: no entry\n");
    } else {
        let _ =
            writeln!(text, "passed over: {}, of types that are not applied", counted(passed.len(), "entry", "entries"));
        let rows: Vec<Vec<String>> = passed
            .iter()
            .map(|e| vec![e.kind_text(), view.object(e.object), e.place_text(), e.entry.to_string(), e.symbol_text()])
            .collect();
        text.push_str(&table(&["type", "object", "place", "entry", "symbol"], &rows));
    }
    if !unlisted.is_empty() {
        let _ = writeln!(text, "\nnot in the set: {}", counted(unlisted.len(), "needed library", "needed libraries"));
        let rows: Vec<Vec<String>> =
            unlisted.iter().map(|need| vec![need.name.clone(), need.by(view), need.hint(view)]).collect();
        text.push_str(&table(&["name", "needed by", ""], &rows));
    }
    text
}

fn object_row(view: &View, object: usize) -> Vec<String> {
    let label = view.label(object);
    vec![object.to_string(), label.name.clone(), view.range(object), label.file.clone().unwrap_or_default()]
}

/// An entry that the report names.
pub struct Listed {
    object: usize,
    name: String,
    entry: u32,
    table: &'static str,
    symbol: Option<String>,
    place: Option<u64>,
    kind: Option<u32>,
}

impl Listed {
    fn new(view: &View, object: usize, entry: u32) -> Listed {
        let module = view.modules.get(object);
        let read = module.and_then(|module| module.entry(entry.into()));
        let symbol = read.and_then(|read| module?.name(&module?.symbol(read.symbol as usize)?).map(show::printable));
        Listed {
            object,
            name: view.label(object).name.clone(),
            entry,
            table: if module.is_some_and(|module| module.in_plt(entry.into())) { "PLT" } else { "RELA" },
            symbol,
            place: read.map(|read| view.base(object).wrapping_add(read.place)),
            kind: read.map(|read| read.kind),
        }
    }

    fn place_text(&self) -> String {
        self.place.map_or("?".into(), hex)
    }

    fn kind_text(&self) -> String {
        self.kind.map_or("?".into(), relocations::shown)
    }

    fn symbol_text(&self) -> String {
        match self.symbol.as_deref() {
            None => "?".into(),
            Some("") => "-".into(),
            Some(name) => name.into(),
        }
    }

    pub fn json(&self) -> Json {
        fields! {
            "object": self.object,
            "name": self.name.clone(),
            "entry": self.entry,
            "table": self.table,
            "symbol": self.symbol.clone(),
            "place": self.place.map(hex),
            "type": self.kind,
            "type_name": self.kind.and_then(relocations::name),
        }
    }
}

/// The undefined entries of a report, and those passed over.
pub fn listed(view: &View, bound: &Bound) -> (Vec<Listed>, Vec<Listed>) {
    let (mut object, mut undefined, mut passed) = (0, Vec::new(), Vec::new());
    for word in bound.words() {
        match word {
            Word::Object(k) => object = k as usize,
            Word::Undefined(entry) => undefined.push(Listed::new(view, object, entry)),
            Word::Passed(entry) => passed.push(Listed::new(view, object, entry)),
        }
    }
    (undefined, passed)
}

pub fn undefined_text(view: &View, undefined: &[Listed]) -> String {
    if undefined.is_empty() {
        return "undefined: no entry\n".into();
    }
    let entries = counted(undefined.len(), "entry", "entries");
    let mut text = format!("undefined: {entries}, whose symbol no object of the set has (its address counts as 0)\n");
    let rows: Vec<Vec<String>> = undefined
        .iter()
        .map(|e| vec![e.symbol_text(), view.object(e.object), e.place_text(), e.entry.to_string(), e.kind_text()])
        .collect();
    text.push_str(&table(&["symbol", "object", "place", "entry", "type"], &rows));
    text
}

/// A needed library that is not in the set.
struct Unlisted {
    name: String,
    by: Vec<usize>,
    /// A library of the set whose file calls itself by this name.
    meant: Option<usize>,
}

impl Unlisted {
    fn by(&self, view: &View) -> String {
        self.by.iter().map(|k| view.object(*k)).collect::<Vec<String>>().join(", ")
    }

    fn hint(&self, view: &View) -> String {
        let Some(k) = self.meant else { return String::new() };
        let file = view.label(k).file.as_deref().unwrap_or("FILE");
        format!("object {k} calls itself so: give it as {}={file}", self.name)
    }

    fn json(&self) -> Json {
        fields! {
            "name": self.name.clone(),
            "needed_by": self.by.iter().copied().collect::<Json>(),
            "soname_of": self.meant,
        }
    }
}

fn unlisted_needs(view: &View) -> Vec<Unlisted> {
    let mut unlisted: Vec<Unlisted> = Vec::new();
    let mut place = HashMap::new();
    for object in 1..view.modules.len() {
        for (name, holder) in view.needs(object) {
            if holder.is_some() {
                continue;
            }
            let k = *place.entry(name.clone()).or_insert_with(|| {
                let calls_itself = |k: &usize| view.modules[*k].soname().map(show::printable).as_ref() == Some(&name);
                unlisted.push(Unlisted { meant: (2..view.modules.len()).find(calls_itself), name, by: Vec::new() });
                unlisted.len() - 1
            });
            if unlisted[k].by.last() != Some(&object) {
                unlisted[k].by.push(object);
            }
        }
    }
    unlisted
}

// ---- query

fn query(options: &Options, subject: &Subject) -> Result<Said, Failure> {
    let names = names(options)?;
    let requester = requester(options, subject)?;
    let view = View::new(subject, options)?;
    subject.progress.say(|| format!("asking for {}", counted(names.len(), "name", "names")));
    let addresses = view.call.query_all(requester, &names);
    let found = match addresses.and_then(|addresses| located(&view, requester, &names, &addresses)) {
        Ok(found) => found,
        Err(refusal) => return Ok(refused::said(options, &view, refusal)),
    };
    let answers = || names.iter().map(|name| show::printable(name)).zip(&found);
    let words = || {
        let row = |(name, found): (String, &Option<Found>)| match found {
            Some(f) => vec![hex(f.address), view.object(f.object as usize), f.symbol.to_string(), name],
            None => vec!["-".into(), "no object has it".into(), "-".into(), name],
        };
        table(&["address", "object", "symbol", "name"], &answers().map(row).collect::<Vec<Vec<String>>>())
    };
    let value = || {
        let one = |(name, found): (String, &Option<Found>)| {
            fields! {
                "name": name,
                "address": found.map(|f| hex(f.address)),
                "object": found.map(|f| f.object),
                "object_name": found.map(|f| view.label(f.object as usize).name.clone()),
                "symbol": found.map(|f| f.symbol),
            }
        };
        fields! {
            "command": "query",
            "result": "answered",
            "address": hex(view.call.address),
            "arena": view.call.arena,
            "requester": requester,
            "names": answers().map(one).collect::<Json>(),
        }
    };
    Ok(Said::new(options.json, words, value))
}

/// The object and the symbol of each address. The archive's list has addresses alone; where one symbol of the set has that name and that
/// address it is the one, and a name for which there are several, or for which 0 can be an address, is asked for by itself.
fn located(view: &View, requester: u32, names: &[Vec<u8>], addresses: &[u64]) -> Result<Vec<Option<Found>>, Refusal> {
    let mut places: HashMap<&[u8], (u64, Option<Found>, usize)> = HashMap::new();
    for (name, address) in names.iter().zip(addresses) {
        places.insert(name, (*address, None, 0));
    }
    let longest = names.iter().map(Vec::len).max().unwrap_or(0);
    for (object, module) in view.modules.iter().enumerate() {
        for (index, symbol) in module.symbols().filter(|(_, symbol)| symbol.exported()) {
            let name = module.name_within(&symbol, longest);
            let Some((address, found, count)) = name.and_then(|name| places.get_mut(name)) else { continue };
            if symbol.address(view.base(object)) == *address {
                *found = Some(Found { object: object as u32, symbol: index as u32, address: *address });
                *count += 1;
            }
        }
    }
    for (name, (address, found, count)) in &mut places {
        let certain = if *address == 0 { *count == 0 } else { *count == 1 };
        if !certain {
            *found = view.call.query(requester, name)?;
        }
    }
    Ok(names.iter().map(|name| places.get(name.as_slice()).and_then(|(_, found, _)| *found)).collect())
}

/// The names that are asked for: the arguments, then the lines of a file.
fn names(options: &Options) -> Result<Vec<Vec<u8>>, Failure> {
    let mut names = options.names.clone();
    let Some(path) = &options.names_file else { return Ok(names) };
    let mut text = Vec::new();
    let read = match path.as_os_str() == "-" {
        true => io::stdin().read_to_end(&mut text),
        false => std::fs::File::open(path).and_then(|mut file| file.read_to_end(&mut text)),
    };
    read.map_err(|error| Failure::files(format!("cannot read {}: {}", show::path(path), show::reason(&error)), path))?;
    for (k, line) in text.split(|byte| *byte == b'\n').enumerate() {
        if line.contains(&0) {
            let message = format!("{}: line {} has a zero byte, which no name has", show::path(path), k + 1);
            return Err(Failure::files(message, path));
        }
        let line = line.trim_ascii();
        if !line.is_empty() {
            names.push(line.to_vec());
        }
    }
    Ok(names)
}

/// The object that asks.
fn requester(options: &Options, subject: &Subject) -> Result<u32, Failure> {
    options.requester.as_ref().map_or(Ok(1), |given| object_of(options, subject, "requester", &show::path(given)))
}

/// The order that is asked for.
fn own_order(options: &Options, subject: &Subject) -> Result<Option<Vec<u32>>, Failure> {
    let Some(given) = &options.order else { return Ok(None) };
    show::path(given)
        .split(',')
        .map(|text| object_of(options, subject, "order", text))
        .collect::<Result<_, _>>()
        .map(Some)
}

/// An object by its number or its name. A number that no object has is for the archive to refuse.
fn object_of(options: &Options, subject: &Subject, option: &str, text: &str) -> Result<u32, Failure> {
    if let Ok(number) = text.parse() {
        return Ok(number);
    }
    match subject.labels.iter().position(|label| label.name == text) {
        Some(number) => Ok(number as u32),
        None => Err(options.command.usage(format!("--{option} {text}: no object of the set has this number or name"))),
    }
}

// ---- order

fn order(options: &Options, subject: &Subject) -> Result<Said, Failure> {
    if options.dot && options.json {
        return Err(options.command.usage("--dot and --json: only one of them can be given"));
    }
    let mut view = View::new(subject, options)?;
    // the order is that of any types: so no entry is refused
    view.call.types = Types::all(Mark::Pass);
    subject.say_binding();
    let bound = match view.call.bind() {
        Ok(bound) => bound,
        Err(refusal) => return Ok(refused::said(options, &view, refusal)),
    };
    let order: Vec<usize> = bound.order().collect();
    let words = || match options.dot {
        true => dot(&view, &order),
        false => {
            let rows: Vec<Vec<String>> = order.iter().map(|k| order_row(&view, *k)).collect();
            format!("binding order\n{}", table(&["no.", "name", "needs"], &rows))
        }
    };
    let value = || {
        let objects = order.iter().map(|k| {
            let label = view.label(*k);
            let needs = view.needs(*k).into_iter().map(|(name, object)| fields! { "name": name, "object": object });
            fields! { "number": *k, "name": label.name.clone(), "file": label.file.clone(), "needs": needs.collect::<Json>() }
        });
        fields! { "command": "order", "result": "answered", "objects": objects.collect::<Json>() }
    };
    Ok(Said::new(options.json, words, value))
}

fn order_row(view: &View, object: usize) -> Vec<String> {
    let needs: Vec<String> = view
        .needs(object)
        .into_iter()
        .map(|(name, object)| match object {
            Some(object) => view.object(object),
            None => format!("{name} (not in the set)"),
        })
        .collect();
    vec![
        object.to_string(),
        view.label(object).name.clone(),
        if needs.is_empty() { "-".into() } else { needs.join(", ") },
    ]
}

/// The needs as a graph. Each object has its number, its name and its place in the order; needs that are not in the set are dashed.
fn dot(view: &View, order: &[usize]) -> String {
    let quoted = |text: &str| format!("\"{}\"", text.replace('\\', "\\\\").replace('"', "\\\""));
    let mut text = String::from("digraph order {\n  rankdir=LR;\n  node [shape=box];\n");
    for (place, object) in order.iter().enumerate() {
        let label = quoted(&format!("{}. {}", place + 1, view.object(*object)));
        let _ = writeln!(text, "  o{object} [label={label}];");
    }
    for need in unlisted_needs(view) {
        let label = quoted(&format!("{} (not in the set)", need.name));
        let _ = writeln!(text, "  {} [label={label}, style=dashed];", quoted(&need.name));
    }
    for object in order {
        for (name, holder) in view.needs(*object) {
            let _ = match holder {
                Some(holder) => writeln!(text, "  o{object} -> o{holder};"),
                None => writeln!(text, "  o{object} -> {} [style=dashed];", quoted(&name)),
            };
        }
    }
    text.push_str("}\n");
    text
}

// ---- set

fn set(options: &Options, subject: &Subject) -> Result<Said, Failure> {
    let path = output(options)?;
    let set: &Set = &subject.set;
    Pending::write(path, |mut out| set.write(&mut out))?.commit()?;
    let length = set.input_length();
    let libraries = set.objects() - 2;
    let words = || {
        let parts = format!("host, program, {}", counted(libraries, "library", "libraries"));
        let mut text = format!("written: {}, {} bytes: {parts}\n", show::path(path), decimal(length as u64));
        if length > PROGRAM_INPUT {
            text.push_str(
                "over 65,536 bytes: document 01's program refuses it by 1; `lugwormpin bind --set FILE` takes it\n",
            );
        }
        text
    };
    let value = || {
        fields! {
            "command": "set",
            "result": "written",
            "file": show::path(path),
            "bytes": length,
            "libraries": libraries,
            "document_01_takes_it": length <= PROGRAM_INPUT,
        }
    };
    Ok(Said::new(options.json, words, value))
}
