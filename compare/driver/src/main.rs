//! Reads sets from standard input, hands each to the port and to the Rust, and compares. usage: driver RUST_SIDE FILE TWINS SEED
//! RUST_SIDE is the program with the Rust; the first set that differs goes to FILE. Sets with a hidden twin, of which the Rust answers only
//! other names, go to TWINS with what the port answered, for twins.py.
mod port;
mod reader;
mod shared;
mod sides;

use std::{
    collections::{BTreeMap, HashSet},
    fs::File,
    io::{BufWriter, Write},
    time::Instant,
};

use port::{bind, query, query_all, Found, Refusal, Set};
use shared::*;
use sides::{Frames, Rust};

/// Queries are left out, at random, where a set has more than this many, or where they would go over more bytes than this.
const MOST_QUERIES: usize = 1500;
const MOST_BYTES: usize = 96 << 20;

/// Random numbers (splitmix64).
struct Random(u64);

impl Random {
    fn next(&mut self) -> u64 {
        self.0 = self.0.wrapping_add(0x9e37_79b9_7f4a_7c15);
        let mut z = self.0;
        z = (z ^ z >> 30).wrapping_mul(0xbf58_476d_1ce4_e5b9);
        z = (z ^ z >> 27).wrapping_mul(0x94d0_49bb_1331_11eb);
        z ^ z >> 31
    }
    fn below(&mut self, n: usize) -> usize {
        (self.next() % n as u64) as usize
    }
}

#[derive(Default)]
struct Counts {
    outcomes: BTreeMap<String, usize>,
    forms: BTreeMap<String, (usize, usize)>,
    sets: usize,
    compared: usize,
    differ: usize,
    queries: usize,
    twins: usize,
    twin_queries: usize,
    seen: BTreeMap<&'static str, usize>,
}

/// What came of a set: the outcome, whether it was compared with the Rust on the common domain, the first difference, and what the port
/// answered where the set has a hidden twin.
struct Verdict {
    outcome: String,
    compared: bool,
    difference: Option<String>,
    twin: Option<Vec<u8>>,
}

/// What the port answered, as twins.py reads it: the refusal's number and object, the report, the arena after bind and after a query, the
/// count of queries, and of each requester, length of the name, name, 1 if found, object, symbol, address.
fn answered(
    bound: Result<(), Refusal>, report: &[u32], arena: &[u8], placed: &[u8], questions: &[(u32, Vec<u8>)], answers: &[Option<Found>],
) -> Vec<u8> {
    let Refusal(number, object) = bound.err().unwrap_or(Refusal(0, 0));
    let mut out: Vec<u8> = [&[number, object], report].concat().iter().flat_map(|word| word.to_le_bytes()).collect();
    out.extend([arena, placed].concat());
    out.extend((questions.len() as u32).to_le_bytes());
    for ((requester, name), answer) in questions.iter().zip(answers) {
        out.extend([*requester, name.len() as u32].iter().flat_map(|word| word.to_le_bytes()));
        out.extend(name);
        let words = answer.map_or([0; 4], |found| [1, found.object, found.symbol, found.address]);
        out.extend(words.iter().flat_map(|word: &u64| word.to_le_bytes()));
    }
    out
}

fn first_difference(ours: &[u8], theirs: &[u8]) -> String {
    match ours.iter().zip(theirs).position(|(a, b)| a != b) {
        Some(at) => format!("at arena offset {at:#x}: {:#04x}, the Rust {:#04x}", ours[at], theirs[at]),
        None => "in length".into(),
    }
}

/// Names that do not occur, near to one that does: longer, shorter, and one of the same GNU hash.
fn near(name: &[u8]) -> Vec<Vec<u8>> {
    let mut out = vec![[name, b"x"].concat()];
    if let Some((_, shorter)) = name.split_last() {
        out.push(shorter.to_vec());
    }
    if let Some(i) = (1..name.len()).find(|&i| (34..127).contains(&name[i]) && (1..126).contains(&name[i - 1])) {
        let mut same = name.to_vec();
        same[i - 1] += 1;
        same[i] -= 33;
        out.push(same);
    }
    out.retain(|name| std::str::from_utf8(name).is_ok() && !name.contains(&0));
    out
}

/// What is asked: each name of a symbol and some others, by each requester.
fn questions(set: &Set, objects: &[reader::Object], random: &mut Random) -> Vec<(u32, Vec<u8>)> {
    let mut occur = HashSet::new();
    for object in objects {
        object.names(&mut occur);
    }
    let mut names: Vec<Vec<u8>> = occur.into_iter().filter(|name| std::str::from_utf8(name).is_ok()).collect();
    names.sort();
    let mut others = vec![Vec::new(), b"no_such_name".to_vec()];
    for _ in 0..names.len().min(3) {
        others.extend(near(&names[random.below(names.len())]));
    }
    names.extend(others);
    let mut all: Vec<(u32, Vec<u8>)> =
        names.iter().flat_map(|name| (0..objects.len() as u32).map(move |requester| (requester, name.clone()))).collect();
    let most = MOST_QUERIES.min(MOST_BYTES / (set.arena + set.bytes.len() + 4096)).max(40);
    while all.len() > most {
        all.swap_remove(random.below(all.len()));
    }
    all
}

/// The same questions by one call for each requester: what it leaves in the words, in the questions' order, or what is wrong.
fn all_at_once(set: &Set, objects: usize, placed: &[u8], questions: &[(u32, Vec<u8>)]) -> Result<Vec<u64>, String> {
    let mut arena = vec![0x3cu8; set.arena];
    let mut words = vec![u64::MAX; questions.len()];
    for requester in 0..objects as u32 {
        let mine: Vec<usize> = (0..questions.len()).filter(|&i| questions[i].0 == requester).collect();
        let list: Vec<u8> = mine.iter().flat_map(|&i| questions[i].1.iter().copied().chain([0])).collect();
        let mut addresses = vec![u64::MAX; mine.len()];
        arena.fill(0x3c);
        query_all(set, &mut arena, requester, &list, &mut addresses).map_err(|refusal| format!("query_all: {refusal:?} for requester {requester}"))?;
        if arena != placed {
            return Err("query_all leaves other bytes than a query".into());
        }
        mine.iter().zip(addresses).for_each(|(&i, address)| words[i] = address);
    }
    // 13 before 23, each with zeros
    for (requester, list, number) in [(objects as u32, b"a".as_slice(), 13), (1, b"a", 23), (1, b"a\0b", 23), (1, b"a\0b\0", 23)] {
        let answer = query_all(set, &mut arena, requester, list, &mut [u64::MAX]);
        if answer != Err(Refusal(number, 0)) {
            return Err(format!("query_all: {answer:?} in place of {number}"));
        }
    }
    Ok(words)
}

fn library_names(set: &Set) -> Vec<&[u8]> {
    let mut at = 0;
    let parts = set.sheet.iter().map(|word| {
        let size = (word & 0x0fff_ffff) as usize;
        at += size;
        &set.bytes[at - size..at]
    });
    parts.skip(3).step_by(2).collect()
}

/// Counts the forms that a bound set has.
fn count_forms(objects: &[reader::Object], names: &[&[u8]], seen: &mut BTreeMap<&'static str, usize>) {
    for object in objects {
        object.forms(seen);
    }
    let old = seen.entry("most libraries of a set").or_default();
    *old = names.len().max(*old);
    let needs: Vec<Vec<&[u8]>> = objects[2..].iter().map(|object| object.needs()).collect();
    *seen.entry("sets with a need that is not listed").or_default() += needs.iter().flatten().any(|need| !names.contains(need)) as usize;
    // What is needed, in one step or more.
    let listed = |needs: &Vec<&[u8]>| names.iter().enumerate().fold(0, |sum, (k, name)| sum | (needs.contains(name) as u64) << k);
    let edges: Vec<u64> = needs.iter().map(listed).collect();
    let mut reached = edges.clone();
    for _ in 0..names.len() {
        for k in 0..names.len() {
            reached[k] |= (0..names.len()).filter(|j| reached[k] >> j & 1 == 1).fold(0, |sum, j| sum | edges[j]);
        }
    }
    let longer = |k: usize| reached[k] >> k & 1 == 1 && edges[k] >> k & 1 == 0;
    *seen.entry("sets with libraries that need each other").or_default() += (0..names.len()).any(longer) as usize;
}

fn compare(set: &Set, rust: &mut Rust, random: &mut Random, counts: &mut Counts) -> Verdict {
    let differs = |outcome: &str, text: String| Verdict { outcome: outcome.into(), compared: false, difference: Some(text), twin: None };
    // Arena and report are not clear when they are handed over.
    let mut arena = vec![0xa5u8; set.arena];
    let mut report = vec![0xa5a5_a5a5u32; set.report];
    let bound = bind(set, &mut arena, &mut report);
    let mut placed = vec![0x5au8; set.arena];
    let asked = query(set, &mut placed, 1, b"");
    if let Err(refusal) = bound {
        if arena.iter().any(|&byte| byte != 0) || report.iter().any(|&word| word != 0) {
            return differs("refused", format!("{refusal:?}, and arena or report are not clear"));
        }
    }
    match (bound, asked) {
        (Err(a), Err(b)) if a == b && (a.0 <= 12 || a.0 == 21) => {
            if placed.iter().any(|&byte| byte != 0) {
                return differs("refused", format!("query: {a:?}, and the arena is not clear"));
            }
            let all = query_all(set, &mut placed, 1, b"\0", &mut [u64::MAX]);
            if all != Err(a) {
                return differs("refused", format!("query: {a:?}, query_all: {all:?}"));
            }
            return Verdict { outcome: format!("refused {}", a.0), compared: false, difference: None, twin: None };
        }
        (Ok(()), Ok(_)) => (),
        (Err(Refusal(14..=20 | 22 | 28, _)), Ok(_)) => (),
        _ => return differs("bind and query", format!("bind: {bound:?}, query: {asked:?}")),
    }

    let objects = reader::objects(&set.sheet, &set.bytes, &placed, set.address);
    let names = library_names(set);
    let outside = if names.iter().all(|name| std::str::from_utf8(name).is_ok()) {
        objects.iter().find_map(|object| object.outside(set.address))
    } else {
        Some("a name that is not UTF-8")
    };

    let mut other = vec![0u8; set.arena];
    if query(set, &mut other, objects.len() as u32, b"") != Err(Refusal(13, 0)) || other.iter().any(|&byte| byte != 0) {
        return differs("query", "a requester that is no object is not refused by 13 with a clear arena".into());
    }
    let questions = questions(set, &objects, random);
    let mut answers: Vec<Option<Found>> = Vec::with_capacity(questions.len());
    for (requester, name) in &questions {
        match query(set, &mut other, *requester, name) {
            Ok(answer) => answers.push(answer),
            Err(refusal) => {
                let name = String::from_utf8_lossy(name);
                return differs("query", format!("{refusal:?} for requester {requester}, name {name:?}"));
            }
        }
    }
    if other != placed {
        return differs("query", "the placed bytes depend on the query".into());
    }

    let words = match all_at_once(set, objects.len(), &placed, &questions) {
        Ok(words) => words,
        Err(text) => return differs("query_all", text),
    };
    if let Some(i) = (0..words.len()).find(|&i| words[i] != answers[i].map_or(0, |found| found.address)) {
        return differs("query_all", format!("{:#x}, query: {:?} for {:?}", words[i], answers[i], questions[i]));
    }

    let mut twins = HashSet::new();
    for object in &objects {
        object.hidden_twins(&mut twins);
    }
    let twin = (!twins.is_empty()).then(|| answered(bound, &report, &arena, &placed, &questions, &answers));

    let number = bound.err().map_or(0, |refusal| refusal.0);
    // Of the refusals after loading the Rust has 14 and 19; it has no report, so 20 is none to it.
    let whole = twins.is_empty() && matches!(number, 0 | 14 | 19);
    rust.run(set, &questions, if whole { RELOCATED } else { ANSWERED });
    let difference = against_the_rust(set, &rust.shared, number, whole, &objects, &placed, &questions, &answers, &words, &twins, &arena, &report);

    let what = if number == 0 { "bound".to_string() } else { format!("refused {number}") };
    match outside {
        Some(why) => {
            let equal = if difference.is_none() { "equal" } else { "not equal" };
            let outcome = format!("{what}, outside the common domain ({why}), the Rust {equal}");
            Verdict { outcome, compared: false, difference: None, twin }
        }
        None if twin.is_some() => {
            let asked = questions.iter().filter(|(_, name)| twins.contains(name)).count();
            counts.twin_queries += asked;
            counts.queries += questions.len() - asked;
            let equal = if difference.is_none() { "equal" } else { "DIFFERENT" };
            let outcome = format!("{}, a hidden twin, placed bytes and other names {equal}", if number == 0 { "bound" } else { "refused" });
            Verdict { outcome, compared: false, difference, twin }
        }
        None => {
            if number == 0 {
                count_forms(&objects, &names, &mut counts.seen);
                let copies = ["COPY of a smaller source", "COPY of a source of equal size", "COPY of a larger source"];
                for (i, what) in copies.into_iter().enumerate() {
                    *counts.seen.entry(what).or_default() += rust.shared.get(COPIES + i) as usize;
                }
            }
            counts.queries += questions.len();
            let same = match number {
                0 => "the Rust equal",
                14 | 19 => "the Rust's error, placed bytes and names equal",
                _ => "placed bytes and names equal",
            };
            let outcome = if difference.is_some() { format!("{what}, the Rust DIFFERENT") } else { format!("{what}, {same}") };
            Verdict { outcome, compared: true, difference, twin }
        }
    }
}

#[allow(clippy::too_many_arguments)]
fn against_the_rust(
    set: &Set, s: &Shared, number: u32, whole: bool, objects: &[reader::Object], placed: &[u8], questions: &[(u32, Vec<u8>)],
    answers: &[Option<Found>], words: &[u64], twins: &HashSet<Vec<u8>>, arena: &[u8], report: &[u32],
) -> Option<String> {
    let (stage, result) = (s.get(STAGE), s.get(RESULT));
    if result == NO_ARENA {
        return Some(format!("the Rust was not run: no memory at {:#x}", set.address));
    }
    if stage < PLACED {
        return Some(format!("the Rust stopped at stage {stage}, signal {}, result {result}", s.get(SIGNAL)));
    }
    let theirs = s.part(AT_PLACED, set.arena);
    if theirs != placed {
        return Some(format!("placed bytes {}", first_difference(placed, theirs)));
    }
    if stage < ANSWERED {
        return Some(format!("the Rust stopped while it answered queries, signal {}", s.get(SIGNAL)));
    }
    for (i, (answer, (requester, name))) in answers.iter().zip(questions).enumerate() {
        if twins.contains(name) {
            continue;
        }
        let line = s.part(AT_ANSWERS + 48 * i, 48);
        let word = |k: usize| u64::from_le_bytes(line[8 * k..8 * k + 8].try_into().unwrap());
        let same = match answer {
            None => word(0) == 0,
            Some(found) => {
                let symbol = objects.get(found.object as usize).and_then(|object| object.symbol(found.symbol as usize));
                word(0) == 1 && word(1) == found.object && word(2) == found.address && symbol == Some(&line[24..])
            }
        };
        if words[i] != if word(0) == 1 { word(2) } else { 0 } {
            let name = String::from_utf8_lossy(name);
            return Some(format!("requester {requester}, name {name:?}: {:#x} by query_all, the Rust {}, {:#x}", words[i], word(0), word(2)));
        }
        if !same {
            let name = String::from_utf8_lossy(name);
            return Some(format!("requester {requester}, name {name:?}: {answer:?}, the Rust {}, {}, {:#x}", word(0), word(1), word(2)));
        }
    }
    if s.get(WRONG) != 0 {
        return Some("the Rust's arena has pages that cannot be read".into());
    }
    let ended = s.get(SIGNAL) == 0 && s.get(STATUS) == 0;
    let wanted = match number {
        14 if whole => OUT_OF_BOUNDS,
        19 if whole => UNDEFINED,
        _ => FINE,
    };
    if !ended || result != wanted {
        let text = String::from_utf8_lossy(s.part(AT_PRINTED, s.get(PRINTED).min(300) as usize));
        return Some(format!("the Rust: stage {stage}, result {result}, signal {}, status {}: {text}", s.get(SIGNAL), s.get(STATUS)));
    }
    if !whole || number == 14 {
        return None;
    }
    // The names that the Rust prints or returns, and those of the entries that it found undefined by its own answers.
    let (printed, expected) = (s.part(AT_PRINTED, s.get(PRINTED) as usize), s.part(AT_EXPECTED, s.get(EXPECTED) as usize));
    if printed != expected {
        let (printed, expected) = (String::from_utf8_lossy(printed), String::from_utf8_lossy(expected));
        return Some(format!("undefined names: the Rust says {printed:?}, its answers {expected:?}"));
    }
    if number == 19 {
        return (expected.is_empty()).then(|| "refused 19, and the Rust has no undefined names".into());
    }
    let words: Vec<u32> =
        s.part(AT_REPORT, 4 * s.get(REPORT) as usize).chunks(4).map(|w| u32::from_le_bytes(w.try_into().unwrap())).collect();
    let ours: Vec<u32> = report.iter().copied().take_while(|&word| word != 0).collect();
    if ours != words {
        let at = ours.iter().zip(&words).position(|(a, b)| a != b).unwrap_or(ours.len().min(words.len()));
        return Some(format!("word {at} of the report: {:08x?}, the Rust {:08x?}", ours.get(at), words.get(at)));
    }
    if report[ours.len()..].iter().any(|&word| word != 0) {
        return Some("a word of the report after the first 0".into());
    }
    let theirs = s.part(AT_RELOCATED, set.arena);
    (theirs != arena).then(|| format!("relocated bytes {}", first_difference(arena, theirs)))
}

fn main() {
    let arguments: Vec<String> = std::env::args().collect();
    let [_, program, file, twins, seed] = &arguments[..] else { panic!("usage: driver RUST_SIDE FILE TWINS SEED") };
    let mut twins = BufWriter::new(File::create(twins).expect("the file for sets with a hidden twin"));
    let mut random = Random(seed.parse().expect("a number"));
    let mut rust = Rust::start(program, &[]);
    let mut frames = Frames(std::io::BufReader::with_capacity(1 << 20, std::io::stdin()), Vec::new());
    let mut counts = Counts::default();
    let (start, mut said) = (Instant::now(), 0);
    while let Some(set) = frames.next() {
        let verdict = compare(&set, &mut rust, &mut random, &mut counts);
        counts.sets += 1;
        counts.compared += verdict.compared as usize;
        *counts.outcomes.entry(verdict.outcome).or_default() += 1;
        let form = counts.forms.entry(set.label.split(' ').next().unwrap_or("").to_string()).or_default();
        form.0 += 1;
        form.1 += verdict.compared as usize;
        if let Some(answers) = verdict.twin {
            counts.twins += 1;
            twins.write_all(&frames.1).and_then(|()| twins.write_all(&answers)).expect("the file for sets with a hidden twin");
        }
        if let Some(text) = verdict.difference {
            counts.differ += 1;
            if counts.differ <= 10 {
                println!("{}: {text}", set.label);
            }
            if counts.differ == 1 {
                std::fs::write(file, &frames.1).expect("the file for the set that differs");
                println!("  saved to {file}; again by compare/run --replay {file}");
            }
        }
        let seconds = start.elapsed().as_secs();
        if seconds >= said + 30 {
            said = seconds;
            eprintln!("{seconds} s: {} sets, {} compared, {} differ", counts.sets, counts.compared, counts.differ);
        }
    }
    for (form, (sets, compared)) in &counts.forms {
        println!("{sets:8} sets {form}, {compared} compared");
    }
    for (outcome, count) in &counts.outcomes {
        println!("{count:8} {outcome}");
    }
    println!("In the bound sets that were compared:");
    for (what, count) in &counts.seen {
        println!("{count:8} {what}");
    }
    println!("{:8} queries were compared, those of refused sets among them, each by query and by query_all.", counts.queries);
    println!(
        "{:8} sets have a hidden twin: {} queries of such names, words and relocated bytes are not compared with the Rust.",
        counts.twins, counts.twin_queries
    );
    println!("{} sets, {} compared, {} differ", counts.sets, counts.compared, counts.differ);
    twins.flush().expect("the file for sets with a hidden twin");
    std::process::exit((counts.differ != 0) as i32);
}
