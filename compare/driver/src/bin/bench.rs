//! Times the port and the Rust on the sets of standard input, in turn. usage: bench RUST_SIDE SECONDS
//! SECONDS is how long each set is repeated; 0 is one round, without the figures that need a second one (for callgrind).
//! Output, one line a figure: set, what, least, median and number of rounds (nanoseconds), or set, what and one number.
//! Further words of a set's label are in bench/sets.py. A set that the port refuses has no figures and a line on standard error.
#[path = "../port.rs"]
mod port;
#[path = "../shared.rs"]
mod shared;
#[path = "../sides.rs"]
mod sides;

use std::{
    arch::{asm, x86_64::_rdtsc},
    ffi::c_void,
    hint::black_box,
    time::Instant,
};

use port::{bind, mmap, query, query_all, Refusal, Set};
use shared::*;
use sides::{Frames, Rust};

extern "C" {
    fn munmap(at: *mut c_void, length: usize) -> i32;
}

const QUESTIONS: usize = 400;
/// The least and the most. A set whose rounds are long has fewer: as many as are begun in LONGER times SECONDS.
const ROUNDS: (usize, usize) = (5, 400);
const LONGER: f64 = 4.0;
const PAINTED: usize = 512 << 10;

/// Zero pages that nothing has touched.
struct Pages(*mut c_void, usize);

impl Pages {
    fn new(length: usize) -> Pages {
        // PROT_READ | PROT_WRITE, MAP_PRIVATE | MAP_ANONYMOUS
        let at = unsafe { mmap(std::ptr::null_mut(), length, 3, 0x22, -1, 0) };
        assert!(at as isize > 0, "no memory");
        Pages(at, length)
    }
    fn bytes(&mut self) -> &mut [u8] {
        unsafe { std::slice::from_raw_parts_mut(self.0 as *mut u8, self.1) }
    }
}

impl Drop for Pages {
    fn drop(&mut self) {
        unsafe { munmap(self.0, self.1) };
    }
}

/// Before each call that is timed, untimed: the set's bytes are read and the arena is filled, so that each meets them in the same state.
fn make_ready(set: &Set, arena: &mut [u8]) {
    black_box(set.bytes.iter().fold(0u8, |sum, byte| sum.wrapping_add(*byte)));
    black_box(arena).fill(black_box(0xa5));
}

fn nanoseconds(work: impl FnOnce()) -> u64 {
    let start = Instant::now();
    work();
    start.elapsed().as_nanos() as u64
}

/// The bytes of stack that a call uses: those below the caller's that it changed.
#[inline(never)]
fn stack(call: &mut dyn FnMut()) -> usize {
    const PAINT: u8 = 0xa7;
    let top: usize;
    unsafe { asm!("mov {}, rsp", out(reg) top) };
    let painted = (top - PAINTED..top - 256).map(|at| at as *mut u8);
    for at in painted.clone() {
        unsafe { at.write_volatile(PAINT) };
    }
    call();
    let lowest = painted.clone().find(|at| unsafe { at.read_volatile() } != PAINT);
    top - lowest.map_or(top, |at| at as usize)
}

#[derive(Default)]
struct Figures(Vec<(&'static str, Vec<u64>)>);

impl Figures {
    fn add(&mut self, what: &'static str, time: u64) {
        match self.0.iter_mut().find(|(known, _)| *known == what) {
            Some((_, times)) => times.push(time),
            None => self.0.push((what, vec![time])),
        }
    }
}

fn questions(set: &Set) -> Vec<(u32, Vec<u8>)> {
    let objects = set.sheet.len() / 2 + 1;
    let once = set.label.contains("once");
    let one = |k: usize| (if once { 1 } else { 7 * k % objects } as u32, format!("name_{}_of_lib", 13 * k).into_bytes());
    if set.label.contains("queries") { (0..QUESTIONS).map(one).collect() } else { Vec::new() }
}

fn measure(set: &Set, rust: &mut Rust, seconds: f64) {
    let (label, more) = set.label.split_once(' ').unwrap_or((&set.label, ""));
    let (alone, program) = (more == "alone", label.starts_with("vi-"));
    let asked = questions(set);
    // The names of one requester, for one call.
    let list: Vec<u8> = asked.iter().flat_map(|(_, name)| name.iter().copied().chain([0])).collect();
    let mut addresses = vec![0u64; asked.len()];
    let once = more.contains("once");
    if !alone {
        rust.hand_over(set, &asked, RELOCATED);
        rust.shared.set(NEW, 1);
        rust.shared.set(WANTED, 1);
    }
    // Files may have more bytes than they have in memory; memcpy takes all of them.
    let mut warm = Pages::new(set.arena.max(set.bytes.len()));
    let room = warm.bytes();
    let mut report = vec![0u32; set.report];
    let mut figures = Figures::default();
    let (start, ticks) = (Instant::now(), unsafe { _rdtsc() });
    for round in 0.. {
        // The first round compares the results. It is not counted, since it brings memory and files in, but where it is long.
        make_ready(set, room);
        let arena = &mut room[..set.arena];
        let (mut found, mut answer) = (0, Ok(()));
        let port = nanoseconds(|| {
            if asked.is_empty() {
                answer = bind(set, arena, &mut report);
            }
            for (requester, name) in &asked {
                found += query(set, arena, *requester, name).unwrap().is_some() as u64;
            }
        });
        if let Err(Refusal(number, object)) = answer {
            eprintln!("{label}: left out, the port refuses it: {number}, object {object}");
            return;
        }
        let mut all = 0;
        if once {
            make_ready(set, room);
            let arena = &mut room[..set.arena];
            all = nanoseconds(|| assert_eq!(query_all(set, arena, 1, &list, &mut addresses), Ok(())));
            assert_eq!(addresses.iter().filter(|&&address| address != 0).count() as u64, found, "{label}: the words of query_all");
        }
        if !alone {
            rust.go();
        }
        let time = |i: usize| rust.shared.get(TIMES + i);
        if round == 0 {
            if !alone {
                assert_eq!((rust.shared.get(RESULT), rust.shared.get(WRONG)), (FINE, 0), "the Rust on {label}");
                if asked.is_empty() {
                    let arena = &room[..set.arena];
                    assert!(rust.shared.part(AT_RELOCATED, set.arena) == arena, "{label}: the relocated bytes differ");
                } else {
                    assert_eq!(rust.shared.get(OBJECT), found, "{label}: the number of names that are found differs");
                }
                rust.shared.set(NEW, 0);
                rust.shared.set(WANTED, 0);
            }
            if seconds == 0.0 {
                return;
            }
            if start.elapsed().as_secs_f64() < LONGER * seconds {
                continue;
            }
        }
        if !alone {
            figures.add("rust load", time(0));
        }
        if asked.is_empty() {
            figures.add("port bind", port);
            if !alone {
                figures.add("rust relocate", time(2));
                figures.add("rust load and relocate", time(0) + time(2));
                make_ready(set, room);
                let mut fresh = Pages::new(set.arena);
                figures.add("port bind, fresh arena", nanoseconds(|| assert_eq!(bind(set, fresh.bytes(), &mut report), Ok(()))));
            }
        } else {
            figures.add("port queries", port);
            if once {
                figures.add("port query_all", all);
            }
            figures.add("rust queries", time(1));
            figures.add("rust load and queries", time(0) + time(1));
        }
        let placing = label == "ii" || label.starts_with("ii-");
        if placing || program {
            let length = set.bytes.len();
            make_ready(set, room);
            figures.add("memcpy", nanoseconds(|| black_box(&mut room[..length]).copy_from_slice(black_box(&set.bytes))));
            if placing {
                make_ready(set, room);
                let mut fresh = Pages::new(length);
                let fresh = fresh.bytes();
                figures.add("memcpy, fresh arena", nanoseconds(|| black_box(&mut *fresh).copy_from_slice(black_box(&set.bytes))));
                make_ready(set, room);
                // The work of a bind that has nothing to check and nothing to relocate.
                figures.add("memset, then memcpy", nanoseconds(|| {
                    black_box(&mut room[..set.arena]).fill(black_box(0));
                    black_box(&mut room[..length]).copy_from_slice(black_box(&set.bytes));
                }));
            }
        }
        let spent = start.elapsed().as_secs_f64();
        if round >= ROUNDS.1 || spent >= LONGER * seconds || round >= ROUNDS.0 && spent >= seconds {
            break;
        }
    }
    let rate = (unsafe { _rdtsc() } - ticks) as f64 / start.elapsed().as_nanos() as f64;
    let arena = &mut room[..set.arena];
    for (what, mut times) in figures.0 {
        times.sort();
        println!("{label}\t{what}\t{}\t{}\t{}", times[0], times[times.len() / 2], times.len());
    }
    let used = match asked.first() {
        None => stack(&mut || bind(set, arena, &mut report).unwrap()),
        Some(_) if once => stack(&mut || query_all(set, arena, 1, &list, &mut addresses).unwrap()),
        Some((requester, name)) => stack(&mut || assert!(query(set, arena, *requester, name).is_ok())),
    };
    println!("{label}\tstack\t{used}");
    println!("{label}\tbytes\t{}", set.bytes.len());
    println!("{label}\tarena\t{}", set.arena);
    println!("{label}\tTSC cycles in a second\t{:.0}", rate * 1e9);
}

fn main() {
    let arguments: Vec<String> = std::env::args().collect();
    let [_, program, seconds] = &arguments[..] else { panic!("usage: bench RUST_SIDE SECONDS") };
    let seconds = seconds.parse().expect("a number of seconds");
    let mut rust = Rust::start(program, &["bench"]);
    let mut frames = Frames(std::io::BufReader::with_capacity(1 << 20, std::io::stdin()), Vec::new());
    while let Some(set) = frames.next() {
        measure(&set, &mut rust, seconds);
    }
}
