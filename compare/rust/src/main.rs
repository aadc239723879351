//! Runs the unchanged Rust on the sets that the driver hands over, each in a child process. What decides (placing, record, lookup, order,
//! relocation, policy) is the Rust's code; this file takes the set apart, hands the files over and writes down what came out.
#![allow(dead_code, static_mut_refs, unused_unsafe, unused_imports)]

/// STAND-IN for `syscall!`: see syscall.rs.
#[macro_export]
macro_rules! syscall {
    ($number:expr $(, $argument:expr)* $(,)?) => {
        $crate::syscall::call($number, &[$($argument as usize),*])
    };
}

/// STAND-IN for `signature_matches_libc!` (a check against the libc crate while compiling): nothing.
#[macro_export]
macro_rules! signature_matches_libc {
    ($($tokens:tt)*) => {};
}

mod bench;
mod elf;
mod error;
mod io_macros;
mod libc;
mod objects;
mod page_size;
mod shared;
mod start;
mod syscall;

use std::{
    ffi::{c_char, c_int, c_uint, c_void},
    fs::File,
    io::{Read, Seek, Write},
    os::{fd::FromRawFd, unix::fs::FileExt},
};

use elf::{
    relocate::Rela,
    symbol::{Symbol, SymbolBinding, SymbolVisibility},
};
use error::MirosError;
use objects::{
    object_data::ObjectData,
    object_data_graph::ObjectDataGraph,
    strategies::{relocate::Relocate, Stratagem},
};
use shared::*;
use start::config::{RuntimeConfig, UndefinedSymbolsPolicy};

extern "C" {
    fn memfd_create(name: *const c_char, flags: c_uint) -> c_int;
    fn alarm(seconds: c_uint) -> c_uint;
    fn fork() -> c_int;
    fn waitpid(child: c_int, status: *mut c_int, options: c_int) -> c_int;
    fn _exit(status: c_int) -> !;
    fn dup2(from: c_int, to: c_int) -> c_int;
}

const SECONDS: c_uint = 20;

fn main() {
    let fd: usize = std::env::args().nth(1).expect("the number of the shared file").parse().unwrap();
    unsafe {
        page_size::set_page_size(4096);
        // PROT_READ | PROT_WRITE, MAP_SHARED
        let region = syscall::kernel(9, [0, SIZE, 3, 1, fd, 0]);
        assert!(region > 0, "the shared file cannot be mapped");
        let shared = Shared(region as *mut u8);
        if std::env::args().nth(2).as_deref() == Some("bench") {
            return bench::serve(&shared);
        }
        let printed = memory_file();
        let mut printed = File::from_raw_fd(printed);
        let (mut input, mut output) = (std::io::stdin(), std::io::stdout());
        let mut byte = [0u8];
        while input.read(&mut byte).unwrap() == 1 {
            printed.set_len(0).unwrap();
            printed.rewind().unwrap();
            for word in STAGE..ANSWER_END {
                shared.set(word, 0);
            }
            let process = fork();
            assert!(process >= 0, "fork");
            if process == 0 {
                use std::os::fd::AsRawFd;
                dup2(printed.as_raw_fd(), 2);
                alarm(SECONDS);
                child(&shared);
                _exit(0);
            }
            let mut status = 0;
            while waitpid(process, &mut status, 0) != process {}
            shared.set(SIGNAL, (status & 0x7f) as u64);
            shared.set(STATUS, (status >> 8 & 0xff) as u64);
            let length = (printed.metadata().unwrap().len() as usize).min(MAX_TEXT);
            printed.read_exact_at(shared.part_mut(AT_PRINTED, length), 0).unwrap();
            shared.set(PRINTED, length as u64);
            output.write_all(&byte).unwrap();
            output.flush().unwrap();
        }
    }
}

unsafe fn memory_file() -> c_int {
    let fd = memfd_create(c"object".as_ptr(), 0);
    assert!(fd >= 0);
    fd
}

unsafe fn file_of(bytes: &[u8]) -> File {
    let mut file = File::from_raw_fd(memory_file());
    file.write_all_at(bytes, 0).unwrap();
    file.rewind().unwrap();
    file
}

/// The arena's bytes, whatever the rights of their pages are. A page that cannot be read stays as it is, and is counted.
fn dump(shared: &Shared, to: usize) {
    let memory = File::open("/proc/self/mem").unwrap();
    let (address, length) = (shared.get(ADDRESS), shared.get(ARENA) as usize);
    let bytes = shared.part_mut(to, length);
    if memory.read_exact_at(bytes, address).is_ok() {
        return;
    }
    for at in (0..length).step_by(4096) {
        let end = length.min(at + 4096);
        if memory.read_exact_at(&mut bytes[at..end], address + at as u64).is_err() {
            shared.set(WRONG, shared.get(WRONG) + 1);
        }
    }
}

/// The parts of a set, as the sheet's words cut them.
fn parts<'a>(words: &[u8], bytes: &'a [u8]) -> Vec<&'a [u8]> {
    let mut at = 0;
    let cut = words.chunks(4).map(|word| {
        let size = u32::from_le_bytes(word.try_into().unwrap()) as usize & 0x0fff_ffff;
        at += size;
        &bytes[at - size..at]
    });
    cut.collect()
}

struct Numbered<'a> {
    object: &'a ObjectData,
    number: usize,
}

/// The Rust gives an address, not the object that defines the name: this asks the objects one by one.
fn definer<'a>(scope: impl Iterator<Item = &'a Numbered<'a>>, name: &str) -> Option<(usize, Symbol, usize)> {
    for one in scope {
        if let Some((symbol, address)) = one.object.resolve_symbol_and_address(name) {
            return Some((one.number, symbol, address as usize));
        }
    }
    None
}

/// Where the port puts an object (large pages): the least offset from the next free one on whose address is a multiple of the largest p_align
/// of its PT_LOAD headers. The Rust maps an object wherever the kernel does.
fn aligned(file: &[u8], address: usize, next: usize) -> usize {
    let number = |at: usize, width: usize| (0..width).rev().fold(0, |sum, i| sum << 8 | *file.get(at + i).unwrap_or(&0) as usize);
    let heads = (0..number(56, 2)).map(|i| number(32, 8) + 56 * i);
    let align = heads.filter(|&head| number(head, 4) == 1).map(|head| number(head + 48, 8)).fold(4096, usize::max);
    (address + next).next_multiple_of(align) - address
}

unsafe fn child(shared: &Shared) {
    let (address, length) = (shared.get(ADDRESS) as usize, shared.get(ARENA) as usize);
    let count = shared.get(WORDS) as usize;
    let last = shared.get(LAST);
    let strict = shared.get(STRICT) != 0;
    let words = shared.part(AT_WORDS, 4 * count);
    let bytes = shared.part(AT_BYTES, shared.get(BYTES) as usize);

    RuntimeConfig {
        undefined_symbols: if strict { UndefinedSymbolsPolicy::Strict } else { UndefinedSymbolsPolicy::Lenient },
        ..Default::default()
    }
    .set();

    // Zero pages: MAP_PRIVATE | MAP_ANONYMOUS | MAP_NORESERVE | MAP_FIXED_NOREPLACE.
    let reserve = length.div_ceil(4096) * 4096;
    let got = syscall::kernel(9, [address, reserve, 3, 0x2 | 0x20 | 0x4000 | 0x100000, usize::MAX, 0]);
    if got != address as isize {
        shared.set(RESULT, NO_ARENA);
        return;
    }
    syscall::ARENA.address = address;
    syscall::ARENA.length = length;

    let mut parts = parts(words, bytes).into_iter();
    let (host, program) = (parts.next().unwrap(), parts.next().unwrap());
    let rest: Vec<&[u8]> = parts.collect();

    shared.set(STAGE, LOADING);
    std::ptr::copy_nonoverlapping(host.as_ptr(), address as *mut u8, host.len());
    syscall::ARENA.next = host.len().div_ceil(4096) * 4096;
    let Ok(miros) = ObjectData::from_base(address as *const c_void) else {
        shared.set(RESULT, NOT_LOADED);
        return;
    };
    let load = |number: usize, bytes: &[u8]| -> Option<ObjectData> {
        shared.set(STAGE, LOADING + number as u64);
        let file = file_of(bytes);
        syscall::ARENA.next = aligned(bytes, address, syscall::ARENA.next);
        syscall::ARENA.armed = true;
        let result = ObjectData::from_file(file);
        syscall::ARENA.armed = false;
        if result.is_err() {
            shared.set(RESULT, NOT_LOADED);
            shared.set(OBJECT, number as u64);
        }
        result.ok()
    };
    let Some(program) = load(1, program) else { return };
    let mut graph = ObjectDataGraph::new(program, miros);
    for (i, library) in rest.chunks(2).enumerate() {
        let Some(object) = load(i + 2, library[0]) else { return };
        graph.dependencies.insert(String::from_utf8_unchecked(library[1].to_vec()), object);
    }
    dump(shared, AT_PLACED);
    shared.set(STAGE, PLACED);

    let undefined = {
        let host = Numbered { object: &graph.miros, number: 0 };
        let program = Numbered { object: &graph.program, number: 1 };
        let libraries: Vec<Numbered> =
            graph.dependencies.values().enumerate().map(|(i, object)| Numbered { object, number: i + 2 }).collect();
        let by_number = |n: usize| match n {
            0 => &host,
            1 => &program,
            _ => &libraries[n - 2],
        };

        let scope = || std::iter::once(&program).chain(&libraries).chain(std::iter::once(&host));
        let mut at = AT_QUERIES;
        let answers = AT_ANSWERS;
        for i in 0..shared.get(QUERIES) as usize {
            let head = shared.part(at, 8);
            let requester = u32::from_le_bytes(head[..4].try_into().unwrap()) as usize;
            let size = u32::from_le_bytes(head[4..].try_into().unwrap()) as usize;
            let name = std::str::from_utf8_unchecked(shared.part(at + 8, size));
            at += 8 + size;
            let asking = by_number(requester);
            // The Rust's answer, and where it is.
            let found = graph.resolve_symbol_address(name, asking.object).map(|address| address as usize);
            let own = definer(std::iter::once(asking), name)
                .filter(|(_, symbol, _)| symbol.st_other.symbol_visibility() == SymbolVisibility::Protected);
            let place = own.or_else(|| definer(scope(), name));
            assert_eq!(place.as_ref().map(|found| found.2), found);
            let out = shared.part_mut(answers + 48 * i, 48);
            out.fill(0);
            if let Some((number, symbol, address)) = place {
                out[..8].copy_from_slice(&1u64.to_le_bytes());
                out[8..16].copy_from_slice(&(number as u64).to_le_bytes());
                out[16..24].copy_from_slice(&(address as u64).to_le_bytes());
                out[24..].copy_from_slice(&std::mem::transmute_copy::<Symbol, [u8; 24]>(&symbol));
            }
        }
        shared.set(STAGE, ANSWERED);
        if last <= ANSWERED {
            shared.set(RESULT, FINE);
            return;
        }

        // The Rust has no report: its words follow from the Rust's order and answers.
        let number_of = |object: &ObjectData| scope().find(|one| std::ptr::eq(one.object, object)).unwrap().number;
        let order: Vec<usize> = graph.iter_objects_topological().map(number_of).collect();
        let mut report: Vec<u32> = Vec::new();
        let mut undefined = Vec::new();
        'objects: for &n in &order {
            report.push(5 << 28 | n as u32);
            let one = by_number(n);
            let fields = &one.object.dynamic_fields;
            let entries = fields.rela_slice().unwrap_or_default().iter().chain(fields.plt_rela_slice().unwrap_or_default());
            for (i, rela) in entries.enumerate() {
                match rela.r_type() {
                    0 | 8 => (),
                    5 | 6 | 7 => {
                        let Ok(symbol) = fields.checked_symbol(rela.r_sym() as usize) else { break 'objects };
                        let name = fields.string_table.get(symbol.st_name as usize);
                        let found = if rela.r_type() == 5 {
                            let source = graph.resolve_symbol_outside_program(name);
                            if let Some((source, _)) = &source {
                                let way = COPIES + (source.st_size.cmp(&symbol.st_size) as isize + 1) as usize;
                                shared.set(way, shared.get(way) + 1);
                            }
                            source.is_some()
                        } else {
                            graph.resolve_symbol_address(name, one.object).is_some()
                        };
                        if !found && symbol.binding() != Ok(SymbolBinding::Weak) {
                            report.push(6 << 28 | i as u32);
                            undefined.push(name.to_string());
                        }
                    }
                    37 => {
                        // The driver asks for no relocation where the port met type 37: no code of a set is run.
                        shared.set(RESULT, OTHER_ERROR);
                        return;
                    }
                    _ => report.push(7 << 28 | i as u32),
                }
            }
        }
        report.truncate(MAX_REPORT);
        for (i, word) in report.iter().enumerate() {
            shared.part_mut(AT_REPORT + 4 * i, 4).copy_from_slice(&word.to_le_bytes());
        }
        shared.set(REPORT, report.len() as u64);
        undefined
    };
    shared.set(STAGE, REPORTED);

    // What the Rust says of undefined names must be said of those of the report.
    let expected = if undefined.is_empty() { String::new() } else { format!("{}\n", MirosError::UndefinedSymbols(undefined)) };
    let expected = &expected.as_bytes()[..expected.len().min(MAX_TEXT)];
    shared.part_mut(AT_EXPECTED, expected.len()).copy_from_slice(expected);
    shared.set(EXPECTED, expected.len() as u64);

    let result = Relocate.run(&mut graph);
    shared.set(RESULT, match &result {
        Ok(()) => FINE,
        Err(MirosError::UndefinedSymbols(_)) => UNDEFINED,
        Err(MirosError::SymbolIndexOutOfBounds(_)) => OUT_OF_BOUNDS,
        Err(_) => OTHER_ERROR,
    });
    if let Err(error @ MirosError::UndefinedSymbols(_)) = &result {
        eprintln!("{error}");
    }
    dump(shared, AT_RELOCATED);
    shared.set(STAGE, RELOCATED);
}
