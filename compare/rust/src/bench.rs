//! The Rust's side of bench/run: loads and relocates one set again and again, in one process, and writes down the times.
//! A set with queries is not relocated. Outside the times: the arena is reserved again (fresh zero pages), and each file is opened again,
//! since the Rust closes it. The policy is lenient; what the Rust prints of undefined names goes to /dev/null.
use std::{
    ffi::c_void,
    fs::File,
    hint::black_box,
    io::{Read, Seek, Write},
    os::fd::{AsFd, AsRawFd},
    time::Instant,
};

use crate::{
    dump, dup2, file_of,
    objects::{
        object_data::ObjectData,
        object_data_graph::ObjectDataGraph,
        strategies::{relocate::Relocate, Stratagem},
    },
    parts,
    shared::*,
    start::config::{RuntimeConfig, UndefinedSymbolsPolicy},
    syscall,
};

/// What one round is handed: the host, the program's file, and each library's file and name.
struct Round<'a> {
    address: usize,
    host: &'a [u8],
    program: File,
    libraries: Vec<(File, &'a [u8])>,
}

unsafe fn object(file: File) -> ObjectData {
    syscall::ARENA.armed = true;
    let result = ObjectData::from_file(file);
    syscall::ARENA.armed = false;
    result.unwrap_or_else(|_| panic!("the Rust does not load an object of the set"))
}

// These three are found by their names in the output of callgrind.

#[no_mangle]
#[inline(never)]
unsafe fn bench_load(round: Round) -> ObjectDataGraph {
    std::ptr::copy_nonoverlapping(round.host.as_ptr(), round.address as *mut u8, round.host.len());
    syscall::ARENA.next = round.host.len().div_ceil(4096) * 4096;
    let host = ObjectData::from_base(round.address as *const c_void).unwrap_or_else(|_| panic!("the Rust does not read the host"));
    let mut graph = ObjectDataGraph::new(object(round.program), host);
    for (file, name) in round.libraries {
        graph.dependencies.insert(String::from_utf8_unchecked(name.to_vec()), object(file));
    }
    graph
}

#[no_mangle]
#[inline(never)]
unsafe fn bench_queries(graph: &ObjectDataGraph, queries: &[(usize, &str)]) -> usize {
    let mut found = 0;
    for (requester, name) in queries {
        let requester = match requester {
            0 => &graph.miros,
            1 => &graph.program,
            _ => &graph.dependencies[requester - 2],
        };
        found += black_box(graph.resolve_symbol_address(name, requester)).is_some() as usize;
    }
    found
}

#[no_mangle]
#[inline(never)]
unsafe fn bench_relocate(graph: &mut ObjectDataGraph) -> bool {
    Relocate.run(graph).is_ok()
}

pub unsafe fn serve(shared: &Shared) {
    let (mut input, mut output) = (std::io::stdin(), std::io::stdout());
    let mut byte = [0u8];
    RuntimeConfig { undefined_symbols: UndefinedSymbolsPolicy::Lenient, ..Default::default() }.set();
    let nowhere = File::options().write(true).open("/dev/null").unwrap();
    let messages = std::io::stderr().as_fd().try_clone_to_owned().unwrap();
    let mut files: Vec<File> = Vec::new();
    let mut reserved = (0, 0);
    while input.read(&mut byte).unwrap() == 1 {
        let (address, length) = (shared.get(ADDRESS) as usize, shared.get(ARENA) as usize);
        let parts = parts(shared.part(AT_WORDS, 4 * shared.get(WORDS) as usize), shared.part(AT_BYTES, shared.get(BYTES) as usize));
        if shared.get(NEW) == 1 {
            files = std::iter::once(&parts[1]).chain(parts[2..].iter().step_by(2)).map(|part| file_of(part)).collect();
        }
        if reserved != (0, 0) {
            assert_eq!(syscall::kernel(11, [reserved.0, reserved.1, 0, 0, 0, 0]), 0);
        }
        // PROT_READ | PROT_WRITE, MAP_PRIVATE | MAP_ANONYMOUS | MAP_NORESERVE | MAP_FIXED_NOREPLACE
        reserved = (address, length.div_ceil(4096) * 4096);
        let got = syscall::kernel(9, [address, reserved.1, 3, 0x2 | 0x20 | 0x4000 | 0x100000, usize::MAX, 0]);
        assert_eq!(got, address as isize, "no memory at the arena's address");
        syscall::ARENA.address = address;
        syscall::ARENA.length = length;

        let open = |i: usize| {
            let mut file = files[i].try_clone().unwrap();
            file.rewind().unwrap();
            file
        };
        let libraries = parts[2..].chunks(2).enumerate().map(|(k, library)| (open(k + 1), library[1])).collect();
        let round = Round { address, host: parts[0], program: open(0), libraries };
        let mut queries = Vec::new();
        let mut at = AT_QUERIES;
        for _ in 0..shared.get(QUERIES) {
            let head = shared.part(at, 8);
            let size = u32::from_le_bytes(head[4..].try_into().unwrap()) as usize;
            let name = std::str::from_utf8(shared.part(at + 8, size)).unwrap();
            queries.push((u32::from_le_bytes(head[..4].try_into().unwrap()) as usize, name));
            at += 8 + size;
        }

        let start = Instant::now();
        let mut graph = bench_load(round);
        let loaded = start.elapsed();
        let found = bench_queries(&graph, &queries);
        let asked = start.elapsed();
        dup2(nowhere.as_raw_fd(), 2);
        let start = Instant::now();
        let fine = !queries.is_empty() || bench_relocate(&mut graph);
        let relocated = start.elapsed();
        dup2(messages.as_raw_fd(), 2);
        for (i, time) in [loaded, asked - loaded, relocated].iter().enumerate() {
            shared.set(TIMES + i, time.as_nanos() as u64);
        }
        shared.set(RESULT, if fine { FINE } else { OTHER_ERROR });
        shared.set(OBJECT, found as u64);
        shared.set(WRONG, 0);
        if shared.get(WANTED) == 1 {
            dump(shared, AT_RELOCATED);
        }
        output.write_all(&byte).unwrap();
        output.flush().unwrap();
    }
}
