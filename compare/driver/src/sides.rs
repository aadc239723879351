//! What the driver and the benchmarks share: sets from standard input, and the program with the Rust beside.
use std::{
    io::{Read, Write},
    process::{Child, ChildStdin, ChildStdout, Command, Stdio},
};

use crate::{
    port::{self, Set},
    shared::*,
};

/// The frames of standard input, as sets.py writes them.
pub struct Frames<R: Read>(pub R, pub Vec<u8>);

impl<R: Read> Frames<R> {
    fn take(&mut self, length: usize) -> Option<Vec<u8>> {
        let mut bytes = vec![0; length];
        self.0.read_exact(&mut bytes).ok()?;
        self.1.extend(&bytes);
        Some(bytes)
    }
    fn word(&mut self) -> Option<usize> {
        Some(u32::from_le_bytes(self.take(4)?.try_into().unwrap()) as usize)
    }
    fn long(&mut self) -> Option<u64> {
        Some(u64::from_le_bytes(self.take(8)?.try_into().unwrap()))
    }
    pub fn next(&mut self) -> Option<Set> {
        self.1.clear();
        let length = self.word()?;
        let label = String::from_utf8_lossy(&self.take(length)?).into_owned();
        let (address, arena) = (self.long()?, self.long()? as usize);
        let (report, strict) = (self.word()?, self.word()? != 0);
        let (words, bytes) = (self.word()?, self.word()?);
        let sheet = self.take(4 * words)?.chunks(4).map(|w| u32::from_le_bytes(w.try_into().unwrap())).collect();
        Some(Set { label, address, arena, report, strict, sheet, bytes: self.take(bytes)? })
    }
}

/// The program with the Rust, which runs beside.
pub struct Rust {
    pub shared: Shared,
    input: ChildStdin,
    output: ChildStdout,
    _process: Child,
}

impl Rust {
    /// The number of the shared file comes before the other arguments.
    pub fn start(program: &str, arguments: &[&str]) -> Rust {
        unsafe {
            let fd = port::memfd_create(c"shared".as_ptr(), 0);
            assert!(fd >= 0 && port::ftruncate(fd, SIZE as i64) == 0, "no shared file");
            // PROT_READ | PROT_WRITE, MAP_SHARED
            let region = port::mmap(std::ptr::null_mut(), SIZE, 3, 1, fd, 0);
            assert!(region as isize > 0, "the shared file cannot be mapped");
            let mut command = Command::new(program);
            command.arg(fd.to_string()).args(arguments).stdin(Stdio::piped()).stdout(Stdio::piped());
            let mut process = command.spawn().expect("the program with the Rust");
            let (input, output) = (process.stdin.take().unwrap(), process.stdout.take().unwrap());
            Rust { shared: Shared(region as *mut u8), input, output, _process: process }
        }
    }

    /// Runs the Rust on a set, up to a stage. What it answers is in `shared`.
    #[allow(dead_code)]
    pub fn run(&mut self, set: &Set, queries: &[(u32, Vec<u8>)], last: u64) {
        self.hand_over(set, queries, last);
        self.go();
    }

    pub fn hand_over(&mut self, set: &Set, queries: &[(u32, Vec<u8>)], last: u64) {
        let s = &self.shared;
        for (word, value) in [
            (ADDRESS, set.address), (ARENA, set.arena as u64), (STRICT, set.strict as u64), (WORDS, set.sheet.len() as u64),
            (BYTES, set.bytes.len() as u64), (QUERIES, queries.len() as u64), (LAST, last),
        ] {
            s.set(word, value);
        }
        for (i, word) in set.sheet.iter().enumerate() {
            s.part_mut(AT_WORDS + 4 * i, 4).copy_from_slice(&word.to_le_bytes());
        }
        s.part_mut(AT_BYTES, set.bytes.len()).copy_from_slice(&set.bytes);
        let mut at = AT_QUERIES;
        for (requester, name) in queries {
            s.part_mut(at, 4).copy_from_slice(&requester.to_le_bytes());
            s.part_mut(at + 4, 4).copy_from_slice(&(name.len() as u32).to_le_bytes());
            s.part_mut(at + 8, name.len()).copy_from_slice(name);
            at += 8 + name.len();
        }
        assert!(at <= AT_ANSWERS && queries.len() <= MAX_ANSWERS);
    }

    pub fn go(&mut self) {
        self.input.write_all(b"!").unwrap();
        self.input.flush().unwrap();
        self.output.read_exact(&mut [0]).expect("the program with the Rust has ended");
    }
}
