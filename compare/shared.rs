//! The memory that the driver and the program of the Rust share, a file that both map: where each part stands.
//! The driver writes the question and a byte to the other's standard input; that one writes the answer and a byte to its standard output.
#![allow(dead_code)]

/// Words of 64 bits at the start: first the question.
pub const ADDRESS: usize = 0;
pub const ARENA: usize = 1;
pub const STRICT: usize = 2;
pub const WORDS: usize = 3;
pub const BYTES: usize = 4;
pub const QUERIES: usize = 5;
/// How far the Rust is to go, a stage.
pub const LAST: usize = 6;
/// Benchmarks only: whether the set is a new one, and whether the relocated bytes are wanted.
pub const NEW: usize = 7;
pub const WANTED: usize = 8;

/// Then the answer.
pub const STAGE: usize = 16;
pub const RESULT: usize = 17;
pub const OBJECT: usize = 18;
pub const REPORT: usize = 19;
pub const EXPECTED: usize = 20;
pub const PRINTED: usize = 21;
pub const SIGNAL: usize = 22;
pub const STATUS: usize = 23;
pub const WRONG: usize = 24;
/// Entries of type 5 whose source is smaller than, as large as, or larger than the destination: three words.
pub const COPIES: usize = 25;
/// Benchmarks only: nanoseconds of loading, of the queries, and of relocation: three words.
pub const TIMES: usize = 28;
pub const ANSWER_END: usize = 31;

/// Stages. While objects are loaded, the stage is LOADING plus the object's number.
pub const LOADING: u64 = 100;
pub const PLACED: u64 = 200;
pub const ANSWERED: u64 = 300;
pub const REPORTED: u64 = 400;
pub const RELOCATED: u64 = 500;

/// Results.
pub const NONE: u64 = 0;
pub const FINE: u64 = 1;
pub const NOT_LOADED: u64 = 2;
pub const UNDEFINED: u64 = 3;
pub const OUT_OF_BOUNDS: u64 = 4;
pub const OTHER_ERROR: u64 = 5;
pub const NO_ARENA: u64 = 6;

/// Where the parts begin. A query is requester and length of the name (32 bits each), then the name; an answer is six words: found,
/// object, address, and the symbol's 24 bytes.
pub const AT_REPORT: usize = 0x0001_0000;
pub const AT_QUERIES: usize = 0x0100_0000;
pub const AT_ANSWERS: usize = 0x0200_0000;
pub const AT_EXPECTED: usize = 0x0400_0000;
pub const AT_PRINTED: usize = 0x0500_0000;
pub const AT_WORDS: usize = 0x0600_0000;
pub const AT_BYTES: usize = 0x0700_0000;
pub const AT_PLACED: usize = 0x1700_0000;
pub const AT_RELOCATED: usize = 0x2700_0000;
pub const SIZE: usize = 0x3700_0000;

pub const MAX_REPORT: usize = (AT_QUERIES - AT_REPORT) / 4;
pub const MAX_TEXT: usize = AT_PRINTED - AT_EXPECTED;
pub const MAX_ANSWERS: usize = (AT_EXPECTED - AT_ANSWERS) / 48;
pub const MAX_BYTES: usize = AT_PLACED - AT_BYTES;
pub const MAX_ARENA: usize = AT_RELOCATED - AT_PLACED;

pub struct Shared(pub *mut u8);

impl Shared {
    pub fn get(&self, word: usize) -> u64 {
        unsafe { (self.0 as *const u64).add(word).read_volatile() }
    }
    pub fn set(&self, word: usize, value: u64) {
        unsafe { (self.0 as *mut u64).add(word).write_volatile(value) }
    }
    pub fn part(&self, at: usize, length: usize) -> &'static [u8] {
        assert!(at + length <= SIZE);
        unsafe { std::slice::from_raw_parts(self.0.add(at), length) }
    }
    #[allow(clippy::mut_from_ref)]
    pub fn part_mut(&self, at: usize, length: usize) -> &'static mut [u8] {
        assert!(at + length <= SIZE);
        unsafe { std::slice::from_raw_parts_mut(self.0.add(at), length) }
    }
}
