//! The archive's functions. A slice reaches C as a pointer and a length.
use std::ffi::c_void;

extern "C" {
    fn lugwormpin_bind(
        sheet: *const u32, sheet_length: usize, bytes: *const u8, bytes_length: usize, arena: *mut u8, arena_length: usize, address: u64,
        strict: u32, types: *const u32, types_length: usize, report: *mut u32, report_length: usize,
    ) -> u64;
    fn lugwormpin_types(types: *mut u32, types_length: usize);
    fn lugwormpin_query(
        sheet: *const u32, sheet_length: usize, bytes: *const u8, bytes_length: usize, arena: *mut u8, arena_length: usize, address: u64,
        requester: u32, name: *const u8, name_length: usize, answer: *mut u64, answer_length: usize,
    ) -> u64;
    fn lugwormpin_query_all(
        sheet: *const u32, sheet_length: usize, bytes: *const u8, bytes_length: usize, arena: *mut u8, arena_length: usize, address: u64,
        requester: u32, names: *const u8, names_length: usize, addresses: *mut u64, addresses_length: usize,
    ) -> u64;
    pub fn memfd_create(name: *const i8, flags: u32) -> i32;
    pub fn ftruncate(fd: i32, length: i64) -> i32;
    pub fn mmap(at: *mut c_void, length: usize, protection: i32, flags: i32, fd: i32, offset: i64) -> *mut c_void;
}

/// A refusal: number and object.
#[derive(Clone, Copy, PartialEq, Eq, Debug)]
pub struct Refusal(pub u32, pub u32);

/// Stands for an answer whose words are not as the header says.
const WRONG_WORDS: Refusal = Refusal(u32::MAX, u32::MAX);

fn refusal(packed: u64) -> Result<(), Refusal> {
    if packed == 0 { Ok(()) } else { Err(Refusal(packed as u32, (packed >> 32) as u32)) }
}

/// What is handed in.
pub struct Set {
    pub label: String,
    pub address: u64,
    pub arena: usize,
    pub report: usize,
    pub strict: bool,
    pub sheet: Vec<u32>,
    pub bytes: Vec<u8>,
}

#[derive(Clone, Copy, PartialEq, Eq, Debug)]
pub struct Found {
    pub object: u64,
    pub symbol: u64,
    pub address: u64,
}

/// Under the supplied words of the types, for which alone the Rust is the oracle.
pub fn bind(set: &Set, arena: &mut [u8], report: &mut [u32]) -> Result<(), Refusal> {
    let mut types = [0; 64];
    refusal(unsafe {
        lugwormpin_types(types.as_mut_ptr(), types.len());
        lugwormpin_bind(
            set.sheet.as_ptr(), set.sheet.len(), set.bytes.as_ptr(), set.bytes.len(), arena.as_mut_ptr(), arena.len(), set.address,
            set.strict as u32, types.as_ptr(), types.len(), report.as_mut_ptr(), report.len(),
        )
    })
}

pub fn query(set: &Set, arena: &mut [u8], requester: u32, name: &[u8]) -> Result<Option<Found>, Refusal> {
    let mut answer = [u64::MAX; 5];
    let result = refusal(unsafe {
        lugwormpin_query(
            set.sheet.as_ptr(), set.sheet.len(), set.bytes.as_ptr(), set.bytes.len(), arena.as_mut_ptr(), arena.len(), set.address,
            requester, name.as_ptr(), name.len(), answer.as_mut_ptr(), answer.len(),
        )
    });
    // Absence and refusals clear the words of the answer.
    let kept = match answer {
        [0, 0, 0, 0, 0] => true,
        [1, _, _, _, 0] => result.is_ok(),
        _ => false,
    };
    if !kept {
        return Err(WRONG_WORDS);
    }
    result?;
    Ok((answer[0] == 1).then_some(Found { object: answer[1], symbol: answer[2], address: answer[3] }))
}

/// The addresses of the names of a list, each with a zero byte after it. A refusal leaves zeros.
pub fn query_all(set: &Set, arena: &mut [u8], requester: u32, names: &[u8], addresses: &mut [u64]) -> Result<(), Refusal> {
    let result = refusal(unsafe {
        lugwormpin_query_all(
            set.sheet.as_ptr(), set.sheet.len(), set.bytes.as_ptr(), set.bytes.len(), arena.as_mut_ptr(), arena.len(), set.address,
            requester, names.as_ptr(), names.len(), addresses.as_mut_ptr(), addresses.len(),
        )
    });
    let zeros = arena.iter().all(|&byte| byte == 0) && addresses.iter().all(|&word| word == 0);
    if result.is_err() && !zeros { Err(WRONG_WORDS) } else { result }
}
