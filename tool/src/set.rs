//! What is handed in: the sheet and the bytes of document 01, always fitting each other.
use std::fmt;
use std::io::{self, Read, Write};
use std::ops::Range;

/// The most bytes of a host image or a file: a length has 28 bits.
pub const PART_LIMIT: usize = (1 << 28) - 1;
/// The most libraries of a set.
pub const LIBRARY_LIMIT: usize = 62;
/// The most bytes of a library's name; the least is 1.
pub const NAME_LIMIT: usize = 255;

const HOST: u32 = 1;
const PROGRAM: u32 = 2;
const LIBRARY: u32 = 3;
const NAME: u32 = 4;

/// A host, a program, and libraries with names. Objects are numbered as in document 01: host 0, program 1, libraries from 2.
pub struct Set {
    sheet: Vec<u32>,
    bytes: Vec<u8>,
    /// Where the part of each sheet word stands in `bytes`.
    parts: Vec<Range<usize>>,
}

/// Why an object could not be taken into a set, or a file is no set.
#[derive(Debug)]
pub struct SetError {
    /// The object's number.
    pub object: usize,
    /// What is wrong with it.
    pub fault: Fault,
}

/// What is wrong with an object that a set should take.
#[derive(Debug)]
pub enum Fault {
    /// Its bytes could not be read.
    Unreadable(io::Error),
    /// It has over [`PART_LIMIT`] bytes.
    TooLong,
    /// Its name has this many bytes: none, or over [`NAME_LIMIT`].
    NameLength(usize),
    /// There are [`LIBRARY_LIMIT`] libraries already.
    TooMany,
    /// [`Set::read`] only: the file is no input of document 01's program, for this reason.
    NoSet(&'static str),
}

impl fmt::Display for Fault {
    fn fmt(&self, f: &mut fmt::Formatter<'_>) -> fmt::Result {
        match self {
            Fault::Unreadable(error) => write!(f, "{error}"),
            Fault::TooLong => write!(f, "over {PART_LIMIT} bytes"),
            Fault::NameLength(n) => write!(f, "a name of {n} bytes: 1 to {NAME_LIMIT} are allowed"),
            Fault::TooMany => write!(f, "over {LIBRARY_LIMIT} libraries"),
            Fault::NoSet(reason) => write!(f, "no input of document 01's program: {reason}"),
        }
    }
}

impl fmt::Display for SetError {
    fn fmt(&self, f: &mut fmt::Formatter<'_>) -> fmt::Result {
        write!(f, "object {}: {}", self.object, self.fault)
    }
}

impl std::error::Error for SetError {}

impl Set {
    /// A host of one page that exports nothing: ELF header, a PT_LOAD of the page, PT_DYNAMIC at 0x200 with a string table at 0x400 and a
    /// symbol table at 0x300 that have the empty name and symbol 0, and no hash table. For sets whose modules need nothing of a host.
    pub const MINIMAL_HOST: [u8; 4096] = minimal_host();

    /// A set without libraries. The host is an image, of whole pages: [`crate::elf::host_image`] makes one of a module.
    pub fn new(host: impl Read, program: impl Read) -> Result<Set, SetError> {
        let mut set = Set { sheet: Vec::new(), bytes: Vec::new(), parts: Vec::new() };
        set.append(HOST, host).map_err(|fault| SetError { object: 0, fault })?;
        set.append(PROGRAM, program).map_err(|fault| SetError { object: 1, fault })?;
        Ok(set)
    }

    /// Adds a library, the last of the list. After an error the set is as it was.
    pub fn add(&mut self, name: &[u8], file: impl Read) -> Result<(), SetError> {
        let object = self.objects();
        let fail = |fault| Err(SetError { object, fault });
        if object >= 2 + LIBRARY_LIMIT {
            return fail(Fault::TooMany);
        }
        if name.is_empty() || name.len() > NAME_LIMIT {
            return fail(Fault::NameLength(name.len()));
        }
        match self.append(LIBRARY, file) {
            Ok(()) => self.append(NAME, name).map_err(|fault| SetError { object, fault }),
            Err(fault) => fail(fault),
        }
    }

    fn append(&mut self, kind: u32, part: impl Read) -> Result<(), Fault> {
        let start = self.bytes.len();
        let fault = match part.take(PART_LIMIT as u64 + 1).read_to_end(&mut self.bytes) {
            Ok(n) if n <= PART_LIMIT => {
                self.sheet.push(kind << 28 | n as u32);
                self.parts.push(start..start + n);
                return Ok(());
            }
            Ok(_) => Fault::TooLong,
            Err(error) => Fault::Unreadable(error),
        };
        self.bytes.truncate(start);
        Err(fault)
    }

    /// The count of objects, the host among them.
    pub fn objects(&self) -> usize {
        self.sheet.len() / 2 + 1
    }

    /// The words of the sheet.
    pub fn sheet(&self) -> &[u32] {
        &self.sheet
    }

    /// Images, files and names end to end, in the sheet's order.
    pub fn bytes(&self) -> &[u8] {
        &self.bytes
    }

    /// The host's image, or the file of the program or a library; empty where there is no such object.
    pub fn file(&self, object: usize) -> &[u8] {
        self.part(if object < 2 { Some(object) } else { Some(2 * object - 2) })
    }

    /// A library's name; empty for host and program, which have none, and where there is no such object.
    pub fn name(&self, object: usize) -> &[u8] {
        self.part(if object < 2 { None } else { Some(2 * object - 1) })
    }

    fn part(&self, word: Option<usize>) -> &[u8] {
        let part = word.and_then(|k| self.parts.get(k));
        part.map_or(&[], |range| &self.bytes[range.clone()])
    }

    /// Writes the set as an input of document 01's program. That program takes at most 65,536 bytes; [`Set::read`] takes any.
    pub fn write(&self, out: &mut impl Write) -> io::Result<()> {
        let mut head = Vec::with_capacity(4 + 4 * self.sheet.len());
        head.extend((self.sheet.len() as u32).to_le_bytes());
        for word in &self.sheet {
            head.extend(word.to_le_bytes());
        }
        out.write_all(&head)?;
        out.write_all(&self.bytes)
    }

    /// The bytes that [`Set::write`] writes.
    pub fn input_length(&self) -> usize {
        4 + 4 * self.sheet.len() + self.bytes.len()
    }

    /// A set from an input of document 01's program.
    pub fn read(input: &mut impl Read) -> Result<Set, SetError> {
        let word = |input: &mut dyn Read| {
            let mut word = [0; 4];
            input.read_exact(&mut word).map(|()| u32::from_le_bytes(word))
        };
        let cut = |object, error: io::Error| SetError {
            object,
            fault: match error.kind() {
                io::ErrorKind::UnexpectedEof => Fault::NoSet("it is cut short"),
                _ => Fault::Unreadable(error),
            },
        };
        let wrong = |object, reason| Err(SetError { object, fault: Fault::NoSet(reason) });
        let count = word(input).map_err(|error| cut(0, error))? as usize;
        if count < 2 || count % 2 == 1 || count > 2 + 2 * LIBRARY_LIMIT {
            return wrong(0, "the count of its sheet's words is odd, under 2 or over 126");
        }
        let mut set = Set { sheet: Vec::new(), bytes: Vec::new(), parts: Vec::new() };
        let mut end = 0;
        for k in 0..count {
            let object = if k < 2 { k } else { k / 2 + 1 };
            let next = word(input).map_err(|error| cut(object, error))?;
            let length = next as usize & PART_LIMIT;
            let kind = if k < 2 { [HOST, PROGRAM][k] } else { [LIBRARY, NAME][k % 2] };
            if next >> 28 != kind {
                return wrong(object, "a word of its sheet has the wrong kind");
            }
            if kind == NAME && !(1..=NAME_LIMIT).contains(&length) {
                return Err(SetError { object, fault: Fault::NameLength(length) });
            }
            set.sheet.push(next);
            set.parts.push(end..end + length);
            end += length;
        }
        // one byte more tells that there is more
        input.take(end as u64 + 1).read_to_end(&mut set.bytes).map_err(|error| cut(0, error))?;
        match set.bytes.len() {
            n if n < end => wrong(0, "it is cut short"),
            n if n > end => wrong(0, "it goes on after the last part"),
            _ => Ok(set),
        }
    }
}

const fn minimal_host() -> [u8; 4096] {
    /// Stores the low `n` bytes of `value`.
    const fn put(page: &mut [u8; 4096], at: usize, n: usize, value: u64) {
        let mut i = 0;
        while i < n {
            page[at + i] = (value >> (8 * i)) as u8;
            i += 1;
        }
    }
    let mut page = [0; 4096];
    let p = &mut page;
    put(p, 0, 8, 0x0001_0102_464C_457F); // magic, 64 bits, little-endian, version 1
    put(p, 16, 2, 3); // e_type: a shared object
    put(p, 18, 2, 62); // e_machine: x86-64
    put(p, 20, 4, 1); // e_version
    put(p, 32, 8, 64); // e_phoff
    put(p, 52, 2, 64); // e_ehsize
    put(p, 54, 2, 56); // e_phentsize
    put(p, 56, 2, 2); // e_phnum
    put(p, 58, 2, 64); // e_shentsize
    put(p, 64, 4, 1); // PT_LOAD, readable, the page
    put(p, 68, 4, 4);
    put(p, 96, 8, 4096);
    put(p, 104, 8, 4096);
    put(p, 112, 8, 4096);
    put(p, 120, 4, 2); // PT_DYNAMIC, 0x200, five entries
    put(p, 124, 4, 4);
    put(p, 128, 8, 0x200);
    put(p, 136, 8, 0x200);
    put(p, 144, 8, 0x200);
    put(p, 152, 8, 80);
    put(p, 160, 8, 80);
    put(p, 168, 8, 8);
    put(p, 0x200, 8, 5); // DT_STRTAB
    put(p, 0x208, 8, 0x400);
    put(p, 0x210, 8, 10); // DT_STRSZ
    put(p, 0x218, 8, 1);
    put(p, 0x220, 8, 6); // DT_SYMTAB
    put(p, 0x228, 8, 0x300);
    put(p, 0x230, 8, 11); // DT_SYMENT
    put(p, 0x238, 8, 24);
    page
}

#[cfg(test)]
mod tests {
    use super::*;

    fn small() -> Set {
        let mut set = Set::new(&Set::MINIMAL_HOST[..], &b"program"[..]).unwrap();
        set.add(b"liba.so", &b"a"[..]).unwrap();
        set.add(b"b", &b""[..]).unwrap();
        set
    }

    #[test]
    fn sheet_and_bytes_fit() {
        let set = small();
        assert_eq!(set.sheet(), [0x1000_1000, 0x2000_0007, 0x3000_0001, 0x4000_0007, 0x3000_0000, 0x4000_0001]);
        assert_eq!(set.bytes(), [&Set::MINIMAL_HOST[..], b"programaliba.sob"].concat());
        assert_eq!(set.objects(), 4);
        assert_eq!([1, 2, 3, 4, 99].map(|k| set.file(k)), [&b"program"[..], b"a", b"", b"", b""]);
        assert_eq!([0, 1, 2, 3, 4].map(|k| set.name(k)), [&b""[..], b"", b"liba.so", b"b", b""]);
    }

    #[test]
    fn written_and_read() {
        let set = small();
        let mut input = Vec::new();
        set.write(&mut input).unwrap();
        assert_eq!(input.len(), set.input_length());
        let again = Set::read(&mut &input[..]).unwrap();
        assert_eq!((again.sheet(), again.bytes(), again.name(2)), (set.sheet(), set.bytes(), &b"liba.so"[..]));
        for end in 0..input.len() {
            assert!(Set::read(&mut &input[..end]).is_err(), "{end}");
        }
        input.push(0);
        assert!(matches!(Set::read(&mut &input[..]), Err(SetError { fault: Fault::NoSet(_), .. })));
    }

    #[test]
    fn limits() {
        let mut set = small();
        let words = set.sheet().to_vec();
        for name in [&b""[..], &[b'n'; 256]] {
            let error = set.add(name, &b"x"[..]).unwrap_err();
            assert!(matches!(error, SetError { object: 4, fault: Fault::NameLength(n) } if n == name.len()));
        }
        let error = set.add(b"long", io::repeat(0)).unwrap_err();
        assert!(matches!(error.fault, Fault::TooLong));
        assert_eq!((set.sheet(), set.bytes().len()), (&words[..], 4096 + 16));
        while set.objects() < 2 + LIBRARY_LIMIT {
            set.add(&[b'n'; NAME_LIMIT], &b""[..]).unwrap();
        }
        assert!(matches!(set.add(b"n", &b""[..]).unwrap_err().fault, Fault::TooMany));
    }
}
