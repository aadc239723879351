//! Reads the objects of a set that the port has placed: which names occur, and whether the set is in the common domain.
use std::collections::{BTreeMap, BTreeSet, HashMap, HashSet};

const GNU: u64 = 0x6fff_fef5;
/// The dynamic tags whose value is a pointer.
const POINTERS: [u64; 13] = [3, 4, 5, 6, 7, 12, 13, 23, 25, 26, 32, 36, GNU];
/// Those of tables of wider words, with the alignment.
const TABLES: [(u64, u64); 6] = [(6, 8), (7, 8), (23, 8), (36, 8), (GNU, 8), (4, 4)];

pub enum Hash {
    None,
    Gnu(usize),
    SysV(usize),
}

pub struct Object<'a> {
    pub offset: usize,
    image: &'a [u8],
    host: bool,
    dynamic: usize,
    segments: usize,
    tags: Vec<(u64, u64)>,
    strings: usize,
    pub symbols: usize,
    count: Option<usize>,
    hash: Hash,
}

fn number(bytes: &[u8], at: usize, width: usize) -> u64 {
    (0..width).rev().fold(0, |sum, i| sum << 8 | at.checked_add(i).and_then(|k| bytes.get(k)).copied().unwrap_or(0) as u64)
}

fn gnu_hash(name: &[u8]) -> u32 {
    name.iter().fold(5381, |h: u32, &byte| h.wrapping_mul(33).wrapping_add(byte as u32))
}

fn elf_hash(name: &[u8]) -> u32 {
    name.iter().fold(0, |h: u32, &byte| {
        let h = (h << 4).wrapping_add(byte as u32);
        (h ^ (h & 0xf000_0000) >> 24) & 0x0fff_ffff
    })
}

/// The objects, from the placed arena.
pub fn objects<'a>(sheet: &[u32], bytes: &[u8], arena: &'a [u8], address: u64) -> Vec<Object<'a>> {
    let (mut at, mut offset) = (0, 0);
    let mut out = Vec::new();
    for (i, word) in sheet.iter().enumerate() {
        let size = (word & 0x0fff_ffff) as usize;
        let file = &bytes[at..at + size];
        at += size;
        if i >= 3 && i % 2 == 1 {
            continue; // a name
        }
        let heads: Vec<usize> =
            (0..number(file, 56, 2) as usize).map(|k| number(file, 32, 8) as usize + 56 * k).collect();
        let end = heads.iter().filter(|&&h| number(file, h, 4) == 1).map(|&h| number(file, h + 16, 8) + number(file, h + 40, 8)).max();
        let align = heads.iter().filter(|&&h| number(file, h, 4) == 1).map(|&h| number(file, h + 48, 8)).fold(4096, u64::max);
        if i != 0 {
            offset = ((address + offset as u64).next_multiple_of(align) - address) as usize;
        }
        let span = if i == 0 { size } else { end.unwrap_or(0).div_ceil(4096) as usize * 4096 };
        let dynamic = heads.iter().rev().find(|&&h| number(file, h, 4) == 2).map_or(0, |&h| number(file, h + 16, 8) as usize);
        let segments = heads.iter().filter(|&&h| number(file, h, 4) == 1).count();
        out.push(Object::new(offset, &arena[offset..offset + span], i == 0, dynamic, segments));
        offset += span;
    }
    out
}

impl<'a> Object<'a> {
    fn new(offset: usize, image: &'a [u8], host: bool, dynamic: usize, segments: usize) -> Self {
        let mut tags = Vec::new();
        let mut at = dynamic;
        while at + 16 <= image.len() && number(image, at, 8) != 0 {
            tags.push((number(image, at, 8), number(image, at + 8, 8)));
            at += 16;
        }
        let last = |tag: u64| tags.iter().rev().find(|t| t.0 == tag).map(|t| t.1 as usize);
        let (strings, symbols) = (last(5).unwrap_or(0), last(6).unwrap_or(0));
        let hash = match (last(GNU), tags.iter().find(|t| t.0 == 4)) {
            (Some(place), _) => Hash::Gnu(place),
            (None, Some(first)) => Hash::SysV(first.1 as usize),
            _ => Hash::None,
        };
        let mut object = Object { offset, image, host, dynamic, segments, tags, strings, symbols, count: None, hash };
        object.count = if strings > symbols {
            Some((strings - symbols) / 24)
        } else {
            match object.hash {
                Hash::SysV(place) => Some(object.u32(place + 4) as usize),
                Hash::Gnu(_) => object.walked().last().map(|&s| s as usize + 1),
                Hash::None => None,
            }
        };
        object
    }

    fn u32(&self, at: usize) -> u32 {
        number(self.image, at, 4) as u32
    }

    fn u64(&self, at: usize) -> u64 {
        number(self.image, at, 8)
    }

    fn last(&self, tag: u64) -> Option<usize> {
        self.tags.iter().rev().find(|t| t.0 == tag).map(|t| t.1 as usize)
    }

    /// The string at an offset of the string table, where it ends inside the image.
    fn name(&self, offset: u64) -> Option<&'a [u8]> {
        let at = self.strings.checked_add(offset as usize)?;
        let rest = self.image.get(at..)?;
        Some(&rest[..rest.iter().position(|&byte| byte == 0)?])
    }

    /// The 24 bytes of a symbol.
    pub fn symbol(&self, index: usize) -> Option<&'a [u8]> {
        let at = self.symbols.checked_add(index.checked_mul(24)?)?;
        self.image.get(at..at.checked_add(24)?)
    }

    /// How many buckets the hash table has.
    fn buckets(&self) -> u32 {
        match self.hash {
            Hash::None => 0,
            Hash::Gnu(place) | Hash::SysV(place) => self.u32(place),
        }
    }

    /// The walk of a bucket: each symbol, with its chain word.
    fn walk(&self, bucket: u32) -> Vec<(u32, u32)> {
        let mut out = Vec::new();
        match self.hash {
            Hash::None => (),
            Hash::Gnu(place) => {
                let (buckets, first, blooms) = (self.u32(place) as usize, self.u32(place + 4), self.u32(place + 8) as usize);
                let start = place + 16 + 8 * blooms;
                let mut s = self.u32(start + 4 * bucket as usize);
                while s != 0 {
                    let word = self.u32(start + 4 * buckets + 4 * (s - first) as usize);
                    out.push((s, word));
                    s = if word & 1 == 0 { s + 1 } else { 0 };
                }
            }
            Hash::SysV(place) => {
                let buckets = self.u32(place) as usize;
                let mut s = self.u32(place + 8 + 4 * bucket as usize);
                while s != 0 {
                    let next = self.u32(place + 8 + 4 * buckets + 4 * s as usize);
                    out.push((s, next));
                    s = next;
                }
            }
        }
        out
    }

    /// The symbols that the walks of the buckets reach.
    fn walked(&self) -> BTreeSet<u32> {
        (0..self.buckets()).flat_map(|bucket| self.walk(bucket)).map(|(s, _)| s).collect()
    }

    /// Adds the names whose first hit is not exported and that have an exported one later in that chain: the search.
    pub fn hidden_twins(&self, out: &mut HashSet<Vec<u8>>) {
        for bucket in 0..self.buckets() {
            let mut first = HashMap::new();
            for (s, word) in self.walk(bucket) {
                let Some(symbol) = self.symbol(s as usize) else { continue };
                let Some(name) = self.name(number(symbol, 0, 4)) else { continue };
                let hit = match self.hash {
                    Hash::Gnu(_) => gnu_hash(name) % self.buckets() == bucket && gnu_hash(name) | 1 == word | 1,
                    _ => elf_hash(name) % self.buckets() == bucket,
                };
                let exported = number(symbol, 6, 2) != 0 && [1, 2].contains(&(symbol[4] >> 4)) && [0, 3].contains(&(symbol[5] & 3));
                if hit && !*first.entry(name).or_insert(exported) && exported {
                    out.insert(name.to_vec());
                }
            }
        }
    }

    /// Places of the entries of RELA and PLT; the host's are not read.
    fn entries(&self) -> Vec<usize> {
        let mut out = Vec::new();
        for (table, size) in if self.host { [].iter() } else { [(7, 8), (23, 2)].iter() } {
            if let (Some(place), Some(bytes)) = (self.last(*table), self.last(*size)) {
                out.extend((0..bytes / 24).map(|i| place + 24 * i));
            }
        }
        out
    }

    /// How many words the RELR table has.
    fn relr_words(&self) -> usize {
        if self.host || self.last(36).is_none() { 0 } else { self.last(35).unwrap_or(0) / 8 }
    }

    /// The names of what it needs.
    pub fn needs(&self) -> Vec<&'a [u8]> {
        self.tags.iter().filter(|t| t.0 == 1).filter_map(|t| self.name(t.1)).collect()
    }

    /// Counts the forms that the object has.
    pub fn forms(&self, seen: &mut BTreeMap<&'static str, usize>) {
        let mut count = |what: &'static str, n: usize| *seen.entry(what).or_default() += n;
        count(
            match (self.last(GNU).is_some(), self.last(4).is_some()) {
                (true, true) => "objects with a GNU and a SysV table",
                (true, false) => "objects with a GNU table",
                (false, true) => "objects with a SysV table",
                _ => "objects with no hash table",
            },
            1,
        );
        count(
            match (self.strings > self.symbols, &self.hash, self.count) {
                (_, _, None) => "symbol counts unknown",
                (true, ..) => "symbol counts by the string table",
                (_, Hash::SysV(_), _) => "symbol counts by a SysV table",
                _ => "symbol counts by a GNU table",
            },
            1,
        );
        for at in self.entries() {
            let kind = self.u32(at + 8);
            count(
                match kind {
                    5 => "entries of type 5",
                    6 | 7 => "entries of type 6 or 7",
                    8 => "entries of type 8",
                    _ => "entries of other types",
                },
                1,
            );
            count("entries of type 5, 6 or 7 with symbol 0", ([5, 6, 7].contains(&kind) && self.u32(at + 12) == 0) as usize);
        }
        count("RELR words", self.relr_words());
        for symbol in self.walked().iter().filter_map(|&s| self.symbol(s as usize)) {
            count("hashed symbols, weak", (symbol[4] >> 4 == 2) as usize);
            count("hashed symbols, hidden or internal", [1, 2].contains(&(symbol[5] & 3)) as usize);
            count("hashed symbols, protected", (symbol[5] & 3 == 3) as usize);
            count("hashed symbols, absolute", (number(symbol, 6, 2) == 0xfff1) as usize);
            count("hashed symbols, undefined", (number(symbol, 6, 2) == 0) as usize);
        }
        let mut most = |what: &'static str, n: usize| {
            let old = seen.entry(what).or_default();
            *old = n.max(*old);
        };
        most("most segments of an object", self.segments);
        most("most needs of an object", self.tags.iter().filter(|t| t.0 == 1).count());
    }

    /// Adds the names of all symbols.
    pub fn names(&self, out: &mut HashSet<Vec<u8>>) {
        let mut indices: BTreeSet<usize> = self.walked().into_iter().map(|s| s as usize).collect();
        indices.extend(0..self.count.unwrap_or(0).min(self.image.len() / 24));
        for index in indices {
            if let Some(name) = self.symbol(index).and_then(|s| self.name(number(s, 0, 4))) {
                out.insert(name.to_vec());
            }
        }
    }

    /// Why the set is not in the common domain for this object.
    pub fn outside(&self, address: u64) -> Option<&'static str> {
        let base = address + self.offset as u64;
        if self.dynamic % 8 != 0 {
            return Some("a table that is not aligned");
        }
        for &(tag, value) in &self.tags {
            if POINTERS.contains(&tag) && base.checked_add(value).is_none() {
                return Some("a dynamic pointer past 2^64");
            }
            if TABLES.iter().any(|&(table, step)| tag == table && value % step != 0) {
                return Some("a table that is not aligned");
            }
            let header = if tag == 4 { 8 } else { 16 };
            if (tag == 4 || tag == GNU) && value.checked_add(header).is_none_or(|end| end > self.image.len() as u64) {
                return Some("a hash header that is not read here");
            }
            if (tag == 15 || tag == 29) && self.name(value).is_none() {
                return Some("a path that is not read here");
            }
        }
        let words = self.relr_words();
        let relr = self.last(36).unwrap_or(0);
        if (0..words).map(|i| self.u64(relr + 8 * i)).any(|w| w % 2 == 0 && w % 8 != 0) {
            return Some("a RELR word that is not aligned");
        }
        if self.entries().iter().any(|&at| [1, 2, 10, 11, 24].contains(&self.u32(at + 8))) {
            return Some("a type that the Rust passes over");
        }
        let mut names = self.needs();
        let walked = self.walked();
        let mut read = walked.clone();
        read.extend(self.entries().iter().filter(|&&at| [5, 6, 7].contains(&self.u32(at + 8))).map(|&at| self.u32(at + 12)));
        for s in read {
            // An index that is refused by 14 or 15 is not followed.
            if self.count.is_some_and(|count| s as usize >= count) && !walked.contains(&s) {
                continue;
            }
            if let Some(symbol) = self.symbol(s as usize) {
                if base.checked_add(number(symbol, 8, 8)).is_none() {
                    return Some("a symbol's value past 2^64");
                }
                names.extend(self.name(number(symbol, 0, 4)));
            }
        }
        names.iter().any(|name| std::str::from_utf8(name).is_err()).then_some("a name that is not UTF-8")
    }
}
