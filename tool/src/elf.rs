//! What files say, for showing: names of symbols, needs, relocation entries, and the sizes of spans. Nothing here takes part in binding, and
//! nothing is refused: what cannot be read is absent. Every function is total, on any bytes.
use crate::{Set, ARENA_LIMIT, PART_LIMIT};

/// The size of a page.
pub const PAGE: u64 = 4096;
/// The bytes of a name that are shown; a longer one is cut. A file can have many names that end far off.
pub const NAME_SHOWN: usize = 4096;
const LOAD: u32 = 1;
const DYNAMIC: u32 = 2;
/// Document 01's limits: program headers that are read, and where a segment may end.
const HEADERS: usize = 64;
const END: u64 = 1 << 28;

fn bytes_at<const N: usize>(bytes: &[u8], at: usize) -> Option<[u8; N]> {
    bytes.get(at..at.checked_add(N)?)?.try_into().ok()
}

fn u16_at(bytes: &[u8], at: usize) -> Option<u16> {
    bytes_at(bytes, at).map(u16::from_le_bytes)
}

fn u32_at(bytes: &[u8], at: usize) -> Option<u32> {
    bytes_at(bytes, at).map(u32::from_le_bytes)
}

fn u64_at(bytes: &[u8], at: usize) -> Option<u64> {
    bytes_at(bytes, at).map(u64::from_le_bytes)
}

/// The bytes from an offset on, none where it is past the end.
fn from(bytes: &[u8], at: u64) -> &[u8] {
    usize::try_from(at).ok().and_then(|at| bytes.get(at..)).unwrap_or(&[])
}

fn page_start(n: u64) -> u64 {
    n / PAGE * PAGE
}

fn page_end(n: u64) -> u64 {
    page_start(n.saturating_add(PAGE - 1))
}

/// A PT_LOAD header.
#[derive(Clone, Copy, Debug)]
pub struct Segment {
    /// p_flags: 1 execute, 2 write, 4 read.
    pub flags: u32,
    /// p_offset.
    pub offset: u64,
    /// p_vaddr.
    pub vaddr: u64,
    /// p_filesz.
    pub filesz: u64,
    /// p_memsz.
    pub memsz: u64,
    /// p_align.
    pub align: u64,
}

/// A relocation entry of the RELA or the PLT table.
#[derive(Clone, Copy, Debug)]
pub struct Entry {
    /// Where it writes, from the object's base.
    pub place: u64,
    /// Its type, R_X86_64_..
    pub kind: u32,
    /// The index of its symbol.
    pub symbol: u32,
}

/// An entry of the symbol table.
#[derive(Clone, Copy, Debug)]
pub struct Symbol {
    name: u32,
    info: u8,
    other: u8,
    section: u16,
    value: u64,
}

impl Symbol {
    /// Document 01: section not 0, binding 1 or 2, visibility 0 or 3.
    pub fn exported(&self) -> bool {
        self.section != 0 && matches!(self.info >> 4, 1 | 2) && matches!(self.other & 3, 0 | 3)
    }

    /// Its address in an object at `base`.
    pub fn address(&self, base: u64) -> u64 {
        match self.section {
            0xFFF1 => self.value,
            _ => base.wrapping_add(self.value),
        }
    }

    /// Whether the object's own references prefer it.
    pub fn protected(&self) -> bool {
        self.other & 3 == 3
    }
}

/// What is known of an object's file, or of the host's image.
#[derive(Default)]
pub struct Module<'a> {
    file: &'a [u8],
    segments: Vec<Segment>,
    needs: Vec<u64>,
    soname: Option<u64>,
    strings: &'a [u8],
    symbols: &'a [u8],
    symbol_count: usize,
    rela: &'a [u8],
    rela_count: u64,
    plt: &'a [u8],
    plt_count: u64,
    preinit_size: u64,
    init_size: u64,
    fini_size: u64,
    /// Whether the dynamic array was read to its end.
    complete: bool,
}

/// PT_LOAD headers in their order, and p_vaddr of the last PT_DYNAMIC.
fn headers(file: &[u8]) -> (Vec<Segment>, Option<u64>) {
    let (mut segments, mut dynamic) = (Vec::new(), None);
    if !file.starts_with(b"\x7fELF\x02\x01") {
        return (segments, dynamic);
    }
    let table = from(file, u64_at(file, 32).unwrap_or(u64::MAX));
    let count = usize::from(u16_at(file, 56).unwrap_or(0));
    for header in table.chunks_exact(56).take(count.min(HEADERS)) {
        let field = |at| u64_at(header, at).unwrap_or(0);
        match u32_at(header, 0) {
            Some(LOAD) => segments.push(Segment {
                flags: u32_at(header, 4).unwrap_or(0),
                offset: field(8),
                vaddr: field(16),
                filesz: field(32),
                memsz: field(40),
                align: field(48),
            }),
            Some(DYNAMIC) => dynamic = Some(field(16)),
            _ => {}
        }
    }
    (segments, dynamic)
}

impl<'a> Module<'a> {
    /// The program or a library, from its file.
    pub fn of_file(file: &'a [u8]) -> Module<'a> {
        let (segments, dynamic) = headers(file);
        Module { file, segments, ..Module::default() }.with_tables(dynamic)
    }

    /// The host, from its image: addresses are offsets in it.
    pub fn of_image(image: &'a [u8]) -> Module<'a> {
        let size = image.len() as u64;
        let whole = Segment { flags: 4, offset: 0, vaddr: 0, filesz: size, memsz: size, align: PAGE };
        Module { file: image, segments: vec![whole], ..Module::default() }.with_tables(headers(image).1)
    }

    /// The file's bytes that are placed at an address, from there to the end of their run.
    fn at(&self, address: u64) -> &'a [u8] {
        for s in &self.segments {
            let start = page_start(s.vaddr);
            let tail = s.vaddr.saturating_add(s.filesz);
            let end = if s.filesz < s.memsz { tail } else { page_end(tail) };
            if start <= address && address < end {
                let run = from(self.file, page_start(s.offset).saturating_add(address - start));
                let length = usize::try_from(end - address).unwrap_or(usize::MAX);
                return &run[..run.len().min(length)];
            }
        }
        &[]
    }

    fn with_tables(mut self, dynamic: Option<u64>) -> Module<'a> {
        let array = dynamic.map_or(&[][..], |address| self.at(address));
        let (mut strings, mut symbols, mut gnu, mut sysv) = (None, None, None, None);
        let (mut rela, mut rela_size, mut plt, mut plt_size) = (None, 0, None, 0);
        for entry in array.chunks_exact(16) {
            let (tag, value) = (u64_at(entry, 0).unwrap_or(0), u64_at(entry, 8).unwrap_or(0));
            match tag {
                0 => {
                    self.complete = true;
                    break;
                }
                1 => self.needs.push(value),
                2 => plt_size = value,
                4 => sysv = sysv.or(Some(value)),
                5 => strings = Some(value),
                6 => symbols = Some(value),
                7 => rela = Some(value),
                8 => rela_size = value,
                14 => self.soname = Some(value),
                23 => plt = Some(value),
                27 => self.init_size = value,
                28 => self.fini_size = value,
                33 => self.preinit_size = value,
                0x6fff_fef5 => gnu = Some(value),
                _ => {}
            }
        }
        let table = |at: Option<u64>| at.map_or(&[][..], |address| self.at(address));
        let (gnu, sysv) = (gnu.map(|address| self.at(address)), table(sysv));
        let tables = (table(strings), table(symbols), table(rela), table(plt));
        (self.strings, self.symbols, self.rela, self.plt) = tables;
        self.rela_count = rela.map_or(0, |_| rela_size / 24);
        self.plt_count = plt.map_or(0, |_| plt_size / 24);
        let count = match (strings, symbols) {
            (Some(strings), Some(symbols)) if strings > symbols => (strings - symbols) / 24,
            _ => gnu.map_or_else(|| u32_at(sysv, 4).unwrap_or(0).into(), gnu_count),
        };
        self.symbol_count = (self.symbols.len() / 24).min(usize::try_from(count).unwrap_or(usize::MAX));
        self
    }

    /// The PT_LOAD headers; of the host, one that is the whole image.
    pub fn segments(&self) -> &[Segment] {
        &self.segments
    }

    /// The bytes that it takes in the arena; 0 where its segments cannot be placed.
    pub fn span(&self) -> u64 {
        let mut span = 0;
        for s in &self.segments {
            match s.vaddr.checked_add(s.memsz) {
                Some(end) if end <= END => span = span.max(page_end(end)),
                _ => return 0,
            }
        }
        span
    }

    /// The multiple at which it starts in memory: the largest p_align, a page at least.
    pub fn align(&self) -> u64 {
        let good = self.segments.iter().map(|s| s.align).filter(|a| a.is_power_of_two() && *a <= 1 << 21);
        good.max().unwrap_or(0).max(PAGE)
    }

    /// The count of RELA and PLT entries.
    pub fn entry_count(&self) -> u64 {
        self.rela_count.saturating_add(self.plt_count)
    }

    /// An entry by its number in the report, RELA from 0, PLT following.
    pub fn entry(&self, number: u64) -> Option<Entry> {
        let (table, k) = match number.checked_sub(self.rela_count) {
            None => (self.rela, number),
            Some(k) if k < self.plt_count => (self.plt, k),
            Some(_) => return None,
        };
        let entry = from(table, k.checked_mul(24)?);
        Some(Entry { place: u64_at(entry, 0)?, kind: u32_at(entry, 8)?, symbol: u32_at(entry, 12)? })
    }

    /// Whether an entry's number is one of the PLT table.
    pub fn in_plt(&self, number: u64) -> bool {
        number >= self.rela_count
    }

    /// A symbol by its index.
    pub fn symbol(&self, index: usize) -> Option<Symbol> {
        let symbol = self.symbols.get(index.checked_mul(24)?..)?.get(..24)?;
        Some(Symbol {
            name: u32_at(symbol, 0)?,
            info: symbol[4],
            other: symbol[5],
            section: u16_at(symbol, 6)?,
            value: u64_at(symbol, 8)?,
        })
    }

    /// The symbols, as far as their table can be read.
    pub fn symbols(&self) -> impl Iterator<Item = (usize, Symbol)> + '_ {
        (0..self.symbol_count).filter_map(|index| Some((index, self.symbol(index)?)))
    }

    /// The name of a symbol of this object, where that can be read and has at most `most` bytes.
    pub fn name_within(&self, symbol: &Symbol, most: usize) -> Option<&'a [u8]> {
        let text = from(self.strings, symbol.name.into());
        let near = &text[..text.len().min(most.saturating_add(1))];
        near.iter().position(|byte| *byte == 0).map(|end| &near[..end])
    }

    /// The name of a symbol of this object, for showing.
    pub fn name(&self, symbol: &Symbol) -> Option<&'a [u8]> {
        self.string(symbol.name.into())
    }

    fn string(&self, offset: u64) -> Option<&'a [u8]> {
        let text = from(self.strings, offset);
        let near = &text[..text.len().min(NAME_SHOWN)];
        match near.iter().position(|byte| *byte == 0) {
            Some(end) => Some(&near[..end]),
            None => (near.len() == NAME_SHOWN).then_some(near),
        }
    }

    /// The names of the libraries that it needs (DT_NEEDED), in their order.
    pub fn needs(&self) -> impl Iterator<Item = &'a [u8]> + '_ {
        self.needs.iter().filter_map(|offset| self.string(*offset))
    }

    /// The name that the file gives itself (DT_SONAME).
    pub fn soname(&self) -> Option<&'a [u8]> {
        self.soname.and_then(|offset| self.string(offset))
    }
}

/// One past the last index of the highest bucket's chain.
fn gnu_count(table: &[u8]) -> u64 {
    let word = |at| u32_at(table, at);
    let (Some(buckets), Some(first), Some(blooms)) = (word(0), word(4), word(8)) else { return 0 };
    let start = 16 + 8 * u64::from(blooms);
    let heads = from(table, start).chunks_exact(4).take(buckets as usize);
    let highest = heads.filter_map(|head| u32_at(head, 0)).max().unwrap_or(0);
    if highest < first || highest == 0 {
        return 0;
    }
    let chains = from(table, start + 4 * u64::from(buckets) + 4 * u64::from(highest - first));
    let walked = chains.chunks_exact(4).position(|word| word[0] & 1 == 1);
    walked.map_or(0, |length| u64::from(highest) + length as u64 + 1)
}

/// The objects of a set, by number.
pub fn modules(set: &Set) -> Vec<Module<'_>> {
    (0..set.objects())
        .map(|k| if k == 0 { Module::of_image(set.file(k)) } else { Module::of_file(set.file(k)) })
        .collect()
}

/// Where an object goes in the arena.
#[derive(Clone, Copy, Debug, PartialEq)]
pub struct Place {
    /// Its first byte, from the arena's start.
    pub offset: u64,
    /// Its bytes, whole pages.
    pub span: u64,
}

impl Place {
    /// One past its last byte.
    pub fn end(&self) -> u64 {
        self.offset + self.span
    }
}

/// The places of objects in an arena at `address`: the host first, each after the one before, at the next multiple of its own alignment.
pub fn layout(modules: &[Module], address: u64) -> Vec<Place> {
    let mut free = 0;
    let mut places = Vec::with_capacity(modules.len());
    for (k, module) in modules.iter().enumerate() {
        let span = if k == 0 { module.file.len() as u64 } else { module.span() };
        let past = address.wrapping_add(free) % module.align();
        let gap = if k == 0 || past == 0 { 0 } else { module.align() - past };
        places.push(Place { offset: free + gap, span });
        free += gap + span;
    }
    places
}

/// The bytes of the least arena that holds these places. It can be over [`ARENA_LIMIT`].
pub fn arena_needed(places: &[Place]) -> u64 {
    places.last().map_or(0, Place::end)
}

/// Words that hold every report of these objects: one for each but the host, and one for each entry.
pub fn report_needed(modules: &[Module]) -> usize {
    let objects = modules.get(1..).unwrap_or(&[]);
    let entries = objects.iter().map(|m| {
        // a table lies in the span, so a count that is larger is refused
        let most = m.span() / 24 + 1;
        let bounded = |count: u64| if m.complete { count.min(most) } else { most };
        bounded(m.rela_count) + bounded(m.plt_count)
    });
    objects.len() + entries.sum::<u64>() as usize
}

/// Addresses that the lists of what to call to start and to stop have at most: DT_INIT or DT_FINI of each object, and the words of arrays.
pub fn lists_needed(modules: &[Module]) -> (usize, usize) {
    let (mut start, mut stop) = (0, 0);
    for module in modules {
        // an array lies in the span, so a size that is larger is refused
        let most = module.span() / 8 + 1;
        let words = |size: u64| if module.complete { most.min(size / 8) } else { most };
        start += 1 + words(module.preinit_size) + words(module.init_size);
        stop += 1 + words(module.fini_size);
    }
    (start as usize, stop as usize)
}

/// The image that document 01 wants of a host: the segments of a module, placed as those of the other objects are, in whole pages from address
/// 0, not relocated. A file without ELF header is handed on in whole pages, so that it is refused in the archive's words.
pub fn host_image(file: &[u8]) -> Result<Vec<u8>, &'static str> {
    let module = Module::of_file(file);
    if module.segments.is_empty() {
        let mut image = file.to_vec();
        image.resize(page_end(file.len() as u64) as usize, 0);
        return Ok(image);
    }
    if !module.segments.iter().any(|s| s.offset == 0 && s.vaddr == 0) {
        return Err(
            "none of its segments begins at file offset 0 and address 0, so that its image would have no header",
        );
    }
    let span = module.span();
    if span == 0 || span > (PART_LIMIT as u64).min(ARENA_LIMIT as u64) {
        return Err("its segments do not end below 2^28");
    }
    let mut image = vec![0; span as usize];
    for s in &module.segments {
        if s.filesz > s.memsz || s.offset.saturating_add(s.filesz) > file.len() as u64 {
            return Err("one of its segments has more file than memory, or ends past the file");
        }
        if s.offset % PAGE != s.vaddr % PAGE {
            return Err("one of its segments has a file offset and an address that differ modulo 4,096");
        }
        let start = page_start(s.vaddr) as usize;
        let placed = &mut image[start..page_end(s.vaddr + s.memsz) as usize];
        let run = from(file, page_start(s.offset));
        let file_end = (page_end(s.vaddr + s.filesz) as usize - start).min(placed.len()).min(run.len());
        if s.filesz > 0 {
            placed[..file_end].copy_from_slice(&run[..file_end]);
        }
        let zeros = (s.vaddr + s.filesz) as usize - start..(s.vaddr + s.memsz) as usize - start;
        placed[zeros].fill(0);
    }
    Ok(image)
}

#[cfg(test)]
mod tests {
    use super::*;

    /// Numbers that look random (xorshift).
    struct Numbers(u64);

    impl Numbers {
        fn below(&mut self, n: usize) -> usize {
            self.0 ^= self.0 << 13;
            self.0 ^= self.0 >> 7;
            self.0 ^= self.0 << 17;
            (self.0 % n as u64) as usize
        }
    }

    fn all_of(file: &[u8], whole: bool) {
        for module in [Module::of_file(file), Module::of_image(file)] {
            assert!(module.span() <= END && module.align() >= PAGE);
            for number in (0..40).chain([module.entry_count().wrapping_sub(1), module.rela_count, u64::MAX]) {
                let symbol = module.entry(number).and_then(|entry| module.symbol(entry.symbol as usize));
                let _ = symbol.map(|symbol| (module.name(&symbol), module.name_within(&symbol, 9)));
            }
            for (_, symbol) in module.symbols().take(40) {
                let _ = (symbol.exported(), symbol.protected(), symbol.address(u64::MAX));
            }
            assert!(module.needs().count() <= file.len() && module.soname().map_or(0, <[u8]>::len) <= file.len());
            let places = layout(&[Module::of_image(file), module], u64::MAX - 5);
            assert!(arena_needed(&places) >= file.len() as u64);
        }
        if whole && Module::of_file(file).span() < 1 << 24 {
            let _ = host_image(file);
        }
    }

    /// No bytes make a function here panic.
    #[test]
    fn total() {
        let program = std::fs::read("/proc/self/exe").unwrap();
        let program = &program[..program.len().min(1 << 18)];
        for sample in [&Set::MINIMAL_HOST[..], program] {
            let (segments, dynamic) = headers(sample);
            let array = dynamic.map_or(0, |d| {
                segments.iter().find(|s| s.vaddr <= d && d - s.vaddr < s.filesz).map_or(0, |s| d - s.vaddr + s.offset)
            });
            let mut numbers = Numbers(22);
            let mut file = sample.to_vec();
            for turn in 0..20_000 {
                let mut undo = Vec::new();
                for _ in 0..1 + numbers.below(4) {
                    let start =
                        [0, 64, (array as usize).min(file.len() - 1), numbers.below(file.len())][numbers.below(4)];
                    let reach = [64, 512, 512, 8][numbers.below(4)];
                    let at = (start + numbers.below(reach)).min(file.len() - 8);
                    undo.push((at, bytes_at::<8>(&file, at).unwrap()));
                    let value = [0, u64::MAX, 1 << numbers.below(64), numbers.0][numbers.below(4)];
                    let width = [1, 2, 4, 8][numbers.below(4)];
                    file[at..at + width].copy_from_slice(&value.to_le_bytes()[..width]);
                }
                all_of(&file, turn % 50 == 0);
                for (at, bytes) in undo.into_iter().rev() {
                    file[at..at + 8].copy_from_slice(&bytes);
                }
            }
            assert_eq!(file, sample);
            (0..600).for_each(|end| all_of(&sample[..end], true));
        }
    }

    #[test]
    fn the_minimal_host() {
        let host = Module::of_image(&Set::MINIMAL_HOST);
        assert_eq!((host.needs().count(), host.symbol_count, host.entry_count()), (0, 10, 0));
        assert_eq!(host_image(&Set::MINIMAL_HOST).unwrap(), Set::MINIMAL_HOST);
        assert_eq!(host.symbols().filter(|(_, symbol)| symbol.exported()).count(), 0);
    }

    #[test]
    fn places() {
        let host = [0; 4096];
        let program = |align: u64| {
            let mut file = Set::MINIMAL_HOST.to_vec();
            file[112..120].copy_from_slice(&align.to_le_bytes());
            file
        };
        let (large, plain) = (program(0x2000), program(0));
        let modules = [Module::of_image(&host), Module::of_file(&large), Module::of_file(&plain)];
        let offsets = |address| layout(&modules, address).iter().map(|place| place.offset).collect::<Vec<u64>>();
        assert_eq!(offsets(0x1000_0000), [0, 0x2000, 0x3000]);
        assert_eq!(offsets(0x1000_1000), [0, 0x1000, 0x2000]);
        assert_eq!(arena_needed(&layout(&modules, 0)), 0x4000);
        assert_eq!(report_needed(&modules), 2);
    }
}
