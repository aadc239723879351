//! The calls, over a set.
use crate::archive::{self, Lists, Slices};
use crate::{elf, Set, Types};

/// The most bytes of an arena.
pub const ARENA_LIMIT: usize = 1 << 28;

/// What a call that is refused answers. docs/REFUSALS.md has what a number means, and what to do about it.
#[derive(Clone, Copy, Debug, PartialEq, Eq)]
pub struct Refusal {
    /// Document 01's number, or document 02's.
    pub number: u32,
    /// The object that it is about; 0, too, where it is about none.
    pub object: u32,
}

impl Refusal {
    fn check(answer: u64) -> Result<(), Refusal> {
        match answer {
            0 => Ok(()),
            _ => Err(Refusal { number: answer as u32, object: (answer >> 32) as u32 }),
        }
    }
}

/// What becomes of entries whose symbol nobody defines.
#[derive(Clone, Copy, Debug, PartialEq, Eq, Default)]
pub enum Policy {
    /// They are reported.
    #[default]
    Lenient,
    /// They are refused, by number 19.
    Strict,
}

/// A word of the report.
#[derive(Clone, Copy, Debug, PartialEq, Eq)]
pub enum Word {
    /// An object, by its number. The entries of the words that follow are its own.
    Object(u32),
    /// An entry, by its number, whose symbol nobody defines.
    Undefined(u32),
    /// An entry, by its number, of a type that is passed over.
    Passed(u32),
}

impl Word {
    fn of(word: u32) -> Option<Word> {
        let low = word & 0x0FFF_FFFF;
        match word >> 28 {
            5 => Some(Word::Object(low)),
            6 => Some(Word::Undefined(low)),
            7 => Some(Word::Passed(low)),
            _ => None,
        }
    }
}

/// A set that is bound.
#[derive(Clone, Debug, PartialEq, Eq)]
pub struct Bound {
    /// The image, to be mapped at the call's address.
    pub image: Vec<u8>,
    /// The words of the report, as document 01 has them, without the zeros at the end.
    pub report: Vec<u32>,
}

impl Bound {
    /// The words of the report, taken apart.
    pub fn words(&self) -> impl Iterator<Item = Word> + '_ {
        self.report.iter().filter_map(|word| Word::of(*word))
    }

    /// The objects in binding order, by number.
    pub fn order(&self) -> impl Iterator<Item = usize> + '_ {
        self.words().filter_map(|word| match word {
            Word::Object(k) => Some(k as usize),
            _ => None,
        })
    }
}

/// Functions to call, by address, in the order in which to call them.
#[derive(Clone, Debug, PartialEq, Eq)]
pub struct StartStop {
    /// Before anything else of the image is called.
    pub start: Vec<u64>,
    /// After everything else.
    pub stop: Vec<u64>,
}

/// Where a name is.
#[derive(Clone, Copy, Debug, PartialEq, Eq)]
pub struct Found {
    /// The number of the object that defines it.
    pub object: u32,
    /// The index of its symbol there.
    pub symbol: u32,
    /// Its address.
    pub address: u64,
}

/// A set, and what it is bound or asked with.
#[derive(Clone)]
pub struct Call<'a> {
    /// The set.
    pub set: &'a Set,
    /// Where the arena will be mapped.
    pub address: u64,
    /// The bytes of the arena.
    pub arena: usize,
    /// The words of the report.
    pub report: usize,
    /// What becomes of undefined entries.
    pub policy: Policy,
    /// What is done with entries of each type.
    pub types: Types,
}

impl<'a> Call<'a> {
    /// A lenient call, with the supplied words of the types, the least arena that holds the set at that address (at most [`ARENA_LIMIT`]) and a report that is long enough.
    pub fn new(set: &'a Set, address: u64) -> Call<'a> {
        let modules = elf::modules(set);
        let needed = elf::arena_needed(&elf::layout(&modules, address));
        Call {
            set,
            address,
            arena: needed.min(ARENA_LIMIT as u64) as usize,
            report: elf::report_needed(&modules),
            policy: Policy::Lenient,
            types: Types::supplied(),
        }
    }

    /// An arena. Every length over the limit gets the same answer, refusal 2.
    fn room(&self) -> Vec<u8> {
        vec![0; self.arena.min(ARENA_LIMIT + 1)]
    }

    fn slices<'b>(&'b self, arena: &'b mut [u8]) -> Slices<'b> {
        Slices { sheet: self.set.sheet(), bytes: self.set.bytes(), arena, address: self.address }
    }

    fn strict(&self) -> bool {
        self.policy == Policy::Strict
    }

    /// Binds the set.
    pub fn bind(&self) -> Result<Bound, Refusal> {
        let (mut image, mut report) = (self.room(), vec![0; self.report]);
        Refusal::check(archive::bind(self.slices(&mut image), self.strict(), self.types.words(), &mut report))?;
        Ok(Bound { image, report: used(report) })
    }

    /// Binds the set in this order, by numbers: each library once, then the program.
    pub fn bind_ordered(&self, order: &[u32]) -> Result<Bound, Refusal> {
        let (mut image, mut report) = (self.room(), vec![0; self.report]);
        let (slices, types) = (self.slices(&mut image), self.types.words());
        Refusal::check(archive::bind_ordered(slices, self.strict(), types, &mut report, order))?;
        Ok(Bound { image, report: used(report) })
    }

    /// Binds the set as [`Call::bind`] does, and lists what to call to start and to stop it.
    pub fn start_stop(&self) -> Result<(Bound, StartStop), Refusal> {
        let (mut image, mut report) = (self.room(), vec![0; self.report]);
        let (starts, stops) = elf::lists_needed(&elf::modules(self.set));
        let (mut start, mut stop, mut counts) = (vec![0; starts], vec![0; stops], [0; 2]);
        let lists = Lists { start: &mut start, stop: &mut stop, counts: &mut counts };
        let (slices, types) = (self.slices(&mut image), self.types.words());
        Refusal::check(archive::start_stop(slices, self.strict(), types, &mut report, lists))?;
        start.truncate(counts[0] as usize);
        stop.truncate(counts[1] as usize);
        Ok((Bound { image, report: used(report) }, StartStop { start, stop }))
    }

    /// Where a name is, as the object `requester` finds it; None where no object has it.
    pub fn query(&self, requester: u32, name: &[u8]) -> Result<Option<Found>, Refusal> {
        let mut answer = [0; 4];
        Refusal::check(archive::query(self.slices(&mut self.room()), requester, name, &mut answer))?;
        let [found, object, symbol, address] = answer;
        Ok((found == 1).then_some(Found { object: object as u32, symbol: symbol as u32, address }))
    }

    /// The addresses of names, as the object `requester` finds them, in one load; 0 where no object has the name. A name with a zero byte in it
    /// is one that no object has.
    pub fn query_all(&self, requester: u32, names: &[impl AsRef<[u8]>]) -> Result<Vec<u64>, Refusal> {
        let asked = || names.iter().map(AsRef::as_ref).enumerate().filter(|(_, name)| !name.contains(&0));
        let list: Vec<u8> = asked().flat_map(|(_, name)| name.iter().copied().chain([0])).collect();
        let mut found = vec![0; asked().count()];
        Refusal::check(archive::query_all(self.slices(&mut self.room()), requester, &list, &mut found))?;
        let mut addresses = vec![0; names.len()];
        for ((k, _), address) in asked().zip(found) {
            addresses[k] = address;
        }
        Ok(addresses)
    }
}

/// The words before the first 0.
fn used(mut report: Vec<u32>) -> Vec<u32> {
    let end = report.iter().position(|word| *word == 0).unwrap_or(report.len());
    report.truncate(end);
    report
}

#[cfg(test)]
mod tests {
    use super::*;
    use crate::Mark;

    fn set(program: &[u8]) -> Set {
        Set::new(&Set::MINIMAL_HOST[..], program).unwrap()
    }

    #[test]
    fn bound() {
        // the minimal host is a program too
        let set = set(&Set::MINIMAL_HOST);
        let call = Call::new(&set, 0x1000_0000);
        let bound = call.bind().unwrap();
        assert_eq!((bound.image.len(), call.arena), (0x2000, 0x2000));
        assert_eq!(bound.image, [Set::MINIMAL_HOST, Set::MINIMAL_HOST].concat());
        assert_eq!(bound.report, [0x5000_0001]);
        assert_eq!(bound.words().collect::<Vec<Word>>(), [Word::Object(1)]);
        assert_eq!(bound.order().collect::<Vec<usize>>(), [1]);
        assert_eq!(call.query(1, b"x"), Ok(None));
        assert_eq!(call.query_all(1, &["x", "", "y\0"]), Ok(vec![0, 0, 0]));
        assert_eq!(call.query_all(1, &[] as &[&str]), Ok(vec![]));
        assert_eq!(call.query_all(2, &["x"]), Err(Refusal { number: 13, object: 0 }));
    }

    #[test]
    fn refused() {
        let set = set(b"no module");
        let mut call = Call::new(&set, 0x1000_0000);
        assert_eq!(call.bind(), Err(Refusal { number: 4, object: 1 }));
        assert_eq!(call.query(1, b"x"), Err(Refusal { number: 4, object: 1 }));
        call.address = 1;
        assert_eq!(call.bind(), Err(Refusal { number: 2, object: 0 }));
        call.address = 0;
        call.arena = usize::MAX;
        assert_eq!(call.bind(), Err(Refusal { number: 2, object: 0 }));
        call.arena = 0;
        assert_eq!(call.bind(), Err(Refusal { number: 8, object: 0 }));
    }

    #[test]
    fn types() {
        let set = set(&Set::MINIMAL_HOST);
        let mut call = Call::new(&set, 0);
        call.types.set(37, Mark::Pass);
        assert!(call.bind().is_ok());
        call.types.set(37, Mark::Apply);
        assert_eq!(call.bind(), Err(Refusal { number: 24, object: 0 }));
    }

    #[test]
    fn own_order() {
        let mut set = set(&Set::MINIMAL_HOST);
        set.add(b"a", &Set::MINIMAL_HOST[..]).unwrap();
        set.add(b"b", &Set::MINIMAL_HOST[..]).unwrap();
        let call = Call::new(&set, 0);
        assert_eq!(call.bind().unwrap().report, [0x5000_0002, 0x5000_0003, 0x5000_0001]);
        assert_eq!(call.bind_ordered(&[3, 2, 1]).unwrap().report, [0x5000_0003, 0x5000_0002, 0x5000_0001]);
        for order in [&[][..], &[1], &[2, 1, 3], &[2, 2, 1], &[2, 3, 1, 0]] {
            assert_eq!(call.bind_ordered(order), Err(Refusal { number: 35, object: 0 }), "{order:?}");
        }
    }

    #[test]
    fn nothing_to_start() {
        let set = set(&Set::MINIMAL_HOST);
        let call = Call::new(&set, 0);
        let (bound, lists) = call.start_stop().unwrap();
        assert_eq!((Ok(bound), lists), (call.bind(), StartStop { start: vec![], stop: vec![] }));
    }

    #[test]
    fn short_report() {
        let set = set(&Set::MINIMAL_HOST);
        let mut call = Call::new(&set, 0);
        call.report = 0;
        assert_eq!(call.bind(), Err(Refusal { number: 20, object: 0 }));
    }
}
