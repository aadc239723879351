//! What is done with relocation entries, type by type.
use crate::archive;

/// Types that have a word; those above are passed over.
pub const TYPES: usize = 64;

/// What is done with entries of a type.
#[derive(Clone, Copy, Debug, PartialEq, Eq)]
pub enum Mark {
    /// They are applied. Types 1, 2, 5 to 8, 10, 11 and 24 can be.
    Apply,
    /// They are passed over, and reported (type 0 excepted).
    Pass,
    /// They are refused, by number 25 (16 for type 37).
    Refuse,
}

impl Mark {
    /// Every mark, with its kind in the top four bits of a word.
    pub const ALL: [(Mark, u32); 3] = [(Mark::Apply, 9), (Mark::Pass, 10), (Mark::Refuse, 11)];

    fn word(self, kind: usize) -> u32 {
        let top = Mark::ALL.iter().find(|(mark, _)| *mark == self).map_or(0, |(_, top)| *top);
        top << 28 | kind as u32
    }
}

/// The 64 words of the types, word t for entries of type t.
#[derive(Clone, Copy, Debug, PartialEq, Eq)]
pub struct Types([u32; TYPES]);

impl Types {
    /// The supplied words: what can be applied is, type 37 is refused, all others are passed over.
    pub fn supplied() -> Types {
        let mut words = [0; TYPES];
        archive::types(&mut words);
        Types(words)
    }

    /// The same mark for every type.
    pub fn all(mark: Mark) -> Types {
        Types(std::array::from_fn(|kind| mark.word(kind)))
    }

    /// Marks a type; of those above 63 nothing is changed.
    pub fn set(&mut self, kind: usize, mark: Mark) {
        if let Some(word) = self.0.get_mut(kind) {
            *word = mark.word(kind);
        }
    }

    /// What is done with a type.
    pub fn mark(&self, kind: usize) -> Mark {
        let word = self.0.get(kind).map_or(10, |word| word >> 28);
        Mark::ALL.iter().find(|(_, top)| *top == word).map_or(Mark::Pass, |(mark, _)| *mark)
    }

    /// The words, as a call takes them.
    pub fn words(&self) -> &[u32; TYPES] {
        &self.0
    }
}

impl Default for Types {
    fn default() -> Types {
        Types::supplied()
    }
}

#[cfg(test)]
mod tests {
    use super::*;

    #[test]
    fn supplied() {
        let mut types = Types::supplied();
        let marked = |types: &Types, mark| (0..TYPES).filter(|kind| types.mark(*kind) == mark).collect::<Vec<usize>>();
        assert_eq!(marked(&types, Mark::Apply), [1, 2, 5, 6, 7, 8, 10, 11, 24]);
        assert_eq!(marked(&types, Mark::Refuse), [37]);
        assert!(types.words().iter().enumerate().all(|(kind, word)| word & 0x0FFF_FFFF == kind as u32));
        types.set(37, Mark::Pass);
        types.set(64, Mark::Refuse);
        assert_eq!((types.words()[37], types.mark(37), types.mark(64)), (0xA000_0025, Mark::Pass, Mark::Pass));
        assert_eq!(Types::all(Mark::Refuse).words()[3], 0xB000_0003);
    }
}
