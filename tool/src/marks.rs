//! The table of types as text that a person edits: a line for a type, `37 pass` or `R_X86_64_IRELATIVE pass`; the rest of a line from `#` on is
//! a comment. Types without a line are as supplied.
use crate::{relocations, show, Failure};
use lugwormpin::{Mark, Types, TYPES};
use std::path::Path;

/// A table that was read, with the line of each type that has one.
#[derive(Clone)]
pub struct Table {
    pub types: Types,
    pub lines: [Option<usize>; TYPES],
    pub file: Option<String>,
}

impl Table {
    pub fn supplied() -> Table {
        Table { types: Types::supplied(), lines: [None; TYPES], file: None }
    }

    pub fn read(path: &Path) -> Result<Table, Failure> {
        let fail = |reason: String| Failure::files(format!("{}{reason}", show::path(path)), path);
        let text = std::fs::read(path).map_err(|error| {
            Failure::files(format!("cannot read {}: {}", show::path(path), show::reason(&error)), path)
        })?;
        let text = String::from_utf8(text).map_err(|_| fail(": no text".into()))?;
        let mut table = Table { file: Some(show::path(path)), ..Table::supplied() };
        for (k, line) in text.lines().enumerate() {
            table.take(k + 1, line).map_err(|reason| fail(format!(", line {}: {reason}", k + 1)))?;
        }
        Ok(table)
    }

    fn take(&mut self, number: usize, line: &str) -> Result<(), String> {
        let content = line.split('#').next().unwrap_or("");
        let mut words = content.split_whitespace();
        let Some(kind) = words.next() else { return Ok(()) };
        let shown = show::printable(kind.as_bytes());
        let named = || (0..TYPES).find(|k| relocations::name(*k as u32).as_deref() == Some(kind));
        let kind = match kind.parse::<usize>().ok().or_else(named) {
            None => {
                return Err(format!(
                    "`{shown}` is no type: write its number or its name, such as 37 or R_X86_64_IRELATIVE"
                ))
            }
            Some(kind) if kind >= TYPES => return Err(format!("type {kind}: types above 63 are always passed over")),
            Some(kind) => kind,
        };
        let mark = match (words.next(), words.next()) {
            (Some(word), None) => MARKS.iter().find(|(_, name)| *name == word).map(|(mark, _)| *mark),
            _ => None,
        };
        let mark = mark.ok_or_else(|| format!("after type {kind}, one word is wanted: apply, pass or refuse"))?;
        if let Some(before) = self.lines[kind].replace(number) {
            return Err(format!("type {kind} has a line already, line {before}"));
        }
        self.types.set(kind, mark);
        Ok(())
    }

    /// Types that are marked otherwise than supplied.
    pub fn changed(&self) -> Vec<(u32, &'static str)> {
        let supplied = Types::supplied();
        let kinds = (0..TYPES).filter(|k| self.types.mark(*k) != supplied.mark(*k));
        kinds.map(|k| (k as u32, name(self.types.mark(k)))).collect()
    }
}

const MARKS: [(Mark, &str); 3] = [(Mark::Apply, "apply"), (Mark::Pass, "pass"), (Mark::Refuse, "refuse")];

fn name(mark: Mark) -> &'static str {
    MARKS.iter().find(|(of, _)| *of == mark).map_or("", |(_, name)| name)
}

/// The supplied table, as a file to begin with.
pub fn supplied_text() -> String {
    let types = Types::supplied();
    let mut text = String::from(
        "# What is done with relocation entries, type by type: apply, pass (over, and tell) or refuse.\n\
         # Types 1, 2, 5 to 8, 10, 11 and 24 can be applied. A type without a line is as here; types above 63 are passed over.\n",
    );
    for kind in 0..TYPES {
        let comment = relocations::name(kind as u32).map_or(String::new(), |name| format!(" # {name}"));
        let line = format!("{kind:<2} {:6}{comment}", name(types.mark(kind)));
        text.push_str(line.trim_end());
        text.push('\n');
    }
    text
}

#[cfg(test)]
mod tests {
    use super::*;

    fn taken(text: &str) -> Result<Table, String> {
        let mut table = Table::supplied();
        text.lines().enumerate().try_for_each(|(k, line)| table.take(k + 1, line))?;
        Ok(table)
    }

    #[test]
    fn the_supplied_text_is_the_supplied_table() {
        let table = taken(&supplied_text()).unwrap();
        assert_eq!(table.types, Types::supplied());
        assert!(table.lines.iter().all(Option::is_some) && table.changed().is_empty());
    }

    #[test]
    fn edited() {
        let table = taken("\n1 refuse # not ours\n  R_X86_64_IRELATIVE\tpass\n# 5 pass\n").unwrap();
        assert_eq!(table.changed(), [(1, "refuse"), (37, "pass")]);
        assert_eq!((table.lines[1], table.lines[37], table.lines[5]), (Some(2), Some(3), None));
        for text in
            ["1", "1 skip", "1 pass pass", "64 pass", "x pass", "-1 pass", "1 pass\n1 pass", "R_X86_64_NOPE pass"]
        {
            assert!(taken(text).is_err(), "{text}");
        }
    }
}
