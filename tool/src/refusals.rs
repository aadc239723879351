//! What refusals mean and what to do about them: the tables of docs/REFUSALS.md, which is the one place where that is written.

const PAGE: &str = include_str!("../../docs/REFUSALS.md");

/// A row of the page.
#[derive(Clone, Debug, PartialEq)]
pub struct Row {
    pub number: u32,
    pub meaning: String,
    pub advice: String,
}

/// The rows of the page, in its order.
pub fn rows() -> Vec<Row> {
    PAGE.lines().filter_map(row).collect()
}

fn row(line: &str) -> Option<Row> {
    let mut cells = line.strip_prefix('|')?.strip_suffix('|')?.split('|').map(str::trim);
    let (number, meaning, advice) = (cells.next()?, cells.next()?, cells.next()?);
    Some(Row { number: number.parse().ok()?, meaning: meaning.into(), advice: advice.into() })
}

/// The numbers whose object is 0 and says nothing: `For 1, 2, 13 and 20 it is 0 and says nothing.`
pub fn without_object() -> Vec<u32> {
    let end = PAGE.find("it is 0 and says nothing").unwrap_or(0);
    let start = PAGE[..end].rfind("For ").unwrap_or(end);
    PAGE[start..end].split(|c: char| !c.is_ascii_digit()).filter_map(|word| word.parse().ok()).collect()
}

/// The row of a number, for an object: the page's M is its number, and `As 9.` is the text of 9.
pub fn told(number: u32, object: u32) -> Option<Row> {
    let rows = rows();
    let find = |number| rows.iter().find(|row| row.number == number);
    let mut row = find(number)?.clone();
    if let Some(other) = same_as(&row.advice).and_then(find) {
        row.advice = other.advice.clone();
    }
    row.meaning = with_object(&row.meaning, object);
    row.advice = with_object(&row.advice, object);
    Some(row)
}

/// The number that an advice leads to: 9, of `As 9.`
fn same_as(advice: &str) -> Option<u32> {
    advice.strip_prefix("As ")?.strip_suffix('.')?.parse().ok()
}

/// The text with the object's number for each M that stands alone.
fn with_object(text: &str, object: u32) -> String {
    let mut out = String::new();
    let mut before = ' ';
    let mut rest = text.chars().peekable();
    while let Some(c) = rest.next() {
        let alone = !before.is_alphanumeric() && !rest.peek().is_some_and(|next| next.is_alphanumeric());
        match c {
            'M' if alone => out.push_str(&object.to_string()),
            _ => out.push(c),
        }
        before = c;
    }
    out
}

#[cfg(test)]
mod tests {
    use super::*;

    /// The list in include/lugwormpin.h: each number that a call can answer, and whether its object is always 0.
    fn numbers() -> Vec<(u32, bool)> {
        let header = include_str!("../../include/lugwormpin.h");
        let list = &header[header.find(" *  no.  object").expect("the list of refusals")..];
        let list = &list[..list.find("*/").expect("its end")];
        let row = |line: &str| {
            let mut words = line.strip_prefix(" * ")?.split_whitespace();
            Some((words.next()?.parse().ok()?, words.next()? == "0"))
        };
        list.lines().filter_map(row).collect()
    }

    #[test]
    fn every_number_is_told() {
        let numbers = numbers();
        assert!(numbers.len() >= 22, "{numbers:?}");
        for (number, _) in numbers {
            let row = told(number, 7).unwrap_or_else(|| panic!("docs/REFUSALS.md has no row for {number}"));
            assert!(row.meaning.len() > 10 && row.advice.len() > 10, "{row:?}");
            assert!(same_as(&row.advice).is_none(), "{row:?}");
        }
    }

    #[test]
    fn every_row_is_a_number_of_its_own() {
        let numbers: Vec<u32> = rows().iter().map(|row| row.number).collect();
        let mut once = numbers.clone();
        once.sort();
        once.dedup();
        assert_eq!(once.len(), numbers.len(), "{numbers:?}");
    }

    /// The page's sentence on the numbers whose object says nothing has those for which the header's list has the object 0.
    #[test]
    fn numbers_without_object() {
        let mut without = without_object();
        let mut listed: Vec<u32> = numbers().into_iter().filter_map(|(number, zero)| zero.then_some(number)).collect();
        without.sort();
        listed.sort();
        assert_eq!(without, listed);
    }

    #[test]
    fn the_object_stands_for_m() {
        assert_eq!(with_object("Library M has, MiB, M's, of M.", 12), "Library 12 has, MiB, 12's, of 12.");
        assert!(told(3, 4).unwrap().meaning.contains("Library 4 "));
        assert_eq!(told(10, 1).unwrap().advice, told(9, 1).unwrap().advice);
    }
}
