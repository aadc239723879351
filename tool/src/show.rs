//! Numbers, names and tables, as people read them.
use std::ffi::OsStr;
use std::io;
use std::os::unix::ffi::OsStrExt;

const WIDTH: usize = 100;

/// Bytes as text. Those that are no UTF-8, control characters (a file can hold escape sequences for a terminal) and the backslash are written
/// as `\x1b`.
pub fn printable(bytes: &[u8]) -> String {
    let mut text = String::with_capacity(bytes.len());
    for chunk in bytes.utf8_chunks() {
        for c in chunk.valid().chars() {
            if c.is_control() || c == '\\' || c == '\u{2028}' || c == '\u{2029}' {
                let mut utf8 = [0; 4];
                c.encode_utf8(&mut utf8).bytes().for_each(|byte| escape(&mut text, byte));
            } else {
                text.push(c);
            }
        }
        chunk.invalid().iter().for_each(|byte| escape(&mut text, *byte));
    }
    text
}

fn escape(text: &mut String, byte: u8) {
    text.push_str(&format!("\\x{byte:02x}"));
}

/// A path or an argument as text.
pub fn path(path: impl AsRef<OsStr>) -> String {
    printable(path.as_ref().as_bytes())
}

/// An address.
pub fn hex(n: u64) -> String {
    format!("{n:#x}")
}

/// A count or a size.
pub fn decimal(n: u64) -> String {
    match n {
        0..1000 => n.to_string(),
        _ => format!("{},{:03}", decimal(n / 1000), n % 1000),
    }
}

/// `1 entry`, `2 entries`.
pub fn counted(n: usize, one: &str, many: &str) -> String {
    format!("{} {}", decimal(n as u64), if n == 1 { one } else { many })
}

/// What the system says of an error, without its number.
pub fn reason(error: &io::Error) -> String {
    let text = error.to_string();
    match text.rfind(" (os error ") {
        Some(end) => text[..end].to_string(),
        None => text,
    }
}

/// Rows in columns, two spaces before each.
pub fn table(head: &[&str], rows: &[Vec<String>]) -> String {
    let mut widths: Vec<usize> = head.iter().map(|cell| cell.chars().count()).collect();
    for row in rows {
        for (width, cell) in widths.iter_mut().zip(row) {
            *width = (*width).max(cell.chars().count());
        }
    }
    let mut text = String::new();
    let mut line = |cells: &mut dyn Iterator<Item = &str>| {
        let mut line = String::new();
        for (cell, width) in cells.zip(&widths) {
            line.push_str(&format!("  {cell:width$}"));
        }
        text.push_str(line.trim_end());
        text.push('\n');
    };
    line(&mut head.iter().copied());
    for row in rows {
        line(&mut row.iter().map(String::as_str));
    }
    text
}

/// A paragraph after a label, in lines of at most 100 characters; all but the first begin under the text's start.
pub fn paragraph(label: &str, text: &str) -> String {
    let indent = label.chars().count();
    let mut out = String::from(label);
    let mut column = indent;
    for (k, word) in text.split_whitespace().enumerate() {
        let length = word.chars().count();
        if k > 0 && column + 1 + length > WIDTH {
            out.push('\n');
            out.extend(std::iter::repeat_n(' ', indent));
            column = indent;
        } else if k > 0 {
            out.push(' ');
            column += 1;
        }
        out.push_str(word);
        column += length;
    }
    out.push('\n');
    out
}

#[cfg(test)]
mod tests {
    use super::*;

    #[test]
    fn bytes_as_text() {
        assert_eq!(printable(b"rule_1"), "rule_1");
        assert_eq!(printable("r\u{e8}gle".as_bytes()), "r\u{e8}gle");
        assert_eq!(printable(b"a\x1b[2J\n\\\xff"), "a\\x1b[2J\\x0a\\x5c\\xff");
    }

    #[test]
    fn numbers() {
        assert_eq!([0, 999, 1000, 268_435_456].map(decimal), ["0", "999", "1,000", "268,435,456"]);
        assert_eq!(hex(0x1000_0000), "0x10000000");
        assert_eq!(counted(1, "entry", "entries"), "1 entry");
    }

    #[test]
    fn tables() {
        let text = table(&["a", "long"], &[vec!["1".into(), "x".into()], vec!["222".into(), String::new()]]);
        assert_eq!(text, "  a    long\n  1    x\n  222\n");
    }

    #[test]
    fn paragraphs() {
        let text = paragraph("label: ", &"word ".repeat(40));
        assert!(text
            .lines()
            .all(|line| line.len() <= WIDTH && (line.starts_with("label: ") || line.starts_with("       w"))));
        assert_eq!(text.split_whitespace().count(), 41);
    }
}
