//! The command line.
use crate::{marks, show, Failure};
use std::ffi::{OsStr, OsString};
use std::os::unix::ffi::{OsStrExt, OsStringExt};
use std::path::PathBuf;

#[derive(Clone, Copy, Debug, PartialEq, Eq)]
pub enum Command {
    Bind,
    Query,
    Order,
    Set,
}
use Command::{Bind, Order, Query, Set};

struct About {
    command: Command,
    name: &'static str,
    what: &'static str,
    usage: &'static str,
    text: &'static str,
}

const COMMANDS: [About; 4] = [
    About {
        command: Bind,
        name: "bind",
        what: "bind a program and its libraries, and write the image",
        usage: "lugwormpin bind PROGRAM [LIBRARY..] -o IMAGE --address ADDRESS [OPTION..]",
        text: "Binds PROGRAM with the libraries, in the order given, and writes the image that is to be mapped at ADDRESS. Prints the objects \
               in binding order, then the entries that nobody defines and those that were passed over. Where the set is refused, prints the \
               refusal's number, what it means and what to do about it; IMAGE and the report are then left as they were.",
    },
    About {
        command: Query,
        name: "query",
        what: "tell where names are in the image",
        usage: "lugwormpin query PROGRAM [LIBRARY..] --address ADDRESS [OPTION..] -- NAME..\n       \
                lugwormpin query --program PROGRAM [--library LIBRARY].. --address ADDRESS [OPTION..] NAME..",
        text: "Prints for each NAME its address in the image at ADDRESS, the object that defines it, and the index of its symbol there. A name \
               that no object has is answered too: with a dash. Files, host and ADDRESS are those of `bind`.",
    },
    About {
        command: Order,
        name: "order",
        what: "tell the binding order, and the needs behind it",
        usage: "lugwormpin order PROGRAM [LIBRARY..] [OPTION..]",
        text: "Prints the objects in binding order, each with the libraries that it needs; needs that are not in the set are marked. The \
               address plays no part.",
    },
    About {
        command: Set,
        name: "set",
        what: "write the set as one file, for a report of a fault",
        usage: "lugwormpin set PROGRAM [LIBRARY..] -o FILE [OPTION..]",
        text: "Writes host, program and libraries as one input of document 01's program. That program takes at most 65,536 bytes; `--set FILE` \
               of this command takes any. Address and arena are no part of \
               such a file.",
    },
];

/// An option.
struct Spec {
    long: &'static str,
    short: Option<char>,
    value: Option<&'static str>,
    of: &'static [Command],
    help: &'static str,
}

const ALL: &[Command] = &[Bind, Query, Order, Set];

#[rustfmt::skip]
const OPTIONS: &[Spec] = &[
    Spec { long: "output", short: Some('o'), value: Some("FILE"), of: &[Bind, Set], help: "where to write (the file appears whole or not at all)" },
    Spec { long: "address", short: None, value: Some("ADDRESS"), of: ALL, help: "where the image will be mapped: 0x10000000, or a decimal number; a multiple of 4,096" },
    Spec { long: "host", short: None, value: Some("FILE"), of: ALL, help: "the host, a module: its segments are laid out as an image" },
    Spec { long: "host-image", short: None, value: Some("FILE"), of: ALL, help: "the host, as an image already: whole pages. Without either: a host of one page that exports nothing" },
    Spec { long: "arena", short: None, value: Some("BYTES"), of: ALL, help: "the length of the image; else as small as the set needs" },
    Spec { long: "program", short: None, value: Some("FILE"), of: ALL, help: "the program, in place of the first argument" },
    Spec { long: "library", short: None, value: Some("[NAME=]FILE"), of: ALL, help: "a library, in place of an argument; can be given many times" },
    Spec { long: "set", short: None, value: Some("FILE"), of: ALL, help: "host, program and libraries from a file that `lugwormpin set` wrote" },
    Spec { long: "strict", short: None, value: None, of: &[Bind], help: "refuse a set with an entry that nobody defines (refusal 19)" },
    Spec { long: "types", short: None, value: Some("FILE"), of: &[Bind], help: "what is done with entries of each relocation type, in lines such as `1 refuse` and `37 pass`; types without a line are as `lugwormpin types` prints them" },
    Spec { long: "order", short: None, value: Some("LIST"), of: &[Bind], help: "bind in this order and no other: object numbers or library names with commas between, each library once, then the program (1)" },
    Spec { long: "start-stop", short: None, value: None, of: &[Bind], help: "also tell what to call to start the modules, and to stop them, in order" },
    Spec { long: "report", short: None, value: Some("FILE"), of: &[Bind], help: "write the report there too, in document 01's words" },
    Spec { long: "requester", short: None, value: Some("OBJECT"), of: &[Query], help: "the object that asks, by number or library name (default 1, the program); its own protected names come first" },
    Spec { long: "names", short: None, value: Some("FILE"), of: &[Query], help: "more names, one a line; - is standard input" },
    Spec { long: "dot", short: None, value: None, of: &[Order], help: "print a graph for Graphviz" },
    Spec { long: "json", short: None, value: None, of: ALL, help: "print JSON (tool/README.md has its fields)" },
    Spec { long: "help", short: Some('h'), value: None, of: ALL, help: "print this" },
    Spec { long: "version", short: Some('V'), value: None, of: ALL, help: "print the version" },
];

/// A library as it was given.
#[derive(Clone, Debug)]
pub struct Library {
    pub name: Vec<u8>,
    pub file: PathBuf,
}

/// Where the set comes from.
#[derive(Clone, Debug)]
pub enum Source {
    Files { host: Host, program: PathBuf, libraries: Vec<Library> },
    Set(PathBuf),
}

#[derive(Clone, Debug)]
pub enum Host {
    Minimal,
    Module(PathBuf),
    Image(PathBuf),
}

#[derive(Clone, Debug)]
pub struct Options {
    pub command: Command,
    pub source: Source,
    pub address: Option<u64>,
    pub arena: Option<u64>,
    pub output: Option<PathBuf>,
    pub report: Option<PathBuf>,
    pub types: Option<PathBuf>,
    pub order: Option<OsString>,
    pub requester: Option<OsString>,
    pub names: Vec<Vec<u8>>,
    pub names_file: Option<PathBuf>,
    pub strict: bool,
    pub start_stop: bool,
    pub dot: bool,
    pub json: bool,
}

/// What the command line asks for.
pub enum Asked {
    Run(Box<Options>),
    Print(String),
}

impl Command {
    fn about(self) -> &'static About {
        COMMANDS.iter().find(|about| about.command == self).unwrap_or(&COMMANDS[0])
    }

    pub fn name(self) -> &'static str {
        self.about().name
    }

    pub fn usage(self, message: impl Into<String>) -> Failure {
        let name = self.name();
        Failure::usage(format!("{name}: {} (`lugwormpin {name} --help` tells more)", message.into()))
    }
}

fn version() -> String {
    format!("lugwormpin {}\n", env!("CARGO_PKG_VERSION"))
}

fn general_help() -> String {
    let mut text =
        String::from("Binds x86-64 ELF modules into one image.\n\nusage: lugwormpin COMMAND ARGUMENT..\n\ncommands\n");
    for about in &COMMANDS {
        text.push_str(&show::paragraph(&format!("  {:14}", about.name), about.what));
    }
    text.push_str(&show::paragraph("  types         ", "print the table of relocation types, for `bind --types`"));
    text.push_str(&show::paragraph("  help COMMAND  ", "print what a command takes"));
    text.push_str(
        "\nA library is FILE, or NAME=FILE where the name by which other modules need it is not its file's name.\n",
    );
    text.push_str(
        "Exit status: 0 bound or answered, 1 refused, 2 wrong usage, or a file that cannot be read or written.\n",
    );
    text
}

fn help(command: Command) -> String {
    let about = command.about();
    let mut text = format!("usage: {}\n\n", about.usage);
    text.push_str(&show::paragraph("", about.text));
    text.push_str(&show::paragraph(
        "",
        "A LIBRARY is FILE, or NAME=FILE where the name by which other modules need it is not its file's name; a path that has a `=` is \
         given as NAME=FILE.",
    ));
    text.push_str("\noptions\n");
    for spec in OPTIONS.iter().filter(|spec| spec.of.contains(&command)) {
        let short = spec.short.map_or(String::new(), |c| format!("-{c}, "));
        let value = spec.value.map_or(String::new(), |value| format!(" {value}"));
        let label = format!("  {short}--{}{value}", spec.long);
        text.push_str(&show::paragraph(&format!("{label:25} "), spec.help));
    }
    text.push_str(
        "\nExit status: 0 bound or answered, 1 refused, 2 wrong usage, or a file that cannot be read or written.\n",
    );
    text
}

/// Reads the arguments after the command's own name.
pub fn parse(arguments: Vec<OsString>) -> Result<Asked, Failure> {
    let mut arguments = arguments.into_iter();
    let Some(first) = arguments.next() else {
        return Err(Failure::usage("no command: bind, query, order, set or types (`lugwormpin --help` tells more)"));
    };
    let command =
        |word: &OsStr| COMMANDS.iter().find(|about| OsStr::new(about.name) == word).map(|about| about.command);
    match first.to_str() {
        Some("--help" | "-h") => return Ok(Asked::Print(general_help())),
        Some("--version" | "-V") => return Ok(Asked::Print(version())),
        Some("types") => {
            return match arguments.next() {
                None => Ok(Asked::Print(marks::supplied_text())),
                Some(word) if word == "--help" || word == "-h" => Ok(Asked::Print(general_help())),
                Some(word) => Err(Failure::usage(format!("types: {}: this command takes nothing", show::path(&word)))),
            }
        }
        Some("help") => {
            return match arguments.next() {
                None => Ok(Asked::Print(general_help())),
                Some(word) => match command(&word) {
                    Some(command) => Ok(Asked::Print(help(command))),
                    None => Err(no_command(&word)),
                },
            }
        }
        _ => {}
    }
    let command = command(&first).ok_or_else(|| no_command(&first))?;
    Given::collect(command, arguments)?.options()
}

fn no_command(word: &OsStr) -> Failure {
    let word = show::path(word);
    Failure::usage(format!(
        "{word}: no such command: bind, query, order, set or types (`lugwormpin --help` tells more)"
    ))
}

/// The arguments, sorted.
struct Given {
    command: Command,
    options: Vec<(&'static str, OsString)>,
    /// Arguments that are no options, before and after `--`.
    before: Vec<OsString>,
    after: Vec<OsString>,
}

impl Given {
    fn collect(command: Command, mut arguments: impl Iterator<Item = OsString>) -> Result<Given, Failure> {
        let mut given = Given { command, options: Vec::new(), before: Vec::new(), after: Vec::new() };
        while let Some(argument) = arguments.next() {
            let bytes = argument.as_bytes();
            if bytes == b"--" {
                given.after = arguments.collect();
                break;
            }
            if bytes.len() < 2 || bytes[0] != b'-' {
                given.before.push(argument);
                continue;
            }
            // --name, --name=value, -n, -nvalue
            let (name, attached) = if bytes[1] == b'-' {
                match bytes.iter().position(|byte| *byte == b'=') {
                    Some(at) => (&bytes[2..at], Some(OsString::from_vec(bytes[at + 1..].to_vec()))),
                    None => (&bytes[2..], None),
                }
            } else {
                (&bytes[1..2], (bytes.len() > 2).then(|| OsString::from_vec(bytes[2..].to_vec())))
            };
            let long = bytes[1] == b'-';
            let written =
                if long { format!("--{}", show::printable(name)) } else { format!("-{}", show::printable(name)) };
            let is = |spec: &&Spec| match long {
                true => spec.long.as_bytes() == name,
                false => spec.short.is_some_and(|short| [short as u8] == name),
            };
            let Some(spec) = OPTIONS.iter().find(is).filter(|spec| spec.of.contains(&command)) else {
                return Err(command.usage(format!("no option {written}")));
            };
            let value = match (spec.value, attached) {
                (None, None) => OsString::new(),
                (None, Some(_)) => return Err(command.usage(format!("{written} takes no value"))),
                (Some(_), Some(value)) => value,
                (Some(value), None) => {
                    arguments.next().ok_or_else(|| command.usage(format!("{written}: its {value} is missing")))?
                }
            };
            if spec.value.is_some() && value.is_empty() {
                return Err(command.usage(format!("{written}: its value is empty")));
            }
            if spec.long != "library"
                && spec.value.is_some()
                && given.options.iter().any(|(name, _)| *name == spec.long)
            {
                return Err(command.usage(format!("--{} is given twice", spec.long)));
            }
            given.options.push((spec.long, value));
        }
        Ok(given)
    }

    fn has(&self, name: &str) -> bool {
        self.options.iter().any(|(long, _)| *long == name)
    }

    fn value(&self, name: &str) -> Option<OsString> {
        self.options.iter().find(|(long, _)| *long == name).map(|(_, value)| value.clone())
    }

    fn file(&self, name: &str) -> Option<PathBuf> {
        self.value(name).map(PathBuf::from)
    }

    fn number(&self, name: &str, example: &str) -> Result<Option<u64>, Failure> {
        let Some(value) = self.value(name) else { return Ok(None) };
        match value.to_str().and_then(number) {
            Some(number) => Ok(Some(number)),
            None => {
                let value = show::path(&value);
                Err(self.command.usage(format!("--{name} {value}: no number below 2^64 (write {example})")))
            }
        }
    }

    fn options(mut self) -> Result<Asked, Failure> {
        let command = self.command;
        if self.has("help") {
            return Ok(Asked::Print(help(command)));
        }
        if self.has("version") {
            return Ok(Asked::Print(version()));
        }
        let (before, after) = (std::mem::take(&mut self.before), std::mem::take(&mut self.after));
        // with --program or --set, what is no option is a name that is asked for; else names follow `--`
        let by_options = self.has("program") || self.has("set");
        let (mut files, names) = match (command, by_options) {
            (Query, true) => (Vec::new(), [before, after].concat()),
            (Query, false) => (before, after),
            _ => ([before, after].concat(), Vec::new()),
        };
        let source = self.source(&mut files)?;
        let names: Vec<Vec<u8>> = names.into_iter().map(OsString::into_vec).collect();
        if command == Query && names.is_empty() && !self.has("names") {
            return Err(command.usage("no names: give them after `--`"));
        }
        if self.has("order") && self.has("start-stop") {
            return Err(command.usage("--order and --start-stop: only one of them can be given"));
        }
        let address = self.number("address", "0x10000000, or a decimal number")?;
        if address.is_none() && matches!(command, Bind | Query) {
            return Err(command.usage("--address is missing: where the image will be mapped, such as 0x10000000"));
        }
        let output = self.file("output");
        if output.is_none() && matches!(command, Bind | Set) {
            return Err(command.usage("-o FILE is missing: where to write"));
        }
        Ok(Asked::Run(Box::new(Options {
            command,
            source,
            address,
            arena: self.number("arena", "a count of bytes, such as 65536 or 0x10000")?,
            output,
            report: self.file("report"),
            types: self.file("types"),
            order: self.value("order"),
            requester: self.value("requester"),
            names,
            names_file: self.file("names"),
            strict: self.has("strict"),
            start_stop: self.has("start-stop"),
            dot: self.has("dot"),
            json: self.has("json"),
        })))
    }

    fn source(&self, files: &mut Vec<OsString>) -> Result<Source, Failure> {
        let command = self.command;
        if let Some(set) = self.file("set") {
            for name in ["program", "library", "host", "host-image"] {
                if self.has(name) {
                    return Err(command.usage(format!("--{name} and --set: the set has its own")));
                }
            }
            return match files.first() {
                Some(file) => {
                    Err(command.usage(format!("{}: a file beside --set, which has all of them", show::path(file))))
                }
                None => Ok(Source::Set(set)),
            };
        }
        let program = match self.file("program") {
            Some(program) => program,
            None if files.is_empty() => return Err(command.usage("no PROGRAM")),
            None => PathBuf::from(files.remove(0)),
        };
        let given = self.options.iter().filter(|(long, _)| *long == "library").map(|(_, value)| value);
        let libraries = given.chain(files.iter()).map(|argument| library(argument)).collect();
        let host = match (self.file("host"), self.file("host-image")) {
            (None, None) => Host::Minimal,
            (Some(file), None) => Host::Module(file),
            (None, Some(file)) => Host::Image(file),
            _ => return Err(command.usage("--host and --host-image: only one of them can be given")),
        };
        Ok(Source::Files { host, program, libraries })
    }
}

/// `FILE`, whose name is its own, or `NAME=FILE`.
fn library(argument: &OsStr) -> Library {
    let bytes = argument.as_bytes();
    match bytes.iter().position(|byte| *byte == b'=') {
        Some(at) => Library { name: bytes[..at].to_vec(), file: PathBuf::from(OsStr::from_bytes(&bytes[at + 1..])) },
        None => {
            let file = PathBuf::from(argument);
            Library { name: file.file_name().unwrap_or(argument).as_bytes().to_vec(), file }
        }
    }
}

/// A decimal number, or a hexadecimal one after `0x`.
fn number(text: &str) -> Option<u64> {
    let (digits, radix) = match text.strip_prefix("0x").or(text.strip_prefix("0X")) {
        Some(digits) => (digits, 16),
        None => (text, 10),
    };
    // from_str_radix takes a sign
    if !digits.chars().all(|c| c.is_digit(radix)) {
        return None;
    }
    u64::from_str_radix(digits, radix).ok()
}

#[cfg(test)]
mod tests {
    use super::*;

    #[test]
    fn numbers() {
        assert_eq!(number("0x10000000"), Some(0x1000_0000));
        assert_eq!(number("65536"), Some(65536));
        assert_eq!(number("0xffffffffffffffff"), Some(u64::MAX));
        for text in ["", "0x", "+1", "-1", "0x-1", "12g", "1_000", "0x10000000000000000", " 1"] {
            assert_eq!(number(text), None, "{text}");
        }
    }

    #[test]
    fn libraries() {
        let is = |argument: &str, name: &str, file: &str| {
            let library = library(OsStr::new(argument));
            assert_eq!((library.name, library.file), (name.as_bytes().to_vec(), PathBuf::from(file)));
        };
        is("liba.so", "liba.so", "liba.so");
        is("build/liba.so", "liba.so", "build/liba.so");
        is("liba.so.1=build/liba.so", "liba.so.1", "build/liba.so");
        is("a=b=c", "a", "b=c");
        is("=x", "", "x");
    }

    #[test]
    fn help_of_each_command() {
        for about in &COMMANDS {
            let text = help(about.command);
            assert!(text.contains("--json") && text.lines().all(|line| line.chars().count() <= 110), "{text}");
        }
    }
}
