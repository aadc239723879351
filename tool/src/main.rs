//! lugwormpin, the command: binds real files from a shell. The archive does the binding; what is read of files here is for showing.
#![forbid(unsafe_code)]

mod args;
mod commands;
mod files;
mod json;
mod marks;
mod refusals;
mod refused;
mod relocations;
mod show;
mod subject;

use json::{fields, Json};
use std::ffi::OsString;
use std::io::{self, Write};
use std::path::Path;
use std::process::ExitCode;

/// What ends the command with status 2.
pub struct Failure {
    message: String,
    file: Option<String>,
}

impl Failure {
    pub fn usage(message: impl Into<String>) -> Failure {
        Failure { message: message.into(), file: None }
    }

    /// A message that has the file's name.
    pub fn files(message: impl Into<String>, file: &Path) -> Failure {
        Failure { message: message.into(), file: Some(show::path(file)) }
    }
}

/// What the command has to say, as it was asked for: in words, or as JSON.
pub struct Said {
    output: String,
    refused: bool,
}

impl Said {
    pub fn new(json: bool, words: impl FnOnce() -> String, value: impl FnOnce() -> Json) -> Said {
        Said { output: if json { format!("{}\n", value()) } else { words() }, refused: false }
    }

    pub fn refused(self) -> Said {
        Said { refused: true, ..self }
    }
}

fn main() -> ExitCode {
    let arguments: Vec<OsString> = std::env::args_os().skip(1).collect();
    // for errors in the arguments themselves
    let mut json = arguments.iter().take_while(|argument| *argument != "--").any(|argument| argument == "--json");
    let said = args::parse(arguments).and_then(|asked| match asked {
        args::Asked::Print(text) => Ok((text, 0)),
        args::Asked::Run(options) => {
            json = options.json;
            commands::run(&options).map(|said| (said.output, u8::from(said.refused)))
        }
    });
    let (output, status) = said.unwrap_or_else(|Failure { message, file }| {
        let words = format!("lugwormpin: {message}\n");
        let value = || fields! { "result": "error", "message": message, "file": file };
        (Said::new(json, || words, value).output, 2)
    });
    // people read refusals and errors beside the output, programs read all of it there
    let written = match json || status == 0 {
        true => io::stdout().write_all(output.as_bytes()),
        false => io::stderr().write_all(output.as_bytes()),
    };
    let written = written.and_then(|()| io::stdout().flush());
    match written {
        Err(error) if error.kind() != io::ErrorKind::BrokenPipe => {
            let _ = writeln!(io::stderr(), "lugwormpin: cannot write to standard output: {}", show::reason(&error));
            ExitCode::from(2)
        }
        _ => ExitCode::from(status),
    }
}
