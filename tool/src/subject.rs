//! The set that a command is about, with the names by which people know its objects.
use crate::args::{Host, Library, Options, Source};
use crate::marks::Table;
use crate::show::{self, decimal, hex};
use crate::Failure;
use lugwormpin::elf::{self, Module, Place};
use lugwormpin::{Call, Fault, Policy, Set, ARENA_LIMIT, LIBRARY_LIMIT, NAME_LIMIT, PART_LIMIT};
use std::fs::File;
use std::io::{self, IsTerminal};
use std::path::{Path, PathBuf};

/// Where document 01's program binds; commands for which the address does not matter take it.
const ADDRESS: u64 = 0x1000_0000;
/// From here on a terminal is told what is being done.
const LONG: u64 = 100 << 20;

/// Says what is being done, where that takes long and somebody watches.
pub struct Progress(bool);

impl Progress {
    pub fn say(&self, text: impl FnOnce() -> String) {
        if self.0 {
            eprintln!("lugwormpin: {}", text());
        }
    }
}

/// An object's names.
pub struct Label {
    /// Its name in the set; of the program, its file's name.
    pub name: String,
    /// Its file; of the minimal host there is none.
    pub file: Option<String>,
}

pub struct Subject {
    pub set: Set,
    pub labels: Vec<Label>,
    pub progress: Progress,
}

fn unreadable(path: &Path, error: &io::Error) -> Failure {
    Failure::files(format!("cannot read {}: {}", show::path(path), show::reason(error)), path)
}

fn too_long(path: &Path) -> Failure {
    let limit = decimal(PART_LIMIT as u64);
    Failure::files(
        format!("{} is too long: a file of a set has at most {limit} bytes (2^28 - 1)", show::path(path)),
        path,
    )
}

/// A file, and its length where it is one that has a length.
fn open(path: &Path) -> Result<(File, u64), Failure> {
    let opened = File::open(path).and_then(|file| {
        let about = file.metadata()?;
        if about.is_dir() {
            return Err(io::Error::from(io::ErrorKind::IsADirectory));
        }
        Ok((file, if about.is_file() { about.len() } else { 0 }))
    });
    match opened {
        Ok((_, length)) if length > PART_LIMIT as u64 => Err(too_long(path)),
        Ok(file) => Ok(file),
        Err(error) => Err(unreadable(path, &error)),
    }
}

/// The message for an object that a set does not take.
fn not_taken(path: &Path, fault: Fault) -> Failure {
    match fault {
        Fault::Unreadable(error) => unreadable(path, &error),
        Fault::TooLong => too_long(path),
        Fault::NoSet(reason) => {
            Failure::files(format!("{} is no set that `lugwormpin set` wrote: {reason}", show::path(path)), path)
        }
        Fault::NameLength(n) => {
            let n = decimal(n as u64);
            let reason =
                format!("the name of this library has {n} bytes; 1 to {NAME_LIMIT} are allowed (give it as NAME=FILE)");
            Failure::files(format!("{}: {reason}", show::path(path)), path)
        }
        Fault::TooMany => Failure::files(format!("{}: over {LIBRARY_LIMIT} libraries", show::path(path)), path),
    }
}

impl Subject {
    /// Reads every file of the set, once.
    pub fn load(source: &Source) -> Result<Subject, Failure> {
        match source {
            Source::Set(path) => Subject::from_set(path),
            Source::Files { host, program, libraries } => Subject::from_files(host, program, libraries),
        }
    }

    pub fn say_binding(&self) {
        self.progress.say(|| format!("binding {} bytes of files", decimal(self.set.bytes().len() as u64)));
    }

    fn from_set(path: &Path) -> Result<Subject, Failure> {
        // of any length: the limit is that of each part
        let opened = File::open(path).and_then(|file| Ok((file.metadata()?, file)));
        let (about, file) = opened.map_err(|error| unreadable(path, &error))?;
        if about.is_dir() {
            return Err(unreadable(path, &io::ErrorKind::IsADirectory.into()));
        }
        let progress = progress(about.len());
        progress.say(|| format!("reading {}: {} bytes", show::path(path), decimal(about.len())));
        let set = Set::read(&mut io::BufReader::new(file)).map_err(|error| not_taken(path, error.fault))?;
        let labels = (0..set.objects()).map(|k| {
            let name = match k {
                0 => "host".to_string(),
                1 => "program".to_string(),
                _ => show::printable(set.name(k)),
            };
            Label { name, file: Some(show::path(path)) }
        });
        let labels = labels.collect();
        Ok(Subject { set, labels, progress })
    }

    fn from_files(host: &Host, program: &Path, libraries: &[Library]) -> Result<Subject, Failure> {
        if libraries.len() > LIBRARY_LIMIT {
            let count = libraries.len();
            return Err(Failure::usage(format!("{count} libraries: a set has at most {LIBRARY_LIMIT}")));
        }
        if let Some(library) = libraries.iter().find(|l| l.name.is_empty() || l.name.len() > NAME_LIMIT) {
            return Err(not_taken(&library.file, Fault::NameLength(library.name.len())));
        }
        let host_file = match host {
            Host::Minimal => None,
            Host::Module(path) | Host::Image(path) => Some(path.as_path()),
        };
        // what can be told of the files is told before the first is read
        let paths: Vec<&Path> = [program].into_iter().chain(libraries.iter().map(|l| l.file.as_path())).collect();
        let mut opened = Vec::with_capacity(paths.len());
        for path in &paths {
            opened.push(open(path)?);
        }
        let host_opened = host_file.map(open).transpose()?;
        let total = opened.iter().chain(&host_opened).map(|(_, length)| length).sum();
        let progress = progress(total);
        let reading = |path: &Path, length: u64| {
            progress.say(|| format!("reading {}: {} bytes", show::path(path), decimal(length)));
        };

        let host_image = match (host, host_opened) {
            (Host::Module(path) | Host::Image(path), Some((file, length))) => {
                reading(path, length);
                let bytes = read_whole(file, path)?;
                match host {
                    Host::Module(_) => elf::host_image(&bytes).map_err(|reason| {
                        Failure::files(format!("--host {}: it has no image: {reason}", show::path(path)), path)
                    })?,
                    _ => bytes,
                }
            }
            _ => Set::MINIMAL_HOST.to_vec(),
        };
        let mut opened = opened.into_iter();
        let (file, length) = opened.next().ok_or_else(|| Failure::usage("no PROGRAM"))?;
        reading(program, length);
        let set = Set::new(&host_image[..], file);
        let mut set = set.map_err(|error| {
            not_taken(if error.object == 0 { host_file.unwrap_or(program) } else { program }, error.fault)
        })?;
        for (library, (file, length)) in libraries.iter().zip(opened) {
            reading(&library.file, length);
            set.add(&library.name, file).map_err(|error| not_taken(&library.file, error.fault))?;
        }

        let mut labels = vec![Label { name: "host".into(), file: host_file.map(show::path) }];
        let own = program.file_name().map_or_else(|| show::path(program), show::path);
        labels.push(Label { name: own, file: Some(show::path(program)) });
        labels.extend(
            libraries.iter().map(|l| Label { name: show::printable(&l.name), file: Some(show::path(&l.file)) }),
        );
        Ok(Subject { set, labels, progress })
    }
}

fn read_whole(file: File, path: &Path) -> Result<Vec<u8>, Failure> {
    use std::io::Read;
    let mut bytes = Vec::new();
    file.take(PART_LIMIT as u64 + 1).read_to_end(&mut bytes).map_err(|error| unreadable(path, &error))?;
    match bytes.len() {
        n if n > PART_LIMIT => Err(too_long(path)),
        _ => Ok(bytes),
    }
}

fn progress(total: u64) -> Progress {
    Progress(total >= LONG && io::stdout().is_terminal() && io::stderr().is_terminal())
}

/// Every file that the set is read from.
pub fn sources(source: &Source) -> Vec<PathBuf> {
    match source {
        Source::Set(path) => vec![path.clone()],
        Source::Files { host, program, libraries } => {
            let host = match host {
                Host::Minimal => None,
                Host::Module(path) | Host::Image(path) => Some(path.clone()),
            };
            host.into_iter().chain([program.clone()]).chain(libraries.iter().map(|l| l.file.clone())).collect()
        }
    }
}

/// A subject at an address.
pub struct View<'a> {
    pub subject: &'a Subject,
    pub modules: Vec<Module<'a>>,
    pub places: Vec<Place>,
    pub call: Call<'a>,
    /// Whether the arena's length was given.
    pub arena_given: bool,
    pub table: Table,
}

impl<'a> View<'a> {
    pub fn new(subject: &'a Subject, options: &Options) -> Result<View<'a>, Failure> {
        let mut call = Call::new(&subject.set, options.address.unwrap_or(ADDRESS));
        if options.strict {
            call.policy = Policy::Strict;
        }
        if let Some(arena) = options.arena {
            call.arena = usize::try_from(arena).unwrap_or(usize::MAX);
        }
        let table = options.types.as_deref().map_or_else(|| Ok(Table::supplied()), Table::read)?;
        call.types = table.types;
        // the arena is allocated by a call that does not come back without memory
        let most = call.arena.min(ARENA_LIMIT + 1);
        if Vec::<u8>::new().try_reserve_exact(most).is_err() {
            return Err(Failure::usage(format!("not enough memory for an arena of {} bytes", decimal(most as u64))));
        }
        let modules = elf::modules(&subject.set);
        let places = elf::layout(&modules, call.address);
        Ok(View { subject, modules, places, call, arena_given: options.arena.is_some(), table })
    }

    pub fn label(&self, object: usize) -> &Label {
        &self.subject.labels[object.min(self.subject.labels.len() - 1)]
    }

    /// `2 liba.so`
    pub fn object(&self, object: usize) -> String {
        format!("{object} {}", self.label(object).name)
    }

    /// Where an object begins in memory.
    pub fn base(&self, object: usize) -> u64 {
        self.places.get(object).map_or(0, |place| self.call.address.wrapping_add(place.offset))
    }

    /// Where it ends: one past its last byte.
    pub fn end(&self, object: usize) -> u64 {
        self.places.get(object).map_or(0, |place| self.call.address.wrapping_add(place.end()))
    }

    /// `0x10001000..0x10005000`
    pub fn range(&self, object: usize) -> String {
        format!("{}..{}", hex(self.base(object)), hex(self.end(object)))
    }

    /// The bytes of the least arena that holds the set.
    pub fn needed(&self) -> u64 {
        elf::arena_needed(&self.places)
    }

    /// The needs of an object, each with the object that has the name, where one does.
    pub fn needs(&self, object: usize) -> Vec<(String, Option<usize>)> {
        let set = &self.subject.set;
        let holder = |name: &[u8]| (2..set.objects()).find(|k| set.name(*k) == name);
        self.modules[object].needs().map(|name| (show::printable(name), holder(name))).collect()
    }
}
