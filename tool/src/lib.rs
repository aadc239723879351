//! Binds x86-64 ELF shared objects into one image, over the proved archive of this repository (include/lugwormpin.h), which does all of the
//! binding. [`Set`] holds what is handed in, [`Call`] a set with an address, an arena and a policy; the calls are its methods.
//!
//! ```no_run
//! use lugwormpin::{Call, Set};
//! use std::fs::File;
//!
//! let mut set = Set::new(&Set::MINIMAL_HOST[..], File::open("rules").unwrap()).unwrap();
//! set.add(b"libsums.so", File::open("libsums.so").unwrap()).unwrap();
//! match Call::new(&set, 0x1000_0000).bind() {
//!     Ok(bound) => println!("{} bytes", bound.image.len()),
//!     Err(refusal) => println!("refused {} object {}", refusal.number, refusal.object),
//! }
//! ```
//!
//! What the archive answers is proved. The rest is not: this wrapper hands slices over as they are, and [`elf`] reads files for showing, and
//! for the sizes that [`Call::new`] gives to arena and report.
#![deny(unsafe_code)]
#![warn(missing_docs)]

mod archive;
mod call;
pub mod elf;
mod set;
mod types;

pub use call::{Bound, Call, Found, Policy, Refusal, StartStop, Word, ARENA_LIMIT};
pub use set::{Fault, Set, SetError, LIBRARY_LIMIT, NAME_LIMIT, PART_LIMIT};
pub use types::{Mark, Types, TYPES};
