//! Links the archive: the folder of LUGWORMPIN_ARCHIVE, else target/staticlib of the repository, where tools/archive writes it. Before
//! that it sees that src/archive.rs declares each function as include/lugwormpin.h does: a linker does not look at arguments.
use std::path::{Path, PathBuf};
use std::{env, fs, process::exit};

fn main() {
    let here = PathBuf::from(env::var_os("CARGO_MANIFEST_DIR").expect("cargo sets it"));
    let folder = match env::var_os("LUGWORMPIN_ARCHIVE") {
        Some(folder) if !folder.is_empty() => PathBuf::from(folder),
        _ => here.join("../target/staticlib"),
    };
    let (archive, header) = (folder.join("libexport.a"), here.join("../include/lugwormpin.h"));
    println!("cargo:rerun-if-env-changed=LUGWORMPIN_ARCHIVE");
    for file in [&archive, &header, &here.join("src/archive.rs"), &here.join("build.rs")] {
        println!("cargo:rerun-if-changed={}", file.display());
    }
    same_functions(&here.join("src/archive.rs"), &header);
    if !archive.is_file() {
        fail(&format!("{} is missing: `bash tool/build` makes it first", archive.display()));
    }
    println!("cargo:rustc-link-search=native={}", folder.display());
    println!("cargo:rustc-link-lib=static=export");
}

fn fail(message: &str) -> ! {
    eprintln!("{message}");
    exit(1)
}

fn read(path: &Path) -> String {
    fs::read_to_string(path).unwrap_or_else(|error| fail(&format!("{}: {error}", path.display())))
}

/// Every `fn lugwormpin_..` of the Rust has the parameters and the result of its prototype.
fn same_functions(rust: &Path, header: &Path) {
    let (text, header) = (read(rust), without_comments(&read(header)));
    let mut rest = text.as_str();
    while let Some(at) = rest.find("fn lugwormpin_") {
        rest = &rest[at + 3..];
        let (name, declared) = rest.split_once('(').unwrap_or((rest, ""));
        let (parameters, end) = declared.split_once(')').unwrap_or((declared, ""));
        let ours: Vec<String> = parameters.split(',').map(spaced).collect();
        let result = end.split(';').next().map(spaced).unwrap_or_default();
        let theirs = prototype(&header, name);
        if theirs != Some((ours.clone(), result.clone())) {
            fail(&format!(
                "src/archive.rs declares {name} otherwise than include/lugwormpin.h:\n  {ours:?} {result}\n  {theirs:?}"
            ));
        }
    }
}

/// The parameters and the result of a prototype, in Rust's words.
fn prototype(header: &str, name: &str) -> Option<(Vec<String>, String)> {
    let at = header.find(&format!(" {name}("))?;
    let result = header[..at].rsplit(['\n', ';']).next()?;
    let parameters = header[at..].split_once('(')?.1.split_once(')')?.0;
    let word = |c: &str| {
        Some(match c {
            "uint8_t" => "u8",
            "uint32_t" => "u32",
            "uint64_t" => "u64",
            "size_t" => "usize",
            _ => return None,
        })
    };
    let parameter = |text: &str| {
        let text = spaced(text);
        let (kind, name) = text.rsplit_once([' ', '*'])?;
        let kind = match (text.contains('*'), kind.trim().trim_end_matches('*').trim().strip_prefix("const ")) {
            (true, Some(of)) => format!("*const {}", word(of)?),
            (true, None) => format!("*mut {}", word(kind.trim().trim_end_matches('*').trim())?),
            (false, _) => word(kind)?.to_string(),
        };
        Some(format!("{name}: {kind}"))
    };
    let parameters = parameters.split(',').map(parameter).collect::<Option<Vec<String>>>()?;
    let result = match result.trim() {
        "void" => String::new(),
        kind => format!("-> {}", word(kind)?),
    };
    Some((parameters, result))
}

fn spaced(text: &str) -> String {
    text.split_whitespace().collect::<Vec<&str>>().join(" ")
}

fn without_comments(text: &str) -> String {
    let mut parts = text.split("/*");
    let mut code = parts.next().unwrap_or("").to_string();
    for part in parts {
        code.push_str(part.split_once("*/").map_or("", |(_, after)| after));
    }
    code
}
