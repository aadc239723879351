//! Names of relocation types, as readelf writes them.

/// Types 0 to 42.
#[rustfmt::skip]
const NAMES: [&str; 43] = [
    "NONE", "64", "PC32", "GOT32", "PLT32", "COPY", "GLOB_DAT", "JUMP_SLOT", "RELATIVE", "GOTPCREL", "32", "32S", "16", "PC16", "8", "PC8",
    "DTPMOD64", "DTPOFF64", "TPOFF64", "TLSGD", "TLSLD", "DTPOFF32", "GOTTPOFF", "TPOFF32", "PC64", "GOTOFF64", "GOTPC32", "GOT64",
    "GOTPCREL64", "GOTPC64", "GOTPLT64", "PLTOFF64", "SIZE32", "SIZE64", "GOTPC32_TLSDESC", "TLSDESC_CALL", "TLSDESC", "IRELATIVE",
    "RELATIVE64", "PC32_BND", "PLT32_BND", "GOTPCRELX", "REX_GOTPCRELX",
];

/// The name of a type, where it has one.
pub fn name(kind: u32) -> Option<String> {
    let name = match kind {
        250 => "GNU_VTINHERIT",
        251 => "GNU_VTENTRY",
        _ => NAMES.get(kind as usize)?,
    };
    Some(format!("R_X86_64_{name}"))
}

/// `R_X86_64_64 (1)`
pub fn shown(kind: u32) -> String {
    match name(kind) {
        Some(name) => format!("{name} ({kind})"),
        None => format!("unrecognized ({kind})"),
    }
}
