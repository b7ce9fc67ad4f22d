//! Lays out what the library is made of: the crate's files where they stand, the two spectrum books,
//! our static library and, where it is installed, Debian's libopus.

use std::path::{Path, PathBuf};
use std::process::Command;
use std::{env, fs};

// The files of the crate, compiled unchanged. Of docs/src two are left out:
// lib.rs names files that docs/src lacks; the tree written here stands in for it.
// silk/resampler/mod.rs leans on seven files that docs/src lacks (ar2, down2, down2_3, down_fir,
// iir_fir, rom, up2_hq); src/shim.rs has the one name that the others need of it.
const ROOT: [&str; 1] = ["externs"];
const CELT: [&str; 3] = ["entcode", "entdec", "entenc"];
const SILK: [&str; 33] = [
    "Inlines",
    "LPC_analysis_filter",
    "LPC_fit",
    "LPC_inv_pred_gain",
    "NLSF2A",
    "NLSF_decode",
    "NLSF_stabilize",
    "NLSF_unpack",
    "SigProc_FIX",
    "bwexpander",
    "bwexpander_32",
    "code_signs",
    "decode_core",
    "decode_indices",
    "decode_parameters",
    "decode_pitch",
    "decode_pulses",
    "define",
    "encode_indices",
    "encode_pulses",
    "gain_quant",
    "lin2log",
    "log2lin",
    "pitch_est_tables",
    "shell_coder",
    "sort",
    "structs",
    "table_LSF_cos",
    "tables_LTP",
    "tables_gain",
    "tables_other",
    "tables_pitch_lag",
    "tables_pulses_per_block",
];

// The crate is compiled as it stands: its style is not ours to judge. The last lint is an error where
// the compiler knows it, so that the first does not cover it.
const LENIENT: &str = "#[allow(warnings, clippy::all, dangerous_implicit_autorefs)]\n";

fn main() {
    let source = path("UNOPUS_SRC", "../../shared/docs/src".into());
    let books = path("NLSF_BOOKS", source.join("../../tables/nlsf-codebooks.txt"));
    println!("cargo:rerun-if-changed={}", books.display());
    let text = fs::read_to_string(&books).unwrap();

    // The text has no steps: they are RFC 6716 section 4.2.7.5's.
    let shims = [
        "pub use crate::shim::{macros, resampler};\n".to_string(),
        book(&text, "NB_MB", 11796),
        book(&text, "WB", 9830),
    ];
    let source = source.join("src");
    let tree = [
        modules(&source, &ROOT),
        folder("celt", modules(&source.join("celt"), &CELT)),
        folder(
            "silk",
            shims.concat() + &modules(&source.join("silk"), &SILK),
        ),
    ];
    let out = PathBuf::from(env::var_os("OUT_DIR").unwrap());
    fs::write(out.join("unopus.rs"), tree.concat()).unwrap();

    let ours = path("TIGNAROPS_LIBS", "../target/staticlib".into());
    for name in ["table_entries", "tignarops"] {
        link(&ours.join(format!("lib{name}.a")), name);
    }

    println!("cargo:rustc-check-cfg=cfg(libopus)");
    let libopus = beside_the_c_library("libopus.a");
    if libopus.is_absolute() {
        println!("cargo:rustc-cfg=libopus");
        println!("cargo:rustc-link-lib=m");
        link(&libopus, "opus");
    } else {
        // A file that is not there has this script run again, until the library is installed.
        println!("cargo:rerun-if-changed=libopus.a");
    }
}

/// What the variable names, or the default; both count from this package.
fn path(variable: &str, default: PathBuf) -> PathBuf {
    println!("cargo:rerun-if-env-changed={variable}");
    let named = env::var_os(variable).map_or(default, PathBuf::from);
    fs::canonicalize(&named).unwrap_or_else(|e| panic!("{variable}: {}: {e}", named.display()))
}

fn modules(at: &Path, names: &[&str]) -> String {
    let module = |name| {
        let file = at.join(format!("{name}.rs"));
        format!("{LENIENT}#[path = {file:?}]\npub mod {name};\n")
    };
    names.iter().map(module).collect()
}

fn folder(name: &str, items: String) -> String {
    format!("{LENIENT}pub mod {name} {{\n{items}}}\n")
}

/// A spectrum book as the crate's own file of that name would have it.
fn book(text: &str, name: &str, step: u32) -> String {
    let table = |word| table(text, name, word);
    let vectors = table("cb1");
    // Only the encoder's search, which is not here, reads the inverse step and the rates.
    format!(
        "pub mod tables_NLSF_CB_{name} {{
            use crate::silk::structs::silk_NLSF_CB_struct;
            pub static silk_NLSF_CB_{name}: silk_NLSF_CB_struct = silk_NLSF_CB_struct {{
                nVectors: 32,
                order: {},
                quantStepSize_Q16: {step},
                invQuantStepSize_Q6: 0,
                CB1_NLSF_Q8: &{vectors:?},
                CB1_Wght_Q9: &{:?},
                CB1_iCDF: &{:?},
                pred_Q8: &{:?},
                ec_sel: &{:?},
                ec_iCDF: &{:?},
                ec_Rates_Q5: &[],
                deltaMin_Q15: &{:?},
            }};
        }}\n",
        vectors.len() / 32,
        table("wght"),
        table("cb1_icdf"),
        table("pred"),
        table("sel"),
        table("ec"),
        table("dmin"),
    )
}

/// A table of the text: below `## BOOK` a line `WORD COUNT`, then its numbers on indented lines.
fn table(text: &str, book: &str, word: &str) -> Vec<u32> {
    let mut lines = text
        .lines()
        .skip_while(|line| *line != format!("## {book}"))
        .skip_while(|line| !line.starts_with(&format!("{word} ")));
    let title = lines.next().unwrap_or_default();
    let numbers: Vec<u32> = lines
        .take_while(|line| line.starts_with(' '))
        .flat_map(str::split_whitespace)
        .map(|number| number.parse().unwrap())
        .collect();
    assert_eq!(title, format!("{word} {}", numbers.len()), "book {book}");
    numbers
}

/// The file on the C compiler's own search path; a bare name where it is not there.
fn beside_the_c_library(file: &str) -> PathBuf {
    // The compiler that links for the target.
    let compiler = env::var_os("RUSTC_LINKER").unwrap_or_else(|| "cc".into());
    Command::new(compiler)
        .arg(format!("-print-file-name={file}"))
        .output()
        .map(|answer| String::from_utf8(answer.stdout).unwrap().trim().into())
        .unwrap_or_default()
}

fn link(archive: &Path, name: &str) {
    println!("cargo:rerun-if-changed={}", archive.display());
    println!(
        "cargo:rustc-link-search=native={}",
        archive.parent().unwrap().display()
    );
    println!("cargo:rustc-link-lib=static={name}");
}
