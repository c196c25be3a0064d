//! Takes the ported Rust unchanged and lays it out as modules under OUT_DIR.
//!
//! Each file is copied as it is. Where private state has to be set and read from outside, an
//! `impl` is appended after the file's last line; no line of it is changed. `oscillator/mod.rs` is
//! not part of the source and `utils/mod.rs` names crates that are not here, so the module tree is
//! made here.

use std::path::{Path, PathBuf};
use std::{env, fs};

const VARIABLE: &str = "NAVULOQU_SOURCE";
const LIBRARY: &str = "NAVULOQU_LIBRARY";

/// Where the source stands beside the repository, seen from this package.
const USUAL_PLACE: &str = "../../shared/docs/src";

/// The folders below `src/`, the files taken from each, and the struct whose state is opened.
const OSCILLATORS: [(&str, Option<&str>); 6] = [
    ("oscillator", Some("Oscillator")),
    ("variable_shape_oscillator", Some("VariableShapeOscillator")),
    ("variable_saw_oscillator", Some("VariableSawOscillator")),
    ("super_square_oscillator", Some("SuperSquareOscillator")),
    ("nes_triangle_oscillator", Some("NesTriangleOscillator")),
    ("string_synth_oscillator", Some("StringSynthOscillator")),
];

const INTERPOLATOR_ACCESSOR: &str = "
impl ParameterInterpolator<'_> {
    pub fn increment(&self) -> f32 {
        self.increment
    }
}
";

fn main() {
    link_library();
    // cargo fails the build for a `cargo::error` line, and prints its text as the error.
    if let Err(message) = lay_out() {
        println!("cargo::error={message}");
    }
}

/// `compare buffers` is there where the environment names the folder of libnavuloqu.a.
fn link_library() {
    println!("cargo::rustc-check-cfg=cfg(library)");
    println!("cargo::rerun-if-env-changed={LIBRARY}");
    if let Ok(folder) = env::var(LIBRARY) {
        println!("cargo::rustc-cfg=library");
        println!("cargo::rustc-link-search=native={folder}");
        println!("cargo::rustc-link-lib=static=navuloqu");
        println!("cargo::rerun-if-changed={folder}/libnavuloqu.a");
    }
}

fn lay_out() -> Result<(), String> {
    println!("cargo::rerun-if-env-changed={VARIABLE}");
    println!("cargo::rerun-if-changed=build.rs");
    let source = find_source()?;
    let out = PathBuf::from(env::var("OUT_DIR").map_err(|e| format!("OUT_DIR: {e}"))?);

    let mut tree = reference_sample_rate(&take(&source, "lib.rs")?)?;
    tree += "#[allow(dead_code, clippy::all)]\npub mod oscillator {\n";
    for (name, state) in OSCILLATORS {
        let mut text = take(&source, &format!("oscillator/{name}.rs"))?;
        if let Some(state) = state {
            text += &word_accessors(&text, state)?;
        }
        tree += &place(&out, name, &text)?;
    }
    tree += "}\n#[allow(dead_code, clippy::all)]\npub mod utils {\n";
    tree += &place(&out, "polyblep", &take(&source, "utils/polyblep.rs")?)?;
    let interpolator = take(&source, "utils/parameter_interpolator.rs")? + INTERPOLATOR_ACCESSOR;
    tree += &place(&out, "parameter_interpolator", &interpolator)?;
    tree += "}\n";
    write(&out.join("source.rs"), &tree)
}

/// The folder that holds `src/oscillator` and `src/utils`.
fn find_source() -> Result<PathBuf, String> {
    let place = match env::var_os(VARIABLE) {
        Some(named) => PathBuf::from(named),
        None => Path::new(&env::var_os("CARGO_MANIFEST_DIR").unwrap_or_default()).join(USUAL_PLACE),
    };
    if place.join("src/oscillator/oscillator.rs").is_file() {
        return Ok(place);
    }
    Err(format!(
        "the ported Rust is not there: looked for src/oscillator/oscillator.rs in {}; \
         set {VARIABLE} to the folder that holds src/oscillator and src/utils",
        place.display()
    ))
}

fn take(source: &Path, name: &str) -> Result<String, String> {
    let path = source.join("src").join(name);
    println!("cargo::rerun-if-changed={}", path.display());
    fs::read_to_string(&path).map_err(|e| format!("cannot read {}: {e}", path.display()))
}

/// Writes one module's text and gives the line of the module tree that names it.
fn place(out: &Path, name: &str, text: &str) -> Result<String, String> {
    let path = out.join(format!("{name}.rs"));
    write(&path, text)?;
    Ok(format!("    #[path = {path:?}]\n    pub mod {name};\n"))
}

fn write(path: &Path, text: &str) -> Result<(), String> {
    fs::write(path, text).map_err(|e| format!("cannot write {}: {e}", path.display()))
}

/// `oscillator.rs` reads this constant of the crate's root; the rest of `lib.rs` is not taken.
fn reference_sample_rate(lib: &str) -> Result<String, String> {
    lib.lines()
        .find(|line| line.starts_with("pub const REF_SAMPLE_RATE"))
        .map(|line| format!("#[allow(dead_code)]\n{line}\n"))
        .ok_or_else(|| "src/lib.rs has no line `pub const REF_SAMPLE_RATE`".to_string())
}

/// The fields of a struct with their types, in the order in which the source declares them.
fn fields<'a>(text: &'a str, state: &str) -> Option<Vec<(&'a str, &'a str)>> {
    let after = text.split_once(&format!("pub struct {state} {{"))?.1;
    let body = after.split_once('}')?.0;
    body.lines()
        .map(str::trim)
        .filter(|line| !line.is_empty() && !line.starts_with("//"))
        .map(|line| line.trim_end_matches(',').split_once(": "))
        .collect()
}

/// An `impl` that sets the state from 32-bit words and reads it back, one word for each field.
fn word_accessors(text: &str, state: &str) -> Result<String, String> {
    let fields = fields(text, state).ok_or_else(|| format!("no plain fields of {state} found"))?;
    let mut set = String::new();
    let mut get = String::new();
    for (i, (name, sort)) in fields.iter().enumerate() {
        let (from, to) = match *sort {
            "f32" => (format!("f32::from_bits(words[{i}])"), ".to_bits()"),
            "i32" => (format!("words[{i}] as i32"), " as u32"),
            "bool" => (format!("words[{i}] != 0"), " as u32"),
            other => return Err(format!("no word for {state}.{name}, a {other}")),
        };
        set += &format!("{name}: {from}, ");
        get += &format!("self.{name}{to}, ");
    }
    Ok(format!(
        "
impl {state} {{
    pub fn from_words(words: &[u32]) -> Self {{
        Self {{ {set}}}
    }}

    pub fn to_words(&self) -> Vec<u32> {{
        vec![{get}]
    }}
}}
"
    ))
}
