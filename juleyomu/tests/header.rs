//! The header and the wrapper's declarations say what `crates/exports` says, and the header's own check passes.

use std::collections::BTreeMap;
use std::fs;
use std::path::{Path, PathBuf};
use std::process::{Command, Output};

/// By name: parameters or fields, `name: type` each in C's order, and the result last.
type Shapes = BTreeMap<String, Vec<String>>;

/// Constants of lengths, as the header and the wrapper name them.
const LENGTHS: [(&str, &str); 8] = [
    ("JULEYOMU_EDGES", "401"),
    ("JULEYOMU_BUCKETS", "402"),
    ("JULEYOMU_SUFFIXES", "403"),
    ("JULEYOMU_MAX_TARGETS", "16"),
    ("JULEYOMU_HASH_BYTES", "32"),
    ("EDGES", "401"),
    ("BUCKETS", "402"),
    ("MAX_TARGETS", "16"),
];

fn root() -> PathBuf {
    Path::new(env!("CARGO_MANIFEST_DIR")).join("..")
}

fn read(path: &Path) -> String {
    fs::read_to_string(path).unwrap_or_else(|error| panic!("{}: {error}", path.display()))
}

/// The Rattle files of all crates.
fn rattle_files(folder: &Path, files: &mut Vec<PathBuf>) {
    let entries =
        fs::read_dir(folder).unwrap_or_else(|error| panic!("{}: {error}", folder.display()));
    for entry in entries {
        let path = entry.expect("an entry").path();
        if path.is_dir() {
            rattle_files(&path, files);
        } else if path.extension().is_some_and(|extension| extension == "rt") {
            files.push(path);
        }
    }
}

fn rattle_text() -> String {
    let mut files = Vec::new();
    rattle_files(&root().join("crates"), &mut files);
    let texts = files.iter().map(|path| read(path));
    texts.map(|text| without_comments(&text)).collect()
}

/// Without what follows `//` on a line.
fn without_comments(text: &str) -> String {
    let lines = text.lines();
    lines
        .map(|line| line.split("//").next().unwrap_or("").to_string() + "\n")
        .collect()
}

fn length(word: &str) -> &str {
    let known = LENGTHS.iter().find(|(name, _)| *name == word);
    known.map_or(word, |(_, number)| number)
}

/// `[u64; 402]` as `u64[402]`.
fn array(rust: &str) -> Option<String> {
    let (element, places) = rust
        .strip_prefix('[')?
        .strip_suffix(']')?
        .split_once("; ")?;
    Some(format!("{element}[{}]", length(places)))
}

/// `&'a mut [u64]` as `&mut [u64]`: C has no lifetimes.
fn without_lifetime(rust: &str) -> String {
    match rust.strip_prefix("&'").and_then(|of| of.split_once(' ')) {
        Some((_, of)) => format!("&{of}"),
        None => rust.to_string(),
    }
}

/// A parameter or a field of Rust or Rattle. A slice is two of C's, an array behind a reference one.
fn rust_shape(declared: &str) -> Vec<String> {
    let (name, of) = declared.split_once(": ").expect("a name and its type");
    let name = name.trim().rsplit(' ').next().expect("a name");
    let of = without_lifetime(of);
    let of = of.as_str();
    let slice = |of: &str| {
        of.strip_suffix(']')
            .filter(|of| !of.contains(';'))
            .map(str::to_string)
    };
    if let Some(element) = of.strip_prefix("&mut [").and_then(slice) {
        return vec![format!("{name}: {element}*"), format!("{name}_len: usize")];
    }
    if let Some(element) = of.strip_prefix("&[").and_then(slice) {
        return vec![
            format!("{name}: const {element}*"),
            format!("{name}_len: usize"),
        ];
    }
    let behind = of.strip_prefix("&mut ").or(of.strip_prefix("*mut "));
    let of = match (behind, of.strip_prefix("*const ")) {
        (Some(behind), _) => array(behind).unwrap_or(behind.to_string() + "*"),
        (_, Some(element)) => format!("const {element}*"),
        _ => array(of).unwrap_or(of.to_string()),
    };
    vec![format!("{name}: {of}")]
}

fn listed(declared: &str) -> impl Iterator<Item = &str> {
    let parts = declared.split(",\n").flat_map(|line| line.split(", "));
    parts
        .map(|part| part.trim().trim_end_matches(','))
        .filter(|part| !part.is_empty())
}

/// Functions whose declarations begin with `before` and a name with the library's prefix.
fn rust_functions(text: &str, before: &str) -> Shapes {
    let mut shapes = Shapes::new();
    for declared in text.split(before).skip(1) {
        let (name, rest) = declared.split_once('(').expect("parameters");
        // Without a lifetime's parameter, as in `juleyomu_history_insert<'a>`.
        let name = name.split("<'").next().unwrap_or(name);
        if !name.starts_with("juleyomu_") {
            continue;
        }
        let (parameters, rest) = rest.split_once(')').expect("the end of the parameters");
        let mut shape: Vec<String> = listed(parameters).flat_map(rust_shape).collect();
        let result = rest
            .split(['\n', ';'])
            .next()
            .expect("the rest of the line");
        shape.push(
            result
                .trim()
                .strip_prefix("-> ")
                .unwrap_or("()")
                .to_string(),
        );
        shapes.insert(name.to_string(), shape);
    }
    shapes
}

/// Structs with the layout of C.
fn rust_structs(text: &str) -> Shapes {
    let mut shapes = Shapes::new();
    for declared in text.split("#[repr(C)]").skip(1) {
        let (_, declared) = declared.split_once("struct ").expect("a struct");
        let (name, rest) = declared.split_once(" {").expect("fields");
        let (fields, _) = rest.split_once('}').expect("the end of the fields");
        let shape = listed(fields).flat_map(rust_shape).collect();
        shapes.insert(name.to_string(), shape);
    }
    shapes
}

/// A type of C under Rust's name.
fn c_type(word: &str) -> &str {
    match word {
        "uint8_t" => "u8",
        "uint32_t" => "u32",
        "uint64_t" => "u64",
        "size_t" => "usize",
        "double" => "f64",
        "void" => "()",
        other => other.strip_prefix("Juleyomu").unwrap_or(other),
    }
}

/// A parameter or a field of C.
fn c_shape(declared: &str) -> String {
    let (of, name) = declared.trim().rsplit_once(' ').expect("a type and a name");
    let (constant, of) = of
        .strip_prefix("const ")
        .map_or(("", of), |of| ("const ", of));
    let of = c_type(of.trim());
    if let Some(name) = name.strip_prefix('*') {
        return format!("{name}: {constant}{of}*");
    }
    match name.split_once('[') {
        Some((name, places)) => format!("{name}: {of}[{}]", length(places.trim_end_matches(']'))),
        None => format!("{name}: {constant}{of}"),
    }
}

/// The header without comments and directives, each run of blanks one space.
fn header() -> String {
    let text = read(&root().join("include/juleyomu.h"));
    let parts = text.split("/*").enumerate();
    let code = parts.map(|(place, part)| match place {
        0 => part,
        _ => part.split_once("*/").expect("the end of a comment").1,
    });
    let code: String = code.collect();
    let lines = code.lines().filter(|line| !line.starts_with('#'));
    let words: Vec<&str> = lines.flat_map(str::split_whitespace).collect();
    words.join(" ")
}

fn c_structs(header: &str) -> Shapes {
    let structs = header.split("typedef struct { ").skip(1);
    let shape = |declared: &str| {
        let (fields, rest) = declared.split_once("; } ").expect("the end of the fields");
        let (name, _) = rest.split_once(';').expect("a name");
        (
            c_type(name).to_string(),
            fields.split("; ").map(c_shape).collect(),
        )
    };
    structs.map(shape).collect()
}

fn c_functions(header: &str) -> Shapes {
    let declared = header.split(';').filter(|part| part.contains(" juleyomu_"));
    let shape = |declared: &str| {
        let (front, parameters) = declared.trim().split_once('(').expect("parameters");
        let mut words = front.rsplit(' ');
        let name = words.next().expect("a name").to_string();
        let result = c_type(words.next().expect("a result")).to_string();
        let parameters = parameters
            .strip_suffix(')')
            .expect("the end of the parameters");
        let parameters = parameters
            .split(", ")
            .filter(|parameter| *parameter != "void");
        (name, parameters.map(c_shape).chain([result]).collect())
    };
    declared.map(shape).collect()
}

/// What is declared in one place is declared the same in the other.
fn agree(declared: &Shapes, exported: &Shapes) {
    for (name, shape) in declared {
        assert_eq!(Some(shape), exported.get(name), "{name}");
    }
}

#[test]
fn the_header_has_every_exported_function() {
    let exported = rust_functions(&rattle_text(), "pub extern \"C\" fn ");
    let declared = c_functions(&header());
    assert!(exported.len() > 70, "the exports were found");
    agree(&declared, &exported);
    agree(&exported, &declared);
}

#[test]
fn the_header_has_every_struct() {
    let exported = rust_structs(&rattle_text());
    let declared = c_structs(&header());
    assert!(exported.len() > 12, "the structs were found");
    agree(&declared, &exported);
    agree(&exported, &declared);
}

#[test]
fn the_wrapper_declares_what_is_exported() {
    let wrapper = without_comments(&read(&root().join("juleyomu/src/ffi.rs")));
    let (functions, structs) = (rust_functions(&wrapper, "fn "), rust_structs(&wrapper));
    assert!(
        functions.len() > 25 && structs.len() > 8,
        "declarations were found"
    );
    agree(&functions, &c_functions(&header()));
    agree(&structs, &c_structs(&header()));
}

#[test]
fn the_header_has_the_lengths() {
    let text = read(&root().join("include/juleyomu.h"));
    for (name, number) in LENGTHS {
        if name.starts_with("JULEYOMU_") {
            assert!(
                text.contains(&format!("#define {name} {number}\n")),
                "{name}"
            );
        }
    }
}

/// Compiles in the build folder of this test, and says what the compiler said.
fn compiled(compiler: &str, words: &[&str], source: &Path, program: &Path) {
    let output = Command::new(compiler)
        .args(words)
        .args(["-Wall", "-Wextra", "-pedantic", "-Werror", "-I"])
        .arg(root().join("include"))
        .arg(source)
        .arg(root().join("target/staticlib/libexports.a"))
        .arg("-o")
        .arg(program)
        .output();
    let output = output.unwrap_or_else(|error| panic!("{compiler} is needed: {error}"));
    assert!(
        output.status.success(),
        "{}",
        String::from_utf8_lossy(&output.stderr)
    );
}

fn run(program: &Path) -> Output {
    Command::new(program)
        .output()
        .expect("the compiled program runs")
}

#[test]
fn the_check_in_c_passes() {
    let program = Path::new(env!("CARGO_TARGET_TMPDIR")).join("check_c");
    compiled(
        "cc",
        &["-std=c11"],
        &root().join("include/check.c"),
        &program,
    );
    let output = run(&program);
    let errors = String::from_utf8_lossy(&output.stderr);
    assert!(output.status.success(), "{errors}");
    assert_eq!(output.stdout, b"all checks passed\n");
}

#[test]
fn the_header_is_c_plus_plus_too() {
    let folder = Path::new(env!("CARGO_TARGET_TMPDIR"));
    let (source, program) = (folder.join("header.cpp"), folder.join("header_cpp"));
    let text = "#include \"juleyomu.h\"\nint main() { return int(juleyomu_bucket_index(102)); }\n";
    fs::write(&source, text).expect("the build folder is writable");
    compiled("c++", &["-std=c++11"], &source, &program);
    assert_eq!(run(&program).status.code(), Some(1), "case A: bucket 1");
}
