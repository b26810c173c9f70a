//! The declarations of this crate and those of `cf.h`, which no compiler compares: parameters, fields and numbers.
use std::collections::BTreeMap;
use std::path::Path;

const DECLARED: &str = include_str!("../src/lib.rs");

/// The header, where it is at hand: `CF_HEADER` names it, or it stands where this crate's sources come from.
fn header() -> Option<String> {
    let beside = Path::new(env!("CARGO_MANIFEST_DIR")).join("../../../crates/cf_c/include/cf.h");
    let path = std::env::var_os("CF_HEADER").map_or(beside, Into::into);
    let text = std::fs::read_to_string(path).ok()?;
    let bare: String = text.split("/*").map(|part| part.split_once("*/").map_or(part, |(_, code)| code)).collect();
    Some(bare.split_whitespace().collect::<Vec<_>>().join(" "))
}

/// A type of C as Rust has it: `const cf_answer *` as `*const cf_answer`.
fn of_c(said: &str) -> String {
    let (said, constant) = said.strip_prefix("const ").map_or((said, "mut"), |said| (said, "const"));
    let (name, is_pointer) = said.trim().strip_suffix('*').map_or((said.trim(), false), |name| (name.trim(), true));
    let name = match name {
        "uint8_t" | "char" => "u8",
        "uint16_t" => "u16",
        "uint32_t" => "u32",
        "uint64_t" => "u64",
        "int32_t" => "i32",
        "size_t" => "usize",
        "void" if is_pointer => "c_void",
        "void" => "",
        name => name,
    };
    if is_pointer {
        format!("*{constant} {name}")
    } else {
        name.to_owned()
    }
}

/// A parameter or a field of C, which may be an array: its name, and its type as Rust has it.
fn part_of_c(said: &str) -> (String, String) {
    if let Some((part, many)) = said.strip_suffix(']').and_then(|said| said.split_once('[')) {
        let (name, kind) = part_of_c(part);
        return (name, format!("[{kind}; {many}]"));
    }
    let begin = said.rfind(|letter: char| !(letter.is_alphanumeric() || letter == '_')).unwrap() + 1;
    (said[begin..].to_owned(), of_c(&said[..begin]))
}

/// A row of parameters or fields, without the comments above these.
fn parts_of_rust(said: &str) -> Vec<(String, String)> {
    let said = said.lines().filter(|line| !line.trim_start().starts_with("///")).collect::<String>();
    let parts = said.split(',').map(str::trim).filter(|part| !part.is_empty());
    parts.map(|part| part.trim_start_matches("pub ").split_once(": ").unwrap()).map(|(name, kind)| (name.to_owned(), kind.to_owned())).collect()
}

type Call = (Vec<(String, String)>, String);

/// The calls of the header, whose functions with a body aren't bound.
fn calls_of_c(header: &str) -> BTreeMap<String, Call> {
    let mut calls = BTreeMap::new();
    for said in header.split(';') {
        // What is behind a body or a `#define` of another declaration begins there.
        let said = said.rsplit(['}', '{']).next().unwrap().trim();
        let (before, parts) = match said.split_once('(') {
            Some((before, parts)) if parts.ends_with(')') && !before.contains("typedef") && !before.contains("return") => (before, parts),
            _ => continue,
        };
        let mut words: Vec<&str> = before.split(' ').collect();
        let name = words.pop().unwrap().trim_start_matches('*');
        let is_text = before.contains('*');
        let kind = words.into_iter().rev().take(if is_text { 2 } else { 1 }).collect::<Vec<_>>();
        let kind = if is_text { "const char *".to_owned() } else { kind.concat() };
        if name.starts_with("cf_") && !kind.is_empty() {
            let parts = parts.trim_end_matches(')').split(',').map(str::trim).filter(|part| *part != "void");
            calls.insert(name.to_owned(), (parts.map(part_of_c).collect(), of_c(&kind)));
        }
    }
    calls
}

fn calls_of_rust() -> BTreeMap<String, Call> {
    let block = DECLARED.split_once("extern \"C\" {").unwrap().1.split_once("\n}").unwrap().0;
    let call = |said: &str| {
        let (name, rest) = said.split_once('(').unwrap();
        let (parts, rest) = rest.split_once(')').unwrap();
        let kind = rest.split_once(';').unwrap().0;
        (name.to_owned(), (parts_of_rust(parts), kind.trim_start_matches(" -> ").to_owned()))
    };
    block.split("pub fn ").skip(1).map(call).collect()
}

#[test]
fn calls_are_those_of_the_header() {
    let header = match header() {
        Some(header) => header,
        None => return eprintln!("left out: there is no cf.h"),
    };
    let (of_c, of_rust) = (calls_of_c(&header), calls_of_rust());
    assert!(of_rust.len() > 70, "{}", of_rust.len());
    for (name, call) in &of_rust {
        assert_eq!(of_c.get(name), Some(call), "{name}");
    }
    assert_eq!(of_c.keys().collect::<Vec<_>>(), of_rust.keys().collect::<Vec<_>>());
}

#[test]
fn fields_are_those_of_the_header() {
    let header = match header() {
        Some(header) => header,
        None => return,
    };
    let mut found = 0;
    for said in header.split("typedef struct {").skip(1) {
        let (fields, rest) = said.split_once('}').unwrap();
        let name = rest.split_once(';').unwrap().0.trim();
        let mut of_c = Vec::new();
        for said in fields.split(';').map(str::trim).filter(|said| !said.is_empty()) {
            let mut names = said.split(',').map(str::trim);
            let (first, kind) = part_of_c(names.next().unwrap());
            of_c.push((first, kind.clone()));
            of_c.extend(names.map(|name| (name.to_owned(), kind.clone())));
        }
        let declared = DECLARED.split_once(&format!("pub struct {name} {{")).unwrap_or_else(|| panic!("{name}")).1.split_once('}').unwrap().0;
        assert_eq!(parts_of_rust(declared), of_c, "{name}");
        found += 1;
    }
    assert_eq!(found, 36);
}

#[test]
fn numbers_are_those_of_the_header() {
    let header = match header() {
        Some(header) => header,
        None => return,
    };
    let mut found = 0;
    for line in DECLARED.lines().filter_map(|line| line.strip_prefix("pub const CF_")) {
        let (name, number) = line.split_once(": u32 = ").or_else(|| line.split_once(": u64 = ")).unwrap();
        let number = number.trim_end_matches(';');
        let said = match number {
            "u32::MAX" => format!("#define CF_{name} UINT32_MAX "),
            "u64::MAX" => format!("#define CF_{name} UINT64_MAX "),
            _ if name.starts_with("VERSION") => format!("#define CF_{name} {number} "),
            _ => format!(" CF_{name} = {number}"),
        };
        let after = header.split_once(&said).unwrap_or_else(|| panic!("{said}")).1;
        assert!(!after.starts_with(|letter: char| letter.is_ascii_digit()), "{said}");
        found += 1;
    }
    assert!(found > 90, "{found}");
}
