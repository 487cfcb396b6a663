//! What is declared here is what dnsnames.h declares, all of it and in its order.

use std::fs::read_to_string;
use std::path::Path;

/// The header without its comments, each run of white space one space; none where the crate stands alone.
fn header() -> Option<String> {
    let text = read_to_string(Path::new(env!("CARGO_MANIFEST_DIR")).join("../../c/dnsnames.h")).ok()?;
    let mut code = String::new();
    for (number, part) in text.split("/*").enumerate() {
        code += if number == 0 { part } else { part.split_once("*/").unwrap().1 };
    }
    Some(words(&code))
}

/// The declarations of Rust, without comments and white space alike.
fn source() -> String {
    let text = read_to_string(Path::new(env!("CARGO_MANIFEST_DIR")).join("src/lib.rs")).unwrap();
    let lines = text.lines().filter(|line| !line.trim_start().starts_with("//"));
    words(&lines.collect::<Vec<_>>().join(" "))
}

fn words(text: &str) -> String {
    text.split_whitespace().collect::<Vec<_>>().join(" ")
}

/// What stands between two texts, at each place where the first of them stands.
fn between<'a>(text: &'a str, begin: &'a str, end: &'a str) -> impl Iterator<Item = &'a str> {
    text.split(begin).skip(1).map(move |rest| rest.split(end).next().unwrap())
}

/// A field or an argument, `name: type`, as C writes it.
fn as_c(field: &str) -> String {
    let (name, kind) = field.trim().split_once(": ").unwrap();
    let name = name.trim_start_matches("r#");
    let (pointer, kind) = match kind.split_once(' ') {
        Some(("*const", kind)) => ("const *", kind),
        Some(("*mut", kind)) => ("*", kind),
        _ => ("", kind),
    };
    let (kind, size) = match kind.trim_matches(&['[', ']'][..]).split_once("; ") {
        Some((kind, size)) => (kind, format!("[{size}]")),
        None => (kind, String::new()),
    };
    let kind = match kind {
        "usize" => "size_t",
        "i32" => "int32_t",
        "u8" => "uint8_t",
        "u16" => "uint16_t",
        "u32" => "uint32_t",
        "u64" => "uint64_t",
        kind => kind,
    };
    match pointer {
        "const *" => format!("const {kind} *{name}"),
        pointer => format!("{kind} {pointer}{name}{size}"),
    }
}

fn all_as_c(fields: &str) -> Vec<String> {
    let fields = fields.trim().trim_end_matches(',');
    fields.split(", ").map(as_c).collect()
}

#[test]
fn calls() {
    let (Some(header), source) = (header(), source()) else { return };
    let ours = between(&source, "pub fn ", ";").map(|call| {
        let (name, rest) = call.split_once('(').unwrap();
        let (arguments, result) = rest.split_once(')').unwrap();
        match result.trim_start_matches(" -> ") {
            "*const c_char" => format!("const char *{name}(void)"),
            result => format!("{result} {name}({})", all_as_c(arguments).join(", ")),
        }
    });
    let theirs = header.split(';').filter_map(|declaration| {
        let declaration = declaration.split("#endif ").last().unwrap().trim();
        let is_call =
            declaration.starts_with("dnsnames_status dnsnames_") || declaration.starts_with("const char *dns");
        // In C a pointer to an array of a parameter is written as that array.
        is_call.then(|| declaration.replace(" key[DNSNAMES_KEY_LEN]", " *key"))
    });
    let (ours, theirs): (Vec<_>, Vec<_>) = (ours.collect(), theirs.collect());
    assert!(ours.len() > 40);
    assert_eq!(ours, theirs);
}

#[test]
fn structs() {
    let (Some(header), source) = (header(), source()) else { return };
    let ours = between(&source, "#[repr(C)] pub struct ", "}").map(|text| {
        let (name, fields) = text.split_once(" {").unwrap();
        (name, all_as_c(&fields.replace("pub ", "")))
    });
    let theirs = between(&header, "typedef struct ", "}").map(|text| {
        let (name, fields) = text.split_once(" {").unwrap();
        (name, fields.trim().trim_end_matches(';').split("; ").map(str::to_string).collect::<Vec<_>>())
    });
    let (ours, theirs): (Vec<_>, Vec<_>) = (ours.collect(), theirs.collect());
    assert!(ours.len() > 5);
    assert_eq!(ours, theirs);
}

#[test]
fn constants() {
    let (Some(header), source) = (header(), source()) else { return };
    let mut ours: Vec<(&str, &str)> = between(&source, "pub const ", ";")
        .map(|text| (text.split(':').next().unwrap(), text.rsplit(" = ").next().unwrap()))
        .collect();
    let words: Vec<&str> = header.split(&[' ', ',', '}'][..]).filter(|word| !word.is_empty()).collect();
    let mut theirs: Vec<(&str, &str)> = words
        .windows(3)
        .filter_map(|words| match words {
            ["#define", name, value] if *name != "DNSNAMES_H" => Some((*name, *value)),
            [name, "=", value] if name.starts_with("DNSNAMES_") => Some((*name, *value)),
            _ => None,
        })
        .collect();
    ours.sort_unstable();
    theirs.sort_unstable();
    assert!(ours.len() > 80);
    assert_eq!(ours, theirs);
}
