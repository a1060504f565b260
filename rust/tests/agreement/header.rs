//! What zahupnik.h and zahupnik_refusal.h say, read as text, and that the crate says the same.

use crate::note;
use std::collections::{BTreeMap, BTreeSet};
use std::fs;
use std::path::Path;
use zahupnik::{Operation, Refusal};

/// The declarations of the crate.
const LIBRARY: &str = include_str!("../../src/library.rs");

/// A header, or none if the headers are not there.
fn read(name: &str) -> Option<String> {
    let crate_folder = Path::new(env!("CARGO_MANIFEST_DIR"));
    let found = ["../include", "../../../include"].iter().find_map(|folder| fs::read_to_string(crate_folder.join(folder).join(name)).ok());
    if found.is_none() {
        note(&format!("header: note: no {name} in ../include or ../../../include, so the crate was not held against it"));
    }
    found
}

/// The text with each run of blanks as one space.
fn squeezed(text: &str) -> String {
    text.split_whitespace().collect::<Vec<_>>().join(" ")
}

/// The comments of a C text, and what stands before each and after the last.
fn parts(text: &str) -> Vec<(String, String)> {
    let pieces = text.split("/*").map(|piece| piece.split_once("*/").unwrap_or(("", piece)));
    pieces.map(|(comment, code)| (squeezed(&comment.replace("\n *", " ")), code.to_string())).collect()
}

fn without_comments(text: &str) -> String {
    parts(text).into_iter().map(|(_, code)| code).collect()
}

/// The functions that C code declares: what each returns, its name and its parameters.
fn functions(code: &str) -> Vec<(String, String, String)> {
    let mut found = Vec::new();
    for declaration in code.split(';') {
        let returned = ["uint32_t zahupnik_", "struct zahupnik_change zahupnik_"];
        let at = returned.iter().filter_map(|opening| declaration.find(&format!("\n{opening}"))).min();
        if let Some((head, parameters)) = at.and_then(|at| declaration[at..].split_once('(')) {
            let (returned, name) = head.trim().rsplit_once(' ').expect("a type and a name");
            found.push((returned.to_string(), name.to_string(), parameters.trim().trim_end_matches(')').to_string()));
        }
    }
    found
}

/// The type in Rust of a type in C.
fn rust_type(c: &str) -> String {
    let (constant, c) = (c.starts_with("const "), c.trim_start_matches("const "));
    let (pointer, c) = (c.ends_with('*'), c.trim_end_matches('*').trim());
    let plain = match c {
        "uint32_t" => "u32",
        "int32_t" => "i32",
        "uint8_t" => "u8",
        "int64_t" => "i64",
        "size_t" => "usize",
        "struct zahupnik_prepared" => "Record",
        "struct zahupnik_change" => "Change",
        other => panic!("a type that the crate does not know: {other}"),
    };
    match (pointer, constant) {
        (false, _) => plain.to_string(),
        (true, false) => format!("*mut {plain}"),
        (true, true) => format!("*const {plain}"),
    }
}

/// A parameter in Rust of one in C.
fn rust_parameter(c: &str) -> String {
    let at = c.rfind([' ', '*']).expect("a type and a name") + 1;
    format!("{}: {}", &c[at..], rust_type(c[..at].trim()))
}

#[test]
fn declarations_are_those_of_the_header() {
    let header = match read("zahupnik.h") {
        Some(header) => header,
        None => return,
    };
    let wanted: Vec<String> = functions(&without_comments(&header))
        .iter()
        .map(|(returned, name, parameters)| {
            let parameters = squeezed(parameters);
            let parameters = parameters.split(", ").filter(|parameter| *parameter != "void").map(rust_parameter);
            format!("pub fn {name}({}) -> {}", parameters.collect::<Vec<_>>().join(", "), rust_type(returned))
        })
        .collect();
    let (_, declared) = LIBRARY.split_once("extern \"C\" {").expect("declarations");
    let (declared, _) = declared.split_once("\n}").expect("the end of the declarations");
    let declared: Vec<String> = declared.split(';').map(squeezed).filter(|declaration| !declaration.is_empty()).collect();
    assert!(wanted.len() >= 28, "only {} functions were read in the header", wanted.len());
    assert_eq!(declared, wanted);
}

/// The numbers of a struct in C, in order: the name of each, or a list's name and how many it has.
fn fields(code: &str, name: &str) -> Vec<String> {
    let (_, after) = code.split_once(&format!("struct {name} {{")).expect("the struct");
    let (body, _) = after.split_once('}').expect("its end");
    let rows = |field: &str| field.replace("ZAHUPNIK_MOST_ROWS + 1", "MOST_ENTRIES").replace("ZAHUPNIK_MOST_ROWS", "MOST_ROWS");
    let members = body.split(';').map(squeezed).filter(|member| !member.is_empty());
    members
        .flat_map(|member| {
            let at = if member.starts_with("struct ") { member.rfind(' ') } else { member.find(' ') }.expect("a type and names");
            let kind = rust_type(&member[..at]);
            let field = |field: &str| match field.trim().split_once('[') {
                None => format!("pub {}: {kind}", field.trim()),
                Some((list, length)) => format!("pub {list}: [{kind}; {}]", rows(length.trim_end_matches(']'))),
            };
            member[at..].split(',').map(field).collect::<Vec<_>>()
        })
        .collect()
}

#[test]
fn records_have_the_fields_of_the_header() {
    let header = match read("zahupnik.h") {
        Some(header) => header,
        None => return,
    };
    let header = without_comments(&header);
    for (c, rust) in [("zahupnik_prepared", "Record"), ("zahupnik_change", "Change")] {
        let (_, after) = LIBRARY.split_once(&format!("pub struct {rust} {{")).expect("the struct");
        let (body, _) = after.split_once('}').expect("its end");
        let declared: Vec<String> = body.split(",\n").map(squeezed).filter(|field| !field.is_empty()).collect();
        assert_eq!(declared, fields(&header, c), "{rust} and {c}");
    }
}

/// What the header defines as a number.
fn defined(header: &str) -> BTreeMap<String, u32> {
    let lines = without_comments(header);
    let definitions = lines.lines().filter_map(|line| line.strip_prefix("#define ZAHUPNIK_")?.split_once(' '));
    let number = |text: &str| text.trim().trim_start_matches("UINT32_C(").trim_end_matches(')').parse().ok();
    definitions.filter_map(|(name, text)| Some((name.to_string(), number(text)?))).collect()
}

/// TextTooLong as TEXT_TOO_LONG.
fn header_name(rust: &str) -> String {
    let mut name = String::new();
    for letter in rust.chars() {
        if letter.is_uppercase() && !name.is_empty() {
            name.push('_');
        }
        name.push(letter.to_ascii_uppercase());
    }
    name
}

/// The name of a refusal, without its factor.
fn rust_name(refusal: Refusal) -> String {
    format!("{refusal:?}").split(' ').next().unwrap_or_default().to_string()
}

#[test]
fn numbers_and_names_are_those_of_the_header() {
    let header = match read("zahupnik.h") {
        Some(header) => header,
        None => return,
    };
    let mut wanted = defined(&header);
    let version = ["VERSION_MAJOR", "VERSION_MINOR", "VERSION_PATCH"].map(|part| wanted.remove(part).expect("the version"));
    let crate_version = ["MAJOR", "MINOR", "PATCH"].iter().zip([
        env!("CARGO_PKG_VERSION_MAJOR"),
        env!("CARGO_PKG_VERSION_MINOR"),
        env!("CARGO_PKG_VERSION_PATCH"),
    ]);
    for ((part, of_crate), of_header) in crate_version.zip(version) {
        assert_eq!(of_crate, of_header.to_string(), "{part} of the crate's version and of the header's");
    }
    assert_eq!(zahupnik::version(), version[0] * 10_000 + version[1] * 100 + version[2], "the library's version and the header's");

    let limits = [
        ("GREATEST_MODULUS", zahupnik::GREATEST_MODULUS as usize),
        ("MOST_ROWS", zahupnik::MOST_ROWS),
        ("MOST_ENTRIES", zahupnik::MOST_ENTRIES),
        ("LEAST_WORK", zahupnik::LEAST_WORK),
        ("MOST_TEXT", zahupnik::MOST_TEXT),
        ("LEAST_TEXT_OUTPUT", zahupnik::LEAST_TEXT_OUTPUT),
        ("LEAST_JOB_OUTPUT", zahupnik::LEAST_JOB_OUTPUT),
        ("FINISHED", 0),
    ];
    let limits = limits.map(|(name, number)| (name.to_string(), number as u32));
    let operations = Operation::ALL.map(|operation| (header_name(&format!("{operation:?}")), operation.number()));
    let refusals = refusals().into_iter().map(|refusal| (format!("REFUSED_{}", header_name(&rust_name(refusal))), refusal.number()));
    let given: BTreeMap<String, u32> = limits.into_iter().chain(operations).chain(refusals).collect();
    assert_eq!(given, wanted);
}

/// Every refusal that the crate has a name for, in the order of numbers.
fn refusals() -> Vec<Refusal> {
    let known = |refusal: &Refusal| !matches!(refusal, Refusal::Unknown(_));
    (1..).map_while(Refusal::from_number).take_while(known).collect()
}

#[test]
fn words_are_those_of_the_header() {
    let (header, words) = match (read("zahupnik.h"), read("zahupnik_refusal.h")) {
        (Some(header), Some(words)) => (header, words),
        _ => return,
    };
    let words = without_comments(&words);
    let said = |case: &str| {
        let (_, after) = words.split_once(case).unwrap_or_else(|| panic!("no words in the header for {case}"));
        after.split('"').nth(1).expect("words").to_string()
    };
    for refusal in refusals() {
        let name = header_name(&rust_name(refusal));
        assert_eq!(refusal.words(), said(&format!("case ZAHUPNIK_REFUSED_{name}:")));
        assert_eq!(refusal.to_string(), refusal.words());
        assert_eq!(refusal.number(), defined(&header)[&format!("REFUSED_{name}")]);
    }
    assert_eq!(words.matches("return \"").count(), refusals().len() + 2, "words for every refusal, for finished and for any other number");
    assert_eq!(Refusal::from_number(0), None);
    assert_eq!(Refusal::from_number(99), Some(Refusal::Unknown(99)));
    assert_eq!(Refusal::Unknown(99).words(), said("default:"));
    assert_eq!(Refusal::Unknown(99).to_string(), said("default:") + " (the number is 99)");
    assert_eq!(zahupnik::invert(15, 6).unwrap_err().to_string(), said("case ZAHUPNIK_REFUSED_NO_INVERSE:") + " (the factor is 3)");
}

/// For each function of the header the answers that its comment lists, 0 among them; none if the header is not there.
pub fn answers() -> Option<BTreeMap<String, BTreeSet<u32>>> {
    let header = read("zahupnik.h")?;
    let mut listed = BTreeSet::new();
    let mut answers = BTreeMap::new();
    for (comment, code) in parts(&header) {
        if let Some((_, refusals)) = comment.split_once("Refuse") {
            let words: Vec<&str> = refusals.split(' ').collect();
            let named = words.windows(2).filter(|pair| pair[0].contains(|letter: char| letter.is_ascii_uppercase()) && pair[0] != "With");
            let number = |pair: &[&str]| pair[1].trim_end_matches([',', '.', ';', ':']).parse().ok();
            listed = named.filter_map(number).chain([0]).collect();
        }
        for (_, name, _) in functions(&code) {
            answers.insert(name.trim_start_matches("zahupnik_").to_string(), listed.clone());
        }
    }
    Some(answers)
}
