//! header [FILE]: compares include/mop.h, or another file, with the Rattle
//! source, as text: each exported call's parameters and answer, and each
//! struct's fields, by name, type and order. A struct of the source is the one
//! that the header has in the same place. The codes of its enum are those at
//! the writers, the image drawn in it is the rehearsal's first one, and a number
//! of its comments with a comma in it is that of a name. Ends with 1 on any
//! difference.
//!
//! header --fields [FILE]: prints a line for each struct and each field, for
//! tests/layout/layout.c.

use std::collections::{BTreeMap, BTreeSet};
use std::env;
use std::fs;
use std::process::ExitCode;

/// Parameters whose names differ on purpose: `data` is reserved in Rattle.
const NAMES: [(&str, &str); 2] = [("bytes", "data"), ("size", "memory_size")];

/// What is compared: a call or struct, and its parts, each a type and a name.
type Parts = BTreeMap<String, Vec<String>>;

fn main() -> ExitCode {
    let mut arguments: Vec<String> = env::args().skip(1).collect();
    let list = arguments.first().is_some_and(|first| first == "--fields");
    if list {
        arguments.remove(0);
    }
    let whole = text(arguments.first().map_or("include/mop.h", |path| path));
    if list {
        print_fields(&whole);
        return ExitCode::SUCCESS;
    }
    let (header, image) = (header(&whole), drawn_image(&whole));
    let (source, structs) = source(&header);
    let mut different = differences("a call or struct", &header, &source);
    different += differences("a code", &codes(&whole), &written_codes(&whole));
    different += differences("the image", &image, &first_image());
    different += unnamed(&whole);
    let calls = source.len() - structs;
    println!("header: {calls} calls and {structs} structs, compared with the source");
    ExitCode::from(u8::from(different > 0))
}

/// How many parts differ, or stand on one side alone; prints them.
fn differences(what: &str, header: &Parts, other: &Parts) -> usize {
    let names: BTreeSet<&String> = header.keys().chain(other.keys()).collect();
    let differ = |name: &&&String| header.get(**name) != other.get(**name);
    let different: Vec<&&String> = names.iter().filter(differ).collect();
    for name in &different {
        println!("DIFFERENCE in {what}: {name}");
        println!("  header {:?}", header.get(**name));
        println!("  beside {:?}", other.get(**name));
    }
    different.len()
}

fn text(path: &str) -> String {
    fs::read_to_string(path).unwrap_or_else(|error| panic!("{path}: {error}"))
}

/// The text between two marks, from each occurrence of the first on.
fn between<'a>(text: &'a str, from: &'a str, to: &'a str) -> impl Iterator<Item = &'a str> {
    let parts = text.split(from).skip(1);
    parts.map(move |part| part.split_once(to).map_or(part, |(part, _)| part))
}

/// Words with one space between them.
fn words(text: &str) -> String {
    text.split_whitespace().collect::<Vec<_>>().join(" ")
}

// ---- the header

fn without_comments(text: &str) -> String {
    let mut parts = text.split("/*");
    let first = parts.next().unwrap_or("");
    let rest = parts.map(|part| part.split_once("*/").map_or("", |p| p.1));
    first.to_string() + &rest.collect::<String>()
}

/// The structs in their order, each with its fields.
fn structs(without_comments: &str) -> Vec<(String, Vec<String>)> {
    let structs = between(without_comments, "typedef struct ", "\n}").map(|body| {
        let (name, fields) = body.split_once('{').unwrap_or((body, ""));
        let fields = fields.split(';').map(words);
        let fields = fields.filter(|field| !field.is_empty());
        (name.trim().to_string(), fields.collect())
    });
    structs.collect()
}

fn print_fields(text: &str) {
    for (name, fields) in structs(&without_comments(text)) {
        println!("SIZE({name})");
        for field in fields.iter().filter_map(|field| field.rsplit(' ').next()) {
            let field = field.split('[').next().unwrap_or(field);
            println!("PLACE({name}, {field})");
        }
    }
}

/// The header's names, each with its number.
fn numbers(text: &str) -> BTreeMap<&str, &str> {
    let named = text
        .lines()
        .filter_map(|line| line.trim().split_once(" = "));
    named
        .map(|(name, rest)| (name, rest.split([',', ' ']).next().unwrap_or("")))
        .collect()
}

/// A field, the length of an array as a number.
fn with_number(field: &str, numbers: &BTreeMap<&str, &str>) -> String {
    let Some((name, length)) = field.split_once('[') else {
        return field.to_string();
    };
    let length = length.trim_end_matches(']');
    format!("{name}[{}]", numbers.get(length).unwrap_or(&length))
}

/// The codes of the enum but MOP_CODE_NONE: the writer's name, then the number
/// and what it is called.
fn codes(text: &str) -> Parts {
    let body = between(text, "enum mop_code {", "};").next().unwrap_or("");
    let codes = body.lines().filter_map(|line| {
        let (name, rest) = line.trim().strip_prefix("MOP_CODE_")?.split_once(" = ")?;
        let (number, called) = rest.split_once("/*")?;
        let number = number.trim().trim_end_matches(',');
        let called = words(called.trim_end_matches("*/"));
        let writer = format!("mop_write_{}", name.to_lowercase());
        (name != "NONE").then(|| (writer, vec![format!("Code {number}, {called}")]))
    });
    codes.collect()
}

/// The same, as the comment at each writer says it.
fn written_codes(text: &str) -> Parts {
    let writers = between(text, "/* Code ", "(").filter_map(|part| {
        let (comment, name) = part.rsplit_once("mop_written ")?;
        let (said, _) = comment.split_once(':')?;
        Some((name.to_string(), vec![format!("Code {said}")]))
    });
    writers.collect()
}

/// The bytes of the image that is drawn in the header.
fn drawn_image(text: &str) -> Parts {
    let drawn = between(text, "which starts there:\n", "Refused").next();
    let rows = drawn.unwrap_or("").lines();
    let bytes = rows.flat_map(|row| row.split_whitespace().skip(1).take_while(hexadecimal));
    Parts::from([("bytes".to_string(), vec![bytes.collect()])])
}

fn hexadecimal(word: &&str) -> bool {
    word.len() == 2 && word.bytes().all(|byte| byte.is_ascii_hexdigit())
}

/// The rehearsal's first image.
fn first_image() -> Parts {
    let text = text("examples/first.txt");
    let line = text.lines().nth(1).unwrap_or("");
    Parts::from([("bytes".to_string(), vec![line.to_string()])])
}

/// How many numbers such as 1,490 are neither that of a name nor the number of
/// addresses; prints them.
fn unnamed(text: &str) -> usize {
    let named = numbers(text).into_values();
    let named: BTreeSet<&str> = named.chain(["4294967296"]).collect();
    let not_digit = |letter: char| !letter.is_ascii_digit() && letter != ',';
    let written = text.split(not_digit).map(|word| word.trim_matches(','));
    let unnamed =
        |number: &&str| number.contains(',') && !named.contains(number.replace(',', "").as_str());
    let unnamed: Vec<&str> = written.filter(unnamed).collect();
    for number in &unnamed {
        println!("DIFFERENCE: {number} in a comment is the number of no name");
    }
    unnamed.len()
}

fn header(text: &str) -> Parts {
    let (without_comments, numbers) = (without_comments(text), numbers(text));
    let mut parts = Parts::new();
    for (name, fields) in structs(&without_comments) {
        let fields = fields.iter().map(|field| with_number(field, &numbers));
        parts.insert(name, fields.collect());
    }
    for statement in without_comments.split(';').map(words) {
        let Some((head, parameters)) = statement.split_once('(') else {
            continue;
        };
        if head.contains("static inline ") {
            continue; // no call of the library
        }
        let mut head = head.rsplit(' ');
        let (Some(name), Some(answer)) = (head.next(), head.next()) else {
            continue;
        };
        if name.starts_with("mop_") {
            parts.insert(name.to_string(), header_call(parameters, answer));
        }
    }
    parts
}

/// A pointer and its length are one part.
fn header_call(parameters: &str, answer: &str) -> Vec<String> {
    let mut parts: Vec<String> = Vec::new();
    for parameter in parameters.trim_end_matches(')').split(',').map(words) {
        let length_of = parameter
            .strip_prefix("size_t ")
            .and_then(|p| p.strip_suffix("_length"));
        let last = parts.last().cloned().unwrap_or_default();
        match length_of {
            Some(name) if last.ends_with(&format!("*{name}")) => {
                parts.pop();
                parts.push(format!("{last} and length"));
            }
            _ if parameter == "void" => {}
            _ => parts.push(parameter),
        }
    }
    parts.push(answer.to_string());
    parts
}

// ---- the Rattle source

/// A struct: its crate, and its name there.
type Struct = (String, String);

/// A parameter or field, or an answer, which has no name.
struct Part {
    name: String,
    /// Without the `&` or `&mut` of what is lent, and of an array one element's.
    kind: String,
    lent: &'static str,
    /// An array's length, with brackets.
    length: String,
    /// The struct that it is, if it is one.
    found: Option<Struct>,
}

/// The exported calls, then the structs that they have and so on, under their
/// names in the header; and how many structs there are.
fn source(header: &Parts) -> (Parts, usize) {
    let mut all = calls();
    let mut names: BTreeMap<Struct, String> = BTreeMap::new();
    let mut next = 0;
    while next < all.len() {
        let (name, parts) = &all[next];
        let in_header = header.get(name).into_iter().flatten();
        let mut structs = Vec::new();
        for (part, declared) in parts.iter().zip(in_header) {
            let (Some(found), Some(name)) = (&part.found, declared.split(' ').next()) else {
                continue;
            };
            if !names.contains_key(found) && !names.values().any(|other| other == name) {
                names.insert(found.clone(), name.to_string());
                structs.push((name.to_string(), fields(found)));
            }
        }
        all.extend(structs);
        next += 1;
    }
    let in_c = |parts: Vec<Part>| parts.iter().map(|part| part.in_c(&names)).collect();
    let parts = all.into_iter().map(|(name, parts)| (name, in_c(parts)));
    (parts.collect(), names.len())
}

fn library(name: &str) -> String {
    text(&format!("crates/{name}/src/lib.rt"))
}

/// The crates that export calls: those that crates.txt makes a library for C of, `NAME staticlib: ..`.
fn exports() -> Vec<String> {
    let text = text("crates.txt");
    let lines = text.lines().filter(|line| !line.starts_with('#'));
    let names = lines.filter_map(|line| line.split_once(':')?.0.strip_suffix(" staticlib"));
    names.map(str::to_string).collect()
}

fn calls() -> Vec<(String, Vec<Part>)> {
    exports().iter().flat_map(|place| calls_of(place)).collect()
}

/// A function for C: it keeps its name in the library only if `no_mangle` stands before it.
const CALL: &str = "pub extern \"C\" fn ";
const EXPORTED: &str = "#[unsafe(no_mangle)]\n";

fn calls_of(place: &str) -> Vec<(String, Vec<Part>)> {
    let source = library(place);
    let before = source.split(CALL);
    let calls = before.zip(between(&source, CALL, "\n{"));
    let calls = calls.map(|(before, call)| {
        let signature = signature(call);
        let (name, rest) = signature.split_once('(').unwrap_or((signature, ""));
        let (parameters, answer) = rest.split_once(") ->").unwrap_or((rest, ""));
        let mut parts = listed(place, parameters);
        parts.iter_mut().for_each(Part::rename);
        parts.push(Part::new(place, &format!(": {}", answer.trim())));
        let exported = before.ends_with(EXPORTED);
        let name = if exported {
            name.to_string()
        } else {
            format!("{name}, under another name")
        };
        (name, parts)
    });
    calls.collect()
}

/// A function's parameters and answer, without its clauses.
fn signature(call: &str) -> &str {
    let ends = ["\n    requires ", "\n    ensures "].map(|clause| call.find(clause));
    let end = ends.into_iter().flatten().min();
    &call[..end.unwrap_or(call.len())]
}

/// The fields of a struct that is laid out as C does it: `repr(C)` is among its attributes.
fn fields((place, name): &Struct) -> Vec<Part> {
    let source = library(place);
    let (before, rest) = source
        .split_once(&format!("\npub struct {name} {{"))
        .unwrap_or_default();
    let mut attributes = before
        .lines()
        .rev()
        .take_while(|line| line.starts_with("#["));
    if !attributes.any(|line| line == "#[repr(C)]") {
        return Vec::new();
    }
    listed(place, rest.split_once('}').map_or(rest, |(body, _)| body))
}

fn listed(place: &str, parts: &str) -> Vec<Part> {
    let parts = parts.split(',').map(words).filter(|part| !part.is_empty());
    parts.map(|part| Part::new(place, &part)).collect()
}

/// Where a struct is declared: in this crate, or where its path or a `use` leads.
fn declared(place: &str, kind: &str) -> Struct {
    if let Some((place, name)) = kind.rsplit_once("::") {
        return declared(place, name);
    }
    let source = library(place);
    if source.contains(&format!("\npub struct {kind} {{")) {
        return (place.to_string(), kind.to_string());
    }
    let used = source.lines().find_map(|line| {
        let path = line.trim_start_matches("pub ").strip_prefix("use ")?;
        used_from(path.strip_suffix(';')?, kind)
    });
    let used = used.unwrap_or_else(|| panic!("crates/{place}: no struct {kind}"));
    declared(used, kind)
}

/// The crate of a `use`, `crate::Name` or `crate::{Name, Name}`, if it has the name.
fn used_from<'a>(path: &'a str, kind: &str) -> Option<&'a str> {
    let (place, names) = path.rsplit_once("::")?;
    let names = names.trim_start_matches('{').trim_end_matches('}');
    names.split(", ").any(|name| name == kind).then_some(place)
}

impl Part {
    /// A part as it is declared in a crate.
    fn new(place: &str, text: &str) -> Part {
        let (name, kind) = text.split_once(": ").unwrap_or((text, ""));
        let name = name.trim_start_matches("pub ");
        let (lent, kind) = ["&mut ", "&"]
            .iter()
            .find_map(|lent| Some((*lent, kind.strip_prefix(lent)?)))
            .unwrap_or(("", kind));
        let array = kind
            .strip_prefix('[')
            .and_then(|kind| kind.split_once("; "));
        let (kind, length) = match array {
            Some((kind, length)) => (kind, format!("[{length}")),
            None => (kind, String::new()),
        };
        let plain = ["[u8]", "u8", "u16", "u32", "u64", "usize"].contains(&kind);
        Part {
            name: name.to_string(),
            kind: kind.to_string(),
            lent,
            length,
            found: (!plain).then(|| declared(place, kind)),
        }
    }

    /// Takes a parameter's name in the header.
    fn rename(&mut self) {
        if let Some((_, header)) = NAMES.iter().find(|(source, _)| *source == self.name) {
            self.name = header.to_string();
        }
    }

    /// As C declares it.
    fn in_c(&self, names: &BTreeMap<Struct, String>) -> String {
        let kind = match (&self.found, self.kind.as_str()) {
            (Some(found), kind) => names.get(found).map_or(kind, |name| name).to_string(),
            (None, "[u8]") => "uint8_t".to_string(),
            (None, "usize") => "size_t".to_string(),
            (None, number) => format!("uint{}_t", number.trim_start_matches('u')),
        };
        let star = if self.lent.is_empty() { "" } else { "*" };
        let constant = if self.lent == "&" { "const " } else { "" };
        let length = if self.kind == "[u8]" {
            " and length"
        } else {
            &self.length
        };
        words(&format!("{constant}{kind} {star}{}{length}", self.name))
    }
}
