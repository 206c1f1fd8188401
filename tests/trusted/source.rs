//! The Rattle source of a crate: structs and enums, and the contracts of its
//! public functions, methods and traits.

use crate::specs::{File, import};
use crate::words::{Word, words};
use std::collections::HashMap;

/// A struct or enum.
pub struct Struct {
    pub line: usize,
    pub lines: usize,
    /// Whether it is an enum, whose words are cases too.
    pub cases: bool,
    /// The words of its body.
    pub body: Vec<Word>,
    /// What its ghost fields say, each a group in braces.
    pub ghosts: Vec<Word>,
}

/// A public function, or what an `impl` or a trait says by a ghost member.
pub struct Function {
    /// Whether it is a call for C.
    pub exported: bool,
    /// Its parameters and answer, and for a method the head of its `impl`.
    pub signature: Vec<Word>,
    /// Its parameters that are types or constants, and what its `impl` or trait names.
    pub generics: Vec<String>,
    /// Its `requires` and `ensures`, each a group in braces.
    pub contract: Vec<Word>,
}

#[derive(Default)]
pub struct Source {
    pub path: String,
    pub structs: HashMap<String, Struct>,
    pub functions: Vec<Function>,
    /// Names used from other crates: the crate.
    pub used: HashMap<String, String>,
    /// What the contracts' names mean.
    pub ghost: File,
}

impl Source {
    /// Whether a name is that of a struct or enum, or is used from another crate.
    pub fn knows(&self, name: &str) -> bool {
        self.structs.contains_key(name) || self.used.contains_key(name)
    }
}

pub fn read(path: &str, text: &str) -> Result<Source, String> {
    let mut source = Source {
        path: path.to_string(),
        ..Source::default()
    };
    source.ghost.path = path.to_string();
    let lines: Vec<&str> = text.lines().collect();
    for (i, line) in lines.iter().enumerate() {
        if is_function(line) {
            source.functions.push(function(path, &lines, i, "")?);
        } else if is_block(line) {
            let block = whole(&lines, i);
            if let Some((_, head)) = line.split_once("trait ") {
                let name = head.split(['<', ':', ' ']).next().unwrap_or(head);
                source
                    .structs
                    .insert(name.to_string(), of_trait(i, block.len()));
            }
            members(&mut source, &block)?;
        } else {
            item(&mut source, &lines, i)?;
        }
    }
    Ok(source)
}

/// A trait: what it says is its members'.
fn of_trait(at: usize, lines: usize) -> Struct {
    Struct {
        line: at + 1,
        lines,
        cases: true,
        body: Vec::new(),
        ghosts: Vec::new(),
    }
}

/// Whether an `impl` or a trait begins at a line.
fn is_block(line: &str) -> bool {
    let plain = line.trim_start_matches("pub ");
    ["impl ", "impl<", "trait "]
        .iter()
        .any(|first| plain.starts_with(first))
}

/// What an `impl` or a trait says: its ghost members, its public methods, and all methods of a trait.
fn members(source: &mut Source, block: &[(usize, &str)]) -> Result<(), String> {
    let first = block[0].0;
    let head = block[0].1.trim_end_matches('{');
    let every = !head.starts_with("impl") || head.contains(" for ");
    // as if they stood at the margin; comments stay out, and a line keeps its number
    let last = block.last().map_or(first, |(number, _)| *number);
    let mut lines = vec![""; last];
    for (number, line) in &block[1..] {
        lines[number - 1] = line.strip_prefix("    ").unwrap_or("");
    }
    let path = source.path.clone();
    let mut functions = Vec::new();
    let mut bound = vec!["Self".to_string()];
    for at in first..last {
        let line = lines[at];
        if is_function(line) || (every && line.starts_with("fn ")) {
            functions.push(function(&path, &lines, at, head)?);
        } else if let Some(ghost) = line.strip_prefix("ghost ") {
            let name = ghost.split([':', ' ']).next().unwrap_or(ghost);
            bound.push(name.to_string());
            functions.push(Function {
                exported: false,
                signature: words(&[(at + 1, head)]),
                generics: generics(head),
                contract: ghosts(&lines, at),
            });
        }
    }
    // a member may name the block's type and its ghost members
    for mut function in functions {
        function.generics.extend(bound.clone());
        source.functions.push(function);
    }
    Ok(())
}

/// What stands in braces behind `ghost NAME`, up to the line that ends it.
fn ghosts(lines: &[&str], at: usize) -> Vec<Word> {
    let part = part(lines, at, |line| line.ends_with([';', ',']));
    let said = words(&part);
    let from = said.iter().position(|word| word.text == "{");
    let to = said.iter().rposition(|word| word.text == "}");
    match (from, to) {
        (Some(from), Some(to)) => said[from..=to].to_vec(),
        _ => Vec::new(),
    }
}

/// The names that a head declares in angle brackets: types and constants, no lifetimes.
fn generics(head: &str) -> Vec<String> {
    let from = head
        .find(['<', '(', '{'])
        .filter(|at| head[*at..].starts_with('<'));
    let Some(from) = from else {
        return Vec::new();
    };
    let mut depth = 0;
    let mut declared = vec![String::new()];
    for c in head[from..].chars() {
        match c {
            '<' => depth += 1,
            '>' => depth -= 1,
            ',' if depth == 1 => declared.push(String::new()),
            _ => declared.last_mut().unwrap_or(&mut String::new()).push(c),
        }
        if depth == 0 {
            break;
        }
    }
    let names = declared
        .iter()
        .map(|one| one.trim().trim_start_matches("const "));
    let names = names.map(|one| one.split([':', ' ']).next().unwrap_or(one).to_string());
    names
        .filter(|name| !name.is_empty() && !name.starts_with('\''))
        .collect()
}

/// What begins at a line, if it is no public function. What is not known might have a contract.
fn item(source: &mut Source, lines: &[&str], at: usize) -> Result<(), String> {
    let line = lines[at];
    let plain = line.trim_start_matches("pub ");
    let kind = ["struct ", "enum "]
        .iter()
        .find_map(|kind| plain.strip_prefix(kind));
    if let Some(used) = line.strip_prefix("ghost use ") {
        import(&mut source.ghost, used);
    } else if let Some(used) = plain.strip_prefix("use ") {
        let used = used
            .strip_suffix(';')
            .ok_or(not_understood(&source.path, at))?;
        source.used.extend(names(used));
    } else if let Some(head) = kind {
        let name = head.split([' ', '(', '{', '<']).next().unwrap_or(head);
        let part = whole(lines, at);
        let fields: Vec<_> = part[1..].to_vec();
        let ghost = |line: &str| {
            line.trim_start()
                .trim_start_matches("pub ")
                .starts_with("ghost ")
        };
        let said = fields.iter().filter(|(_, line)| ghost(line));
        let declared = Struct {
            line: at + 1,
            lines: part.len(),
            cases: plain.starts_with("enum "),
            ghosts: said
                .flat_map(|(number, _)| ghosts(lines, number - 1))
                .collect(),
            body: words(&fields),
        };
        source.structs.insert(name.to_string(), declared);
    } else if !is_inner(line) {
        return Err(not_understood(&source.path, at));
    }
    Ok(())
}

fn not_understood(path: &str, at: usize) -> String {
    format!("{path}:{}: not understood", at + 1)
}

/// The names of a `use`, each with its crate: `crate::Name` or `crate::{Name, Name}`.
fn names(used: &str) -> Vec<(String, String)> {
    let (place, names) = match used.split_once("::{") {
        Some((place, names)) => (place, names.trim_end_matches('}')),
        None => used.rsplit_once("::").unwrap_or(("", used)),
    };
    let names = names.split(',').map(str::trim);
    names
        .map(|name| (name.to_string(), place.to_string()))
        .collect()
}

/// Whether a line has neither a type nor a contract of a public function: it is empty, a comment, an
/// attribute, further on in what began above it, or begins a function of the crate's own or a constant.
fn is_inner(line: &str) -> bool {
    let first = ["//", "#", " ", "{", "}", ")", "]", "fn "];
    let plain = line.trim_start_matches("pub ");
    let constant = plain.starts_with("const ") && !plain.contains(" fn ");
    line.is_empty() || first.iter().any(|first| line.starts_with(first)) || constant
}

fn is_contract(line: &str) -> bool {
    let line = line.trim_start();
    line.starts_with("ensures ") || line.starts_with("requires ")
}

fn is_function(line: &str) -> bool {
    line.starts_with("pub fn ") || line.starts_with("pub extern \"C\" fn ")
}

fn function(path: &str, lines: &[&str], at: usize, block: &str) -> Result<Function, String> {
    let part = head(lines, at, block.contains("trait "));
    let split = part.iter().position(|(_, line)| is_contract(line));
    let split = split.unwrap_or(part.len());
    let mut signature = words(&[(at + 1, block)]);
    signature.extend(words(&part[..split]));
    let own = lines[at].split_once("fn ").map_or("", |(_, own)| own);
    let mut declared = generics(
        block
            .trim_start_matches("impl")
            .trim_start_matches("pub trait "),
    );
    declared.extend(generics(own));
    Ok(Function {
        exported: lines[at].starts_with("pub extern"),
        signature,
        generics: declared,
        contract: groups(words(&part[split..])).ok_or(not_understood(path, at))?,
    })
}

/// The clauses of a contract without what stands before each one's brace: `requires` or `ensures`, and a
/// name if it has one. None if something else stands there, or a brace is open at the end.
fn groups(contract: Vec<Word>) -> Option<Vec<Word>> {
    let mut groups = Vec::new();
    let mut before: Vec<String> = Vec::new();
    let mut depth = 0;
    for word in contract {
        if depth == 0 && word.text == "{" {
            let clause = matches!(before.first()?.as_str(), "requires" | "ensures");
            if !clause || before.len() > 2 {
                return None;
            }
            before.clear();
        }
        match word.text.as_str() {
            "{" => depth += 1,
            "}" => depth -= 1,
            // behind the head of a trait's method
            ";" if depth == 0 => {}
            _ if depth == 0 => before.push(word.text.clone()),
            _ => {}
        }
        if depth > 0 || word.text == "}" {
            groups.push(word);
        }
    }
    (depth == 0 && before.is_empty()).then_some(groups)
}

/// The lines of a struct, up to its brace at the margin.
fn whole<'a>(lines: &[&'a str], from: usize) -> Vec<(usize, &'a str)> {
    part(lines, from, |line| {
        line.ends_with('}') && !line.starts_with(' ')
    })
}

/// The lines of a function's head: its signature and its contract. The body's brace stands alone behind a
/// contract, and at the end of a signature that has none; a trait's method has none.
fn head<'a>(lines: &[&'a str], from: usize, of_trait: bool) -> Vec<(usize, &'a str)> {
    if of_trait {
        return part(lines, from, |line| line.ends_with(';'));
    }
    let contract = lines[from..].iter().position(|line| is_contract(line));
    let body = lines[from..]
        .iter()
        .position(|line| line.ends_with(" {") && !is_contract(line));
    let bare = body.is_some_and(|body| contract.is_none_or(|contract| body < contract));
    let mut part = part(lines, from, |line| {
        line == "{" || (bare && line.ends_with(" {"))
    });
    if part.last().is_some_and(|(_, line)| *line == "{") {
        part.pop();
    }
    part
}

fn part<'a>(lines: &[&'a str], from: usize, last: impl Fn(&str) -> bool) -> Vec<(usize, &'a str)> {
    let mut part = Vec::new();
    for (i, line) in lines.iter().enumerate().skip(from) {
        if !line.trim_start().starts_with("//") {
            part.push((i + 1, *line));
        }
        if last(line) {
            break;
        }
    }
    part
}

/// The types that words name, each with its crate if a path says it.
pub fn types(words: &[Word]) -> Vec<(Option<String>, String)> {
    let own = |c: char| !(c.is_alphanumeric() || c == '_' || c == ':');
    let paths = words.iter().flat_map(|word| word.text.split(own));
    let named = paths.filter_map(|path| {
        let (place, name) = match path.rsplit_once("::") {
            Some((place, name)) => (Some(place.to_string()), name),
            None => (None, path.trim_end_matches(':')),
        };
        let upper = name.starts_with(|c: char| c.is_ascii_uppercase());
        upper.then(|| (place, name.to_string()))
    });
    named.collect()
}
