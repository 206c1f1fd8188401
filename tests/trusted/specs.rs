//! The declarations of a file of specs/ or proofs/: what each is called, where
//! it stands, and its words.

use crate::words::{Scopes, Word, is_name, without_comment, words};
use std::collections::HashMap;

#[derive(Clone, Copy, PartialEq, Debug)]
pub enum Kind {
    /// A module's parameters.
    Module,
    /// `abbrev`, `unfoldable`, or neither: then a theorem, or a definition that stays folded.
    Plain,
    Data,
    Record,
}

/// One declaration. A theorem is one whose clauses are never looked at.
#[derive(Debug)]
pub struct Declaration {
    pub kind: Kind,
    pub name: String,
    pub public: bool,
    /// Whether it says `abbrev` or `unfoldable`.
    pub marked: bool,
    pub line: usize,
    /// The words of its type, of a record's or data's body, or of a module's parameters.
    pub head: Vec<Word>,
    /// The words of each clause.
    pub clauses: Vec<Vec<Word>>,
    pub head_lines: usize,
    pub lines: usize,
    pub constructors: Vec<String>,
    /// The modules that it stands in, as indices of the file's declarations.
    pub within: Vec<usize>,
}

/// Where an imported name comes from.
#[derive(Clone, Debug)]
pub struct Import {
    pub path: String,
    pub name: String,
}

#[derive(Default, Debug)]
pub struct File {
    pub path: String,
    /// By the name that the file uses.
    pub imports: HashMap<String, Import>,
    /// Whole modules, by the name that the file uses.
    pub aliases: HashMap<String, String>,
    pub declarations: Vec<Declaration>,
}

/// A line with its number and how far it is indented.
struct Line {
    number: usize,
    indent: usize,
    text: String,
}

pub fn read(path: &str, text: &str) -> Result<File, String> {
    let mut file = File {
        path: path.to_string(),
        ..File::default()
    };
    let mut lines = Vec::new();
    for (i, text) in text.lines().enumerate() {
        let code = without_comment(text);
        if code.trim().is_empty() {
            continue;
        }
        let plain = code.trim_start().trim_start_matches("pub ");
        if let Some(used) = plain.strip_prefix("use ") {
            import(&mut file, used);
        } else if !plain.starts_with("mod ") {
            lines.push(Line {
                number: i + 1,
                indent: code.len() - code.trim_start().len(),
                text: code.to_string(),
            });
        }
    }
    block(&mut file, &lines, &[])?;
    Ok(file)
}

/// `PATH.{a, b as c}`, `PATH as name`.
pub fn import(file: &mut File, used: &str) {
    let used = used.trim_end_matches(';');
    if let Some((path, names)) = used.split_once(".{") {
        for name in names.trim_end_matches('}').split(',').map(str::trim) {
            let (name, own) = name.split_once(" as ").unwrap_or((name, name));
            let import = Import {
                path: path.to_string(),
                name: name.to_string(),
            };
            file.imports.insert(own.to_string(), import);
        }
    } else if let Some((path, own)) = used.split_once(" as ") {
        file.aliases.insert(own.to_string(), path.to_string());
    }
}

/// The lines of a block: each piece begins at the block's indentation.
fn block(file: &mut File, lines: &[Line], within: &[usize]) -> Result<(), String> {
    let Some(indent) = lines.first().map(|line| line.indent) else {
        return Ok(());
    };
    let mut at = 0;
    while at < lines.len() {
        let goes_on =
            |l: &&Line| l.indent > indent || l.text.trim_start().starts_with([')', '}', ']']);
        let behind = lines[at + 1..].iter().take_while(goes_on).count();
        piece(file, &lines[at..at + 1 + behind], within)?;
        at += 1 + behind;
    }
    Ok(())
}

fn all_words(lines: &[Line]) -> Vec<Word> {
    let lines: Vec<_> = lines.iter().map(|l| (l.number, l.text.as_str())).collect();
    words(&lines)
}

fn piece(file: &mut File, lines: &[Line], within: &[usize]) -> Result<(), String> {
    let all = all_words(lines);
    let marks = ["pub", "abbrev", "unfoldable", "private", "opaque"];
    let skipped = all
        .iter()
        .take_while(|w| marks.contains(&w.text.as_str()))
        .count();
    let has = |mark: &str| all[..skipped].iter().any(|w| w.text == mark);
    let Some(first) = all.get(skipped) else {
        return Err(format!("{}:{}: not understood", file.path, lines[0].number));
    };
    let mut declaration = Declaration {
        kind: Kind::Plain,
        name: first.text.clone(),
        public: has("pub"),
        marked: has("abbrev") || has("unfoldable"),
        line: first.line,
        head: all[skipped + 1..].to_vec(),
        clauses: Vec::new(),
        head_lines: lines.len(),
        lines: lines.len(),
        constructors: Vec::new(),
        within: within.to_vec(),
    };
    match first.text.as_str() {
        "unfolding" | "infix" | "infixl" | "infixr" => return Ok(()),
        "module" => {
            let header = 1 + lines
                .iter()
                .position(|l| l.text.ends_with(" where"))
                .unwrap_or(0);
            declaration.kind = Kind::Module;
            declaration.head = all_words(&lines[..header])[2..].to_vec();
            declaration.lines = header;
            declaration.head_lines = header;
            let mut inside = within.to_vec();
            inside.push(file.declarations.len());
            file.declarations.push(declaration);
            return block(file, &lines[header..], &inside);
        }
        "data" | "record" => {
            declaration.kind = if first.text == "data" {
                Kind::Data
            } else {
                Kind::Record
            };
            declaration.name = all[skipped + 1].text.clone();
            declaration.head = all[skipped + 2..].to_vec();
            declaration.constructors = members(lines);
        }
        _ if all.get(skipped + 1).is_some_and(|w| w.text == ":") => {
            declaration.head.remove(0);
        }
        name => {
            // a clause of the declaration before: `name a b =`, or `a + b =` for `◌+◌`
            let last = file.declarations.last_mut();
            let infix = |d: &Declaration| d.name.starts_with('◌') && d.name.ends_with('◌');
            let Some(last) = last.filter(|d| d.name == name || infix(d)) else {
                return Err(format!("{}:{}: {name} has no type", file.path, first.line));
            };
            let from = usize::from(last.name == name);
            last.clauses.push(all[from..].to_vec());
            last.lines += lines.len();
            return Ok(());
        }
    }
    file.declarations.push(declaration);
    Ok(())
}

/// The constructors of data, or the fields of a record.
fn members(lines: &[Line]) -> Vec<String> {
    let header = 1 + lines
        .iter()
        .position(|l| l.text.ends_with(" where"))
        .unwrap_or(0);
    let Some(indent) = lines.get(header).map(|l| l.indent) else {
        return Vec::new();
    };
    let members = lines[header..].iter().filter(|l| l.indent == indent);
    members
        .filter_map(|l| {
            l.text
                .trim_start()
                .trim_start_matches("pub ")
                .split(' ')
                .next()
        })
        .map(str::to_string)
        .collect()
}

impl Declaration {
    /// The free names of the declaration's head, and what it binds for its clauses or body.
    pub fn head_names(&self, scopes: &mut Scopes) -> Vec<Word> {
        if matches!(self.kind, Kind::Data | Kind::Record) {
            for member in &self.constructors {
                scopes.bind(member);
            }
            scopes.bind("pub");
        }
        scopes.free(&self.head)
    }

    /// The free names of a clause. On its left stand the name, constructors, and names that it binds.
    pub fn clause_names(
        &self,
        clause: &[Word],
        mut scopes: Scopes,
        constructor: &dyn Fn(&Word) -> bool,
    ) -> Vec<Word> {
        let left = left_side(clause);
        let mut free = Vec::new();
        for word in &clause[..left] {
            if constructor(word) {
                free.push(word.clone());
            } else if is_name(&word.text) {
                scopes.bind(&word.text);
            }
        }
        let right = &clause[left..];
        for (i, word) in right.iter().enumerate() {
            let typed = right.get(i + 1).is_some_and(|w| w.text == ":");
            let local = right[..i].iter().any(|w| w.text == "where");
            if local && typed {
                scopes.bind(&word.text);
            }
        }
        free.extend(scopes.free(right));
        free
    }
}

/// How many words stand up to a clause's `=`, outside brackets.
fn left_side(clause: &[Word]) -> usize {
    let mut depth = 0;
    for (i, word) in clause.iter().enumerate() {
        match word.text.as_str() {
            "(" | "{" => depth += 1,
            ")" | "}" => depth -= 1,
            "=" if depth == 0 => return i,
            _ => {}
        }
    }
    clause.len()
}
