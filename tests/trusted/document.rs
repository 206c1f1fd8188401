//! docs/TRUSTED.md: its marks, and what is written between them.

use crate::world::{Entry, text};
use std::fmt::Write;

/// A mark, `<!-- KIND: words -->`, and the text up to the next one.
struct Part {
    kind: String,
    words: Vec<String>,
    body: String,
}

pub struct Document {
    head: String,
    parts: Vec<Part>,
}

impl Document {
    pub fn read(text: &str) -> Result<Document, String> {
        let mut document = Document {
            head: String::new(),
            parts: Vec::new(),
        };
        for line in text.lines() {
            let mark = line
                .strip_prefix("<!-- ")
                .and_then(|l| l.strip_suffix(" -->"));
            match (mark, document.parts.last_mut()) {
                (Some(mark), _) => {
                    let (kind, words) = mark.split_once(": ").unwrap_or((mark, ""));
                    if !["theorems", "sums", "library", "programs", "end"].contains(&kind) {
                        return Err(format!("docs/TRUSTED.md: no such mark: {mark}"));
                    }
                    document.parts.push(Part {
                        kind: kind.to_string(),
                        words: words.split(' ').map(str::to_string).collect(),
                        body: String::new(),
                    });
                }
                (None, Some(part)) => part.body += &format!("{line}\n"),
                (None, None) => document.head += &format!("{line}\n"),
            }
        }
        Ok(document)
    }

    /// The theorems that the document names: `- CRATE: a, b`, each a theorem of the crate, or a file
    /// of it for all its public theorems.
    pub fn theorems(&self) -> Vec<(&str, &str)> {
        let parts = self.parts.iter().filter(|part| part.kind == "theorems");
        let lines = parts.flat_map(|part| part.body.lines());
        let listed = lines.filter_map(|line| line.strip_prefix("- ")?.split_once(": "));
        listed
            .flat_map(|(place, names)| names.split(", ").map(move |name| (place, name)))
            .collect()
    }

    /// Whether the document names a file for all its theorems: then its definitions may stand beside them.
    pub fn names_file(&self, path: &str) -> bool {
        let theorems = self.theorems();
        let mut files = theorems.iter().filter(|(_, name)| name.ends_with(".antt"));
        files.any(|(place, name)| path == format!("crates/{place}/proofs/{name}"))
    }

    /// The document with the list that was found.
    pub fn filled(&self, found: &[Entry], crates: &[String]) -> Result<String, String> {
        for entry in found {
            let named = self.parts.iter().flat_map(|part| &part.words);
            if named.filter(|name| *name == place(entry)).count() != 1 {
                return Err(format!(
                    "docs/TRUSTED.md: {} is in no group, or in two",
                    place(entry)
                ));
            }
        }
        let mut text = self.head.clone();
        for part in &self.parts {
            let words = part.words.join(" ");
            let mark = if words.is_empty() {
                part.kind.clone()
            } else {
                format!("{}: {words}", part.kind)
            };
            _ = writeln!(text, "<!-- {mark} -->");
            match part.kind.as_str() {
                "library" | "programs" => {
                    if let Some(name) = part.words.iter().find(|name| !crates.contains(name)) {
                        return Err(format!("docs/TRUSTED.md: there is no crate {name}"));
                    }
                    text += &self.list(found, &part.words, part.kind == "library");
                }
                "sums" => _ = write!(text, "\n{}.\n\n", self.sums(found)),
                _ => text += &part.body,
            }
        }
        Ok(text)
    }

    /// The lines of such entries as are in one kind of groups.
    fn sum(&self, found: &[Entry], kind: &str, such: impl Fn(&Entry) -> bool) -> usize {
        let parts = self.parts.iter().filter(|part| part.kind == kind);
        let names: Vec<&String> = parts.flat_map(|part| &part.words).collect();
        let own = found
            .iter()
            .filter(|entry| names.iter().any(|name| *name == place(entry)));
        own.filter(|entry| such(entry))
            .map(|entry| entry.lines)
            .sum()
    }

    pub fn sums(&self, found: &[Entry]) -> String {
        let outer = self.sum(found, "library", |entry| !entry.inner && !entry.statement);
        let statements = self.sum(found, "library", |entry| entry.statement);
        let inner = self.sum(found, "library", |entry| entry.inner);
        let programs = self.sum(found, "programs", |_| true);
        format!(
            "{outer} lines of definitions for the calls for C and the theorems, {statements} of the theorems' \
             statements, {inner} for the functions inside the library; {programs} for the programs"
        )
    }

    /// The entries of some crates, file by file: line, count of lines, name.
    fn list(&self, found: &[Entry], crates: &[String], library: bool) -> String {
        let theorems = self.theorems();
        let mut text = String::from("\n");
        let mut sum = 0;
        for name in crates {
            let mut own: Vec<&Entry> = found.iter().filter(|entry| place(entry) == name).collect();
            own.sort_by_key(|entry| {
                let order = order(name, &entry.path, &theorems);
                (order, entry.path.clone(), entry.line)
            });
            let mut path = "";
            for entry in own {
                if path != entry.path {
                    path = &entry.path;
                    _ = writeln!(text, "    {path}");
                }
                let inside = if entry.inner && library {
                    "  (inside)"
                } else {
                    ""
                };
                let (line, lines, name) = (entry.line, entry.lines, &entry.name);
                _ = writeln!(text, "    {line:>6} {lines:>4}  {name}{inside}");
                sum += entry.lines;
            }
        }
        _ = write!(text, "    {sum:>11}  lines\n\n");
        text
    }
}

/// The crate of an entry.
fn place(entry: &Entry) -> &str {
    entry.path.split('/').nth(1).unwrap_or("")
}

/// A file's place in its crate: the source; then specs/, as Lib.antt lists it; then the theorems' files of
/// proofs/, as the document names them.
fn order(name: &str, path: &str, theorems: &[(&str, &str)]) -> (usize, usize) {
    if let Some(file) = path.strip_prefix(&format!("crates/{name}/proofs/")) {
        let at = theorems.iter().position(|theorem| *theorem == (name, file));
        return (2, at.unwrap_or(0));
    }
    let Some(file) = path.strip_prefix(&format!("crates/{name}/specs/")) else {
        return (0, 0);
    };
    let library = text(&format!("crates/{name}/specs/Lib.antt")).unwrap_or_default();
    let line = format!("pub mod {}", file.trim_end_matches(".antt"));
    (1, library.lines().position(|l| l == line).unwrap_or(0))
}
