//! Words of a specification's text, and which of them are free: names that
//! nothing in the text itself binds.

use std::collections::HashSet;

/// A word and the line that it stands on.
#[derive(Clone, Debug)]
pub struct Word {
    pub text: String,
    pub line: usize,
}

/// The words of some lines. Comments and quoted texts are left out.
pub fn words(lines: &[(usize, &str)]) -> Vec<Word> {
    let mut all = Vec::new();
    for (line, text) in lines {
        let mut word = String::new();
        let mut quoted = false;
        let mut end = |word: &mut String| {
            if !word.is_empty() {
                let text = std::mem::take(word);
                all.push(Word { text, line: *line });
            }
        };
        let mut characters = without_comment(text).chars();
        while let Some(c) = characters.next() {
            match c {
                '\\' if quoted => _ = characters.next(),
                '"' => {
                    end(&mut word);
                    quoted = !quoted;
                }
                _ if quoted => {}
                _ if c.is_whitespace() => end(&mut word),
                '(' | ')' | '{' | '}' | '[' | ']' | ',' | ';' | '⌜' | '⌝' => {
                    end(&mut word);
                    word.push(c);
                    end(&mut word);
                }
                _ => word.push(c),
            }
        }
        end(&mut word);
    }
    joined(all)
}

/// The empty list, `[]`, is one word.
fn joined(words: Vec<Word>) -> Vec<Word> {
    let mut all: Vec<Word> = Vec::new();
    for word in words {
        match all.last_mut() {
            Some(last) if last.text == "[" && word.text == "]" => last.text = "[]".into(),
            _ => all.push(word),
        }
    }
    all
}

/// A line without its comment, in either language.
pub fn without_comment(line: &str) -> &str {
    if line.trim_start().starts_with("--") || line.trim_start().starts_with("//") {
        return "";
    }
    let line = line.split(" -- ").next().unwrap_or(line);
    line.split(" // ").next().unwrap_or(line)
}

/// A word's name: `x` of `x.field.field`, and of a path or a name in a module its first part.
pub fn head(word: &str) -> &str {
    word.split_once('.').map_or(word, |(head, _)| head)
}

pub fn is_name(word: &str) -> bool {
    let own = [
        "→", "=", ":", "|", "λ", "×", "let", "in", "record", "where", "←", "↦", "_", ".",
    ];
    let bracket = ["(", ")", "{", "}", "[", "]", ",", ";", "⌜", "⌝"];
    !own.contains(&word)
        && !bracket.contains(&word)
        && !word.starts_with('.')
        && !word.chars().all(|c| c.is_ascii_digit())
}

/// Names bound by a text, innermost last.
#[derive(Clone, Default)]
pub struct Scopes {
    bound: Vec<HashSet<String>>,
    /// The modules that the file names: a name in one is free whatever the text binds.
    modules: HashSet<String>,
}

impl Scopes {
    pub fn new<'a>(modules: impl Iterator<Item = &'a String>) -> Scopes {
        Scopes {
            bound: vec![HashSet::new()],
            modules: modules.cloned().collect(),
        }
    }

    pub fn bind(&mut self, name: &str) {
        if let Some(scope) = self.bound.last_mut() {
            scope.insert(name.to_string());
        }
    }

    /// Whether a word's name is bound: then what follows it is a field.
    fn has(&self, word: &str) -> bool {
        let name = head(word);
        let in_module = name != word && self.modules.contains(name);
        !in_module && self.bound.iter().any(|scope| scope.contains(name))
    }

    /// The free names of words. What the words bind outside all brackets stays
    /// bound. A group `(x y : T)` binds for what follows it, `λ x.` and `let x`
    /// up to the end of the bracket that they stand in.
    pub fn free(&mut self, words: &[Word]) -> Vec<Word> {
        let mut free = Vec::new();
        let mut lambda = false;
        let mut outer = Vec::new();
        let mut at = 0;
        while at < words.len() {
            let word = words[at].text.as_str();
            match word {
                "(" | "{" | "[" => {
                    let bound = bound_by(&words[at + 1..]);
                    for word in &words[at + 1..at + 1 + bound] {
                        self.bind(&word.text);
                    }
                    self.bound.push(HashSet::new());
                    outer.push(std::mem::take(&mut lambda));
                    at += bound;
                }
                ")" | "}" | "]" => {
                    self.bound.pop();
                    lambda = outer.pop().unwrap_or(false);
                }
                "λ" => lambda = true,
                "." => lambda = false,
                "let" => {
                    if let Some(word) = words.get(at + 1) {
                        self.bind(&word.text);
                    }
                }
                _ if lambda && word.ends_with('.') => {
                    self.bind(word.trim_end_matches('.'));
                    lambda = false;
                }
                _ if lambda && is_name(word) => self.bind(word),
                _ if is_name(word) && !self.has(word) && !is_field(words, at) => {
                    free.push(words[at].clone());
                }
                _ => {}
            }
            at += 1;
        }
        free
    }
}

/// How many names a group binds, from behind its bracket on: those before a colon.
fn bound_by(words: &[Word]) -> usize {
    let names = words.iter().take_while(|w| is_name(&w.text)).count();
    match words.get(names) {
        Some(word) if word.text == ":" => names,
        _ => 0,
    }
}

/// Whether a name is a field in `record { f = .. }`, or an argument given by name.
fn is_field(words: &[Word], at: usize) -> bool {
    let before = at.checked_sub(1).map(|i| words[i].text.as_str());
    let behind = words.get(at + 1).map(|word| word.text.as_str());
    matches!(before, Some("{" | ";")) && behind == Some("=")
}
