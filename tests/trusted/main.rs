//! What must be believed: every definition of this repository that a public
//! function's contract or one of the auditor's theorems rests on. Follows the
//! names from there through types and bodies of definitions, and never through
//! a proof.
//!
//! docs/TRUSTED.md names the theorems and the crates of each group, in reading
//! order, and has the list. Ends with 1 if the list is another, if a definition
//! on it stands in a file of laws, or in a file of proofs whose theorems are not
//! named, or if a name or a line is not understood. With `--write` the list is
//! written into the document.

mod document;
mod source;
mod specs;
mod words;
mod world;

use document::Document;
use std::collections::BTreeSet;
use std::process::ExitCode;
use world::{Entry, Item, World, text};

const DOCUMENT: &str = "docs/TRUSTED.md";

fn main() -> ExitCode {
    let write = std::env::args().nth(1).as_deref() == Some("--write");
    match run(write) {
        Ok(said) => {
            println!("{said}");
            ExitCode::SUCCESS
        }
        Err(error) => {
            println!("{error}");
            ExitCode::FAILURE
        }
    }
}

fn run(write: bool) -> Result<String, String> {
    let crates = crates()?;
    let mut world = World::read(&crates)?;
    let old = text(DOCUMENT)?;
    let document = Document::read(&old)?;
    let found = found(&mut world, &document)?;
    let new = document.filled(&found, &crates)?;
    if write {
        std::fs::write(DOCUMENT, &new).map_err(|error| format!("{DOCUMENT}: {error}"))?;
    }
    if !world.errors.is_empty() {
        return Err(world.errors.into_iter().collect::<Vec<_>>().join("\n"));
    }
    if !write && new != old {
        return Err(difference(&old, &new));
    }
    Ok(format!("trusted: {}", document.sums(&found)))
}

/// The first line that differs.
fn difference(old: &str, new: &str) -> String {
    let at = new
        .lines()
        .zip(old.lines())
        .take_while(|(a, b)| a == b)
        .count();
    let line = |text: &str| text.lines().nth(at).unwrap_or("nothing").trim().to_string();
    format!(
        "{DOCUMENT}:{}: the list is another\n  there: {}\n  found: {}\n'make trusted' writes it",
        at + 1,
        line(old),
        line(new)
    )
}

/// The crates, in the order of crates.txt: each line has a name, what else the crate is, and a colon.
fn crates() -> Result<Vec<String>, String> {
    let text = text("crates.txt")?;
    let lines = text.lines().filter(|line| !line.starts_with('#'));
    let names = lines.filter_map(|line| line.split_once(':')?.0.split_whitespace().next());
    Ok(names.map(str::to_string).collect())
}

/// The theorems that the document names.
fn theorems(world: &World, document: &Document) -> Result<BTreeSet<Item>, String> {
    let mut all = BTreeSet::new();
    for (place, name) in document.theorems() {
        let found = world.theorems(place, name);
        if found.is_empty() || (found.len() > 1 && !name.ends_with(".antt")) {
            return Err(format!("{DOCUMENT}: {place} has no theorem {name}, or two"));
        }
        all.extend(found);
    }
    Ok(all)
}

/// All that contracts and theorems rest on, the theorems' statements included.
fn rest_on(
    world: &mut World,
    contracts: BTreeSet<Item>,
    theorems: &BTreeSet<Item>,
) -> BTreeSet<Item> {
    let mut todo = contracts;
    todo.extend(theorems.iter().cloned());
    let mut seen: BTreeSet<Item> = BTreeSet::new();
    while let Some(item) = todo.pop_first() {
        if seen.insert(item.clone()) {
            todo.extend(world.names(&item, theorems.contains(&item)));
        }
    }
    seen
}

/// What is to be listed.
fn found(world: &mut World, document: &Document) -> Result<Vec<Entry>, String> {
    let theorems = theorems(world, document)?;
    let exported = world.contracts(true);
    let outer = rest_on(world, exported, &theorems);
    let contracts = world.contracts(false);
    let mut entries = Vec::new();
    for item in rest_on(world, contracts, &theorems) {
        let statement = theorems.contains(&item);
        let entry = world.entry(&item, statement);
        if let Some(place) = misplaced(&entry, document) {
            let (path, line, name) = (&entry.path, entry.line, &entry.name);
            let error = format!("{path}:{line}: {name} is trusted and stands in {place}");
            world.errors.insert(error);
        }
        let inner = !outer.contains(&item);
        entries.push(Entry { inner, ..entry });
    }
    Ok(entries)
}

/// Where a definition stands that may not stand there: among laws, or in proofs/ in a file that the document
/// does not name for its theorems.
fn misplaced(entry: &Entry, document: &Document) -> Option<&'static str> {
    if entry.statement {
        None
    } else if entry.path.ends_with("Laws.antt") {
        Some("a file of laws")
    } else if entry.path.contains("/proofs/") && !document.names_file(&entry.path) {
        Some("a file of proofs")
    } else {
        None
    }
}
