//! All crates, what each name in them means, and what a root rests on.

use crate::source::{self, Source, Struct};
use crate::specs::{self, Declaration, File, Kind};
use crate::words::{Scopes, Word, head};
use std::collections::{BTreeMap, BTreeSet, HashMap};
use std::fs;

/// What is listed: a declaration of a file of specs/ or proofs/, or a struct of the source.
#[derive(Clone, PartialEq, Eq, PartialOrd, Ord, Debug)]
pub enum Item {
    Spec(usize, usize),
    Struct(String, String),
}

/// An item as it is listed.
pub struct Entry {
    pub path: String,
    pub line: usize,
    pub name: String,
    pub lines: usize,
    /// Whether it is a theorem's statement.
    pub statement: bool,
    /// Whether neither a call for C nor a theorem rests on it.
    pub inner: bool,
}

pub struct World {
    pub files: Vec<File>,
    /// By crate and module, `specs.Link` or `proofs.Theorem`.
    places: HashMap<(String, String), usize>,
    pub sources: BTreeMap<String, Source>,
    pub errors: BTreeSet<String>,
}

/// Names of the language, which no file imports.
const BUILT_IN: [&str; 5] = ["Type", "Unit", "tt", "⊥", "absurd"];

/// Types and traits of the language's library, which no path names.
const LIBRARY: [&str; 14] = [
    "Result", "Option", "Ok", "Err", "Some", "None", "Self", "From", "TryFrom", "Error", "Copy",
    "Clone", "Default", "Fn",
];

/// What the paths of the kit begin with.
const KIT: [&str; 6] = [
    "Rattle.std.",
    "Prim.",
    "mathlib.",
    "lib.",
    "native.",
    "borrow.",
];

/// What a path leads to.
enum Place {
    Kit,
    Module(usize),
    Declared(String, String),
}

impl World {
    pub fn read(crates: &[String]) -> Result<World, String> {
        let mut world = World {
            files: Vec::new(),
            places: HashMap::new(),
            sources: BTreeMap::new(),
            errors: BTreeSet::new(),
        };
        for name in crates {
            for folder in ["specs", "proofs"] {
                world.read_folder(name, folder)?;
            }
            // what is public stands in one file; a program has nothing public
            let path = format!("crates/{name}/src/lib.rt");
            if fs::exists(&path).unwrap_or(false) {
                let source = source::read(&path, &text(&path)?)?;
                world.sources.insert(name.clone(), source);
            }
        }
        Ok(world)
    }

    fn read_folder(&mut self, name: &str, folder: &str) -> Result<(), String> {
        for path in listed(&format!("crates/{name}/{folder}"), ".antt") {
            let module = path.rsplit('/').next().unwrap_or("");
            let module = format!("{folder}.{}", module.trim_end_matches(".antt"));
            self.places
                .insert((name.to_string(), module), self.files.len());
            self.files.push(specs::read(&path, &text(&path)?)?);
        }
        Ok(())
    }

    /// Where a path leads: to `Rattle.CRATE.specs.MODULE` or `Rattle.CRATE.proofs.MODULE`, to a struct of the
    /// source (`Rattle.CRATE.specs.declared.STRUCT`), or into the kit.
    fn place(&self, path: &str) -> Option<Place> {
        if KIT.iter().any(|kit| path.starts_with(kit)) {
            return Some(Place::Kit);
        }
        let (name, module) = path.strip_prefix("Rattle.")?.split_once('.')?;
        if let Some(declared) = module.strip_prefix("specs.declared.") {
            let declared = head(declared).to_string();
            return Some(Place::Declared(name.to_string(), declared));
        }
        let key = (name.to_string(), module.to_string());
        self.places.get(&key).map(|file| Place::Module(*file))
    }

    /// A name at the end of a path; None is the kit's.
    fn at(&self, path: &str, name: &str) -> Result<Option<Item>, ()> {
        match self.place(path).ok_or(())? {
            Place::Kit => Ok(None),
            Place::Declared(place, name) => {
                self.declared(&place, &name, &place).map(Some).or(Err(()))
            }
            Place::Module(file) => self.in_file(file, name, usize::MAX).map(Some).ok_or(()),
        }
    }

    /// A name that a file declares: the last before a line, or the first at all.
    fn in_file(&self, file: usize, name: &str, line: usize) -> Option<Item> {
        let has = |d: &Declaration| {
            d.kind != Kind::Module
                && (d.name == name
                    || (d.kind == Kind::Data && d.constructors.iter().any(|c| c == name)))
        };
        let all = self.files[file]
            .declarations
            .iter()
            .enumerate()
            .filter(|(_, d)| has(d));
        let all: Vec<(usize, usize)> = all.map(|(i, d)| (i, d.line)).collect();
        let before = all.iter().rev().find(|(_, l)| *l <= line);
        before.or(all.first()).map(|(i, _)| Item::Spec(file, *i))
    }

    /// What a name means in a file, or the name before a field; None is the kit's. `own` is the file's index, if
    /// it is one of specs/ or proofs/.
    fn resolve(&self, file: &File, own: Option<usize>, word: &Word) -> Result<Option<Item>, ()> {
        let name = head(&word.text);
        if BUILT_IN.contains(&name) {
            return Ok(None);
        }
        if let (Some(alias), Some((_, rest))) = (file.aliases.get(name), word.text.split_once('.'))
        {
            return self.at(alias, head(rest));
        }
        let infix = format!("◌{name}◌");
        for name in [name, infix.as_str()] {
            if let Some(item) = own.and_then(|own| self.in_file(own, name, word.line)) {
                return Ok(Some(item));
            }
            if let Some(import) = file.imports.get(name) {
                return self.at(&import.path, &import.name);
            }
        }
        Err(())
    }

    /// What words mean in a file; one that is not understood is an error.
    fn resolve_all(
        &self,
        file: &File,
        own: Option<usize>,
        words: &[Word],
    ) -> (BTreeSet<Item>, Vec<String>) {
        let mut items = BTreeSet::new();
        let mut errors = Vec::new();
        for word in words {
            match self.resolve(file, own, word) {
                Ok(Some(item)) => _ = items.insert(item),
                Ok(None) => {}
                Err(()) => errors.push(format!(
                    "{}:{}: unknown name {}",
                    file.path, word.line, word.text
                )),
            }
        }
        (items, errors)
    }

    /// What the contracts of public functions name: of all, or of the calls for C alone.
    pub fn contracts(&mut self, exported: bool) -> BTreeSet<Item> {
        let mut all = Vec::new();
        for (name, source) in &self.sources {
            let wanted = |i: &usize| source.functions[*i].exported || !exported;
            all.extend(
                (0..source.functions.len())
                    .filter(wanted)
                    .map(|i| (name.clone(), i)),
            );
        }
        let mut items = BTreeSet::new();
        for (name, function) in all {
            items.extend(self.contract(&name, function));
        }
        items
    }

    fn contract(&mut self, place: &str, function: usize) -> BTreeSet<Item> {
        let source = &self.sources[place];
        let own = &source.functions[function];
        let mut scopes = Scopes::new(source.ghost.aliases.keys());
        scopes.bind("result");
        scopes.bind("self");
        for name in &own.generics {
            scopes.bind(name);
        }
        for word in &own.signature {
            if let Some(name) = word.text.strip_suffix(':') {
                scopes.bind(name);
                scopes.bind(&format!("«{name}»"));
            }
        }
        // a contract may name an enum of the source, as `Place.Kind` does
        let imported = |name: &str| {
            source.ghost.imports.contains_key(name) || source.ghost.aliases.contains_key(name)
        };
        let free = scopes.free(&own.contract);
        let (of_source, free) = free.into_iter().partition::<Vec<Word>, _>(|word| {
            let name = head(&word.text);
            !imported(name) && source.knows(name)
        });
        let mut types = source::types(&own.signature);
        types.retain(|(path, name)| path.is_some() || !own.generics.contains(name));
        let named = of_source.iter().map(|word| head(&word.text).to_string());
        types.extend(named.map(|name| (None, name)));
        let (mut items, errors) = self.resolve_all(&source.ghost, None, &free);
        self.errors.extend(errors);
        items.extend(self.structs(place, types));
        items
    }

    /// The structs that types name, as a crate's source sees them.
    fn structs(&mut self, place: &str, types: Vec<(Option<String>, String)>) -> Vec<Item> {
        let mut items = Vec::new();
        for (path, name) in types {
            if self.is_library(path.as_deref(), &name, place) {
                continue;
            }
            match self.declared(path.as_deref().unwrap_or(place), &name, place) {
                Ok(item) => items.push(item),
                Err(error) => _ = self.errors.insert(error),
            }
        }
        items
    }

    /// Whether a type is the language's library's, by its name or by a `use`.
    fn is_library(&self, path: Option<&str>, name: &str, place: &str) -> bool {
        let used = |name: &str| self.sources.get(place)?.used.get(name);
        let own = self
            .sources
            .get(place)
            .is_some_and(|source| source.structs.contains_key(name));
        match path {
            None if own => false,
            None => used(name).map_or(LIBRARY.contains(&name), |used| used.starts_with("std")),
            Some(path) => path.starts_with("std") || ["io", "fmt"].contains(&path),
        }
    }

    /// Where a struct is declared: in this crate, or where a `use` leads.
    fn declared(&self, at: &str, name: &str, place: &str) -> Result<Item, String> {
        let source = self.sources.get(at);
        let source =
            source.ok_or_else(|| format!("crates/{place}/src: unknown type {at}::{name}"))?;
        if source.structs.contains_key(name) {
            return Ok(Item::Struct(at.to_string(), name.to_string()));
        }
        match source.used.get(name) {
            Some(used) if used != at => self.declared(used, name, place),
            _ => Err(format!("{}: unknown type {name}", source.path)),
        }
    }

    /// What an item names: its type and its body, or its type alone if it is a theorem that a root gives.
    pub fn names(&mut self, item: &Item, statement: bool) -> BTreeSet<Item> {
        match item {
            Item::Spec(file, declaration) => self.spec_names(*file, *declaration, statement),
            Item::Struct(place, name) => {
                let declared = self
                    .sources
                    .get(place)
                    .and_then(|source| source.structs.get(name));
                let Some(declared) = declared else {
                    self.errors
                        .insert(format!("crates/{place}/src: no struct {name}"));
                    return BTreeSet::new();
                };
                let mut types = source::types(&declared.body);
                // an enum's own cases are no types
                types.retain(|(path, case)| {
                    !declared.cases || path.is_some() || self.declared(place, case, place).is_ok()
                });
                let (mut items, errors) = self.ghosts(place, declared);
                self.errors.extend(errors);
                items.extend(self.structs(place, types));
                items
            }
        }
    }

    /// What a struct's ghost fields name.
    fn ghosts(&self, place: &str, declared: &Struct) -> (BTreeSet<Item>, Vec<String>) {
        let ghost = &self.sources[place].ghost;
        let mut scopes = Scopes::new(ghost.aliases.keys());
        for word in &declared.body {
            if let Some(name) = word.text.strip_suffix(':') {
                scopes.bind(name);
            }
        }
        let free = scopes.free(&declared.ghosts);
        self.resolve_all(ghost, None, &free)
    }

    fn spec_names(&mut self, own: usize, declaration: usize, statement: bool) -> BTreeSet<Item> {
        let file = &self.files[own];
        let one = &file.declarations[declaration];
        let mut scopes = Scopes::new(file.aliases.keys());
        let mut within: BTreeSet<Item> = BTreeSet::new();
        for module in &one.within {
            scopes.free(&file.declarations[*module].head);
            within.insert(Item::Spec(own, *module));
        }
        let mut free = one.head_names(&mut scopes.clone());
        if !statement {
            let constructor = |word: &Word| self.is_constructor(file, own, word);
            for clause in &one.clauses {
                free.extend(one.clause_names(clause, scopes.clone(), &constructor));
            }
        }
        let (mut items, errors) = self.resolve_all(file, Some(own), &free);
        items.extend(within);
        self.errors.extend(errors);
        items
    }

    fn is_constructor(&self, file: &File, own: usize, word: &Word) -> bool {
        match self.resolve(file, Some(own), word) {
            Ok(Some(Item::Spec(file, found))) => {
                let found = &self.files[file].declarations[found];
                found.kind == Kind::Data && found.name != word.text
            }
            Ok(Some(Item::Struct(_, declared))) => declared != word.text,
            _ => false,
        }
    }

    /// A theorem of a crate by its name, or all public ones of a file, in specs/ or in proofs/: names that are
    /// neither `abbrev` nor `unfoldable`.
    pub fn theorems(&self, place: &str, name: &str) -> Vec<Item> {
        let mut found = Vec::new();
        let folders = ["specs", "proofs"].map(|folder| format!("crates/{place}/{folder}/"));
        for (i, file) in self.files.iter().enumerate() {
            let mut module = folders.iter().filter_map(|f| file.path.strip_prefix(f));
            let Some(module) = module.next() else {
                continue;
            };
            for (j, one) in file.declarations.iter().enumerate() {
                let theorem = one.kind == Kind::Plain && one.public && !one.marked;
                if theorem && (module == name || one.name == name) {
                    found.push(Item::Spec(i, j));
                }
            }
        }
        found
    }

    pub fn entry(&self, item: &Item, statement: bool) -> Entry {
        match item {
            Item::Spec(file, declaration) => {
                let file = &self.files[*file];
                let one = &file.declarations[*declaration];
                let name = if one.kind == Kind::Module {
                    "(parameters)"
                } else {
                    &one.name
                };
                Entry {
                    path: file.path.clone(),
                    line: one.line,
                    name: name.to_string(),
                    lines: if statement { one.head_lines } else { one.lines },
                    statement,
                    inner: false,
                }
            }
            Item::Struct(place, name) => {
                let source = &self.sources[place];
                Entry {
                    path: source.path.clone(),
                    line: source.structs[name].line,
                    name: name.clone(),
                    lines: source.structs[name].lines,
                    statement,
                    inner: false,
                }
            }
        }
    }
}

pub fn text(path: &str) -> Result<String, String> {
    fs::read_to_string(path).map_err(|error| format!("{path}: {error}"))
}

/// The files of a folder with an ending, in order.
fn listed(folder: &str, ending: &str) -> Vec<String> {
    let Ok(entries) = fs::read_dir(folder) else {
        return Vec::new();
    };
    let names = entries.filter_map(|entry| entry.ok()?.file_name().into_string().ok());
    let mut paths: Vec<String> = names
        .filter(|name| name.ends_with(ending) && name != "Lib.antt")
        .map(|name| format!("{folder}/{name}"))
        .collect();
    paths.sort();
    paths
}
