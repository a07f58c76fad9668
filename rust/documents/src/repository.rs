//! Looks for what is cited, in the crates of this repository.

use std::fs;
use std::path::{Path, PathBuf};

use crate::citations::{Citation, Name, Place};

/// This repository, with the declarations of all its specs and proofs.
pub struct Repository {
    root: PathBuf,
    declarations: Vec<Declaration>,
}

/// A declaration, or a field of a record.
struct Declaration {
    name: String,
    /// Its line, and those below it that stand further in: of a record all its fields, of a
    /// theorem all that it claims, and nothing of the proof.
    text: String,
}

impl Repository {
    /// The repository that this package stands in.
    pub fn here() -> Repository {
        let root = Path::new(env!("CARGO_MANIFEST_DIR")).join("../..");
        let declarations = declarations_of(&text_below(&root.join("crates"), "antt"));
        Repository { root, declarations }
    }

    /// README.md and every document in docs, as paths from the root.
    pub fn documents(&self) -> Vec<String> {
        let mut documents = vec!["README.md".to_string()];
        for path in paths_below(&self.root.join("docs"), "md") {
            let name = path.file_name().expect("a file has a name");
            documents.push(format!("docs/{}", name.to_string_lossy()));
        }
        documents
    }

    /// The text of a file, given its path from the root.
    pub fn text(&self, path: &str) -> String {
        text_of(&self.root.join(path))
    }

    /// What a citation names and is not there, one line to each.
    pub fn not_found(&self, citation: &Citation) -> Vec<String> {
        let names = &citation.names;
        match &citation.place {
            Place::File(of_crate, file) => self.not_in_file(names, of_crate, file),
            Place::Edits(crates) => not_in_each(names, crates, "edit", |name, of_crate| {
                let path = format!("crates/{of_crate}/must-fail/{name}.edit");
                self.root.join(path).exists()
            }),
            Place::Tests(crates) => not_in_each(names, crates, "test", |name, of_crate| {
                let tests = text_below(&self.root.join("rust").join(of_crate), "rs");
                tests.contains(&format!("#[test]\nfn {name}()"))
            }),
        }
    }

    fn not_in_file(&self, names: &[Name], of_crate: &str, file: &str) -> Vec<String> {
        let declarations = declarations_of(&self.cited_text(of_crate, file));
        if declarations.is_empty() {
            return vec![format!("no ({of_crate}, {file})")];
        }
        let mut missing = Vec::new();
        for Name { name, fields } in names {
            let Some(declaration) = declarations.iter().find(|one| one.name == *name) else {
                missing.push(format!("no {name} in ({of_crate}, {file})"));
                continue;
            };
            for steps in fields {
                if !self.has_field(declaration, steps) {
                    missing.push(format!("no .{} of {name}", steps.join(" .")));
                }
            }
        }
        missing
    }

    /// What a crate and a file, or `src`, stand for; nothing where they are not there.
    fn cited_text(&self, of_crate: &str, file: &str) -> String {
        let folder = self.root.join("crates").join(of_crate);
        if file == "src" {
            return text_below(&folder.join("src"), "rt");
        }
        ["specs", "proofs"]
            .map(|either| folder.join(either).join(file).with_extension("antt"))
            .map(|path| fs::read_to_string(path).unwrap_or_default())
            .concat()
    }

    fn has_field(&self, declaration: &Declaration, steps: &[String]) -> bool {
        let Some((first, later)) = steps.split_first() else {
            return true;
        };
        let fields = self.fields_of(declaration);
        let mut so_named = fields.iter().filter(|field| field.name == *first);
        so_named.any(|field| self.has_field(field, later))
    }

    /// The fields of a record; of a theorem those of the records that its claim names.
    fn fields_of(&self, declaration: &Declaration) -> Vec<Declaration> {
        if declaration.is_record() {
            return declaration.own_fields();
        }
        let is_between_words = |c: char| c.is_whitespace() || "(){}".contains(c);
        let words: Vec<&str> = declaration.text.split(is_between_words).collect();
        let records = self.declarations.iter().filter(|one| one.is_record());
        let named = records.filter(|record| words.contains(&record.name.as_str()));
        named.flat_map(Declaration::own_fields).collect()
    }
}

impl Declaration {
    fn is_record(&self) -> bool {
        let line = self.text.trim_start();
        line.trim_start_matches("pub ").starts_with("record ")
    }

    fn own_fields(&self) -> Vec<Declaration> {
        let (_, inside) = self.text.split_once('\n').unwrap_or_default();
        declarations_of(inside)
    }
}

/// The names that are not there in one of the crates.
fn not_in_each(
    names: &[Name],
    crates: &[String],
    kind: &str,
    is_there: impl Fn(&str, &str) -> bool,
) -> Vec<String> {
    let mut missing = Vec::new();
    for of_crate in crates {
        for Name { name, .. } in names {
            if !is_there(name, of_crate) {
                missing.push(format!("no {kind} {name} in {of_crate}"));
            }
        }
    }
    missing
}

/// The declarations of a text. What stands inside one of them, as a record's fields, is none, and
/// neither is what helps a proof, below a line that is only `where`.
fn declarations_of(text: &str) -> Vec<Declaration> {
    let mut declarations = Vec::new();
    let mut lines = text.lines().peekable();
    while let Some(line) = lines.next() {
        if line.trim() == "where" {
            let is_inside = |next: &&str| next.is_empty() || indent_of(next) > indent_of(line);
            while lines.next_if(is_inside).is_some() {}
        }
        if let Some(name) = declared_name(line) {
            let (name, mut text) = (name.to_string(), line.to_string());
            while let Some(inside) = lines.next_if(|next| indent_of(next) > indent_of(line)) {
                text = text + "\n" + inside;
            }
            declarations.push(Declaration { name, text });
        }
    }
    declarations
}

/// `abbrev pub twins : ..`, `pub record FirstAt ..` and `pub extern "C" fn asdrifen_count(..` each
/// declare a name.
fn declared_name(line: &str) -> Option<&str> {
    let before_it = ["pub", "abbrev", "unfoldable", "extern", "\"C\""];
    let mut words = line
        .split_whitespace()
        .skip_while(|word| before_it.contains(word));
    match (words.next()?, words.next()?) {
        ("record" | "data", name) | (name, ":") => Some(name),
        ("fn" | "struct" | "enum" | "const", name) => name.split(['(', ':', '<']).next(),
        _ => None,
    }
}

fn indent_of(line: &str) -> usize {
    line.len() - line.trim_start().len()
}

/// The files below a folder with an ending, in order; none where there is no such folder.
fn paths_below(folder: &Path, ending: &str) -> Vec<PathBuf> {
    let mut paths = Vec::new();
    for entry in fs::read_dir(folder).into_iter().flatten() {
        let path = entry.expect("a folder can be read").path();
        if path.is_dir() {
            paths.extend(paths_below(&path, ending));
        } else if path.extension().is_some_and(|its| its == ending) {
            paths.push(path);
        }
    }
    paths.sort();
    paths
}

fn text_below(folder: &Path, ending: &str) -> String {
    let paths = paths_below(folder, ending);
    paths.iter().map(|path| text_of(path)).collect()
}

fn text_of(path: &Path) -> String {
    fs::read_to_string(path).unwrap_or_else(|error| panic!("{}: {error}", path.display()))
}
