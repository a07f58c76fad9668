//! What README says of the crates is so.

use std::collections::BTreeSet;

use documents::repository::Repository;

/// The crates for callers, and how many public functions each has. docs/EXCEPTIONS.md lists them.
const DELIVERED: [(&str, usize); 9] = [
    ("publish", 5),
    ("entry", 3),
    ("lanes", 3),
    ("buckets", 3),
    ("exports_postings", 5),
    ("exports_lent", 3),
    ("exports_lanes", 3),
    ("exports_buckets", 3),
    ("exports", 14),
];

/// Of `booleans` README speaks below its table.
const NOT_IN_THE_COLUMN: [&str; 1] = ["booleans"];

/// Of each public function what stands before its body.
fn public_signatures(code: &str) -> Vec<String> {
    let mut signatures = Vec::new();
    let mut lines = code.lines();
    while let Some(line) = lines.next() {
        if line.starts_with("pub ") && line.contains(" fn ") {
            let below = lines.by_ref().take_while(|line| !["{", "}"].contains(line));
            signatures.push([line].into_iter().chain(below).collect());
        }
    }
    signatures
}

#[test]
fn no_delivered_call_asks_anything() {
    let repository = Repository::here();
    for (of_crate, functions) in DELIVERED {
        let code = repository.text(&format!("crates/{of_crate}/src/lib.rt"));
        let signatures = public_signatures(&code);
        assert_eq!(signatures.len(), functions, "functions of {of_crate}");
        for signature in signatures {
            assert!(!signature.contains("requires"), "{of_crate}: {signature}");
        }
    }
}

#[test]
fn a_requires_is_seen() {
    let code = "pub fn f(n: u32)\n    requires { n }\n{\n}\npub extern \"C\" fn g()\n{\n}\n";
    let signatures = public_signatures(code);
    assert_eq!(signatures.len(), 2);
    assert!(signatures[0].contains("requires") && !signatures[1].contains("requires"));
}

/// Crates, in order, and what each rests on.
type Crates<'a> = Vec<(&'a str, BTreeSet<&'a str>)>;

/// What crates.txt says.
fn listed(crates_txt: &str) -> Crates<'_> {
    let mut crates = Crates::new();
    for line in crates_txt.lines() {
        let (name, rests_on) = line.split_once(':').expect("a colon follows a crate");
        // A static library says so behind its name.
        let name = name.trim_end_matches(" staticlib");
        crates.push((name, rests_on.split_whitespace().collect()));
    }
    crates
}

/// What README's table says, row by row.
fn rows(readme: &str) -> Crates<'_> {
    let mut crates = Crates::new();
    let from_table = readme
        .lines()
        .skip_while(|line| !line.starts_with("| Crate |"));
    for row in from_table.skip(2).take_while(|line| line.starts_with('|')) {
        let columns: Vec<&str> = row.split('|').collect();
        let name = in_backticks(columns[1]).next().expect("a row has a crate");
        crates.push((name, in_backticks(columns[3]).collect()));
    }
    crates
}

fn in_backticks(text: &str) -> impl Iterator<Item = &str> {
    text.split('`').skip(1).step_by(2)
}

#[test]
fn the_table_of_crates_is_crates_txt() {
    let repository = Repository::here();
    let (crates_txt, readme) = (repository.text("crates.txt"), repository.text("README.md"));
    let (mut listed, mut rows) = (listed(&crates_txt), rows(&readme));
    assert!(!listed.is_empty());
    for (_, rests_on) in &mut listed {
        rests_on.retain(|one| !NOT_IN_THE_COLUMN.contains(one));
    }
    listed.sort();
    rows.sort();
    for (of_list, of_table) in listed.iter().zip(&rows) {
        assert_eq!(of_list, of_table);
    }
    assert_eq!(rows.len(), listed.len(), "not as many rows as crates");
}

#[test]
fn each_crate_rests_on_crates_further_down() {
    let repository = Repository::here();
    let (crates_txt, readme) = (repository.text("crates.txt"), repository.text("README.md"));
    let rows = rows(&readme);
    let row_of = |name| rows.iter().position(|(of_row, _)| *of_row == name);
    for (name, rests_on) in listed(&crates_txt) {
        for lower in rests_on.into_iter() {
            assert!(row_of(name) < row_of(lower), "{lower} is not below {name}");
        }
    }
}
