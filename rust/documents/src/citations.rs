//! Finds the citations in a document. docs/CONTRACTS.md says how they are to be read.

/// Names, and where a document says that they are.
pub struct Citation {
    /// The line of the document, counted from 1.
    pub line: usize,
    /// The names. There are none where other words stand before the place.
    pub names: Vec<Name>,
    /// Where they are said to be.
    pub place: Place,
}

/// A cited name.
pub struct Name {
    /// The name itself.
    pub name: String,
    /// The fields cited with it: `.errors` is one step, `.pass .valid` is two.
    pub fields: Vec<Vec<String>>,
}

/// Where cited names are said to be.
pub enum Place {
    /// A crate, and a file of its specs or proofs, or `src`.
    File(String, String),
    /// The folder must-fail of each of these crates.
    Edits(Vec<String>),
    /// The Rust tests of each of these crates.
    Tests(Vec<String>),
}

/// Every citation of a document.
pub fn citations_of(document: &str) -> Vec<Citation> {
    let lines = document.lines().zip(1..);
    lines.flat_map(|(text, line)| of_line(line, text)).collect()
}

fn of_line(line: usize, text: &str) -> Vec<Citation> {
    let mut citations = Vec::new();
    let mut names: Vec<Name> = Vec::new();
    let mut word_before = "";
    // Between two backticks stands a name. Before, between and behind names stand other words.
    for (number, piece) in text.split('`').enumerate() {
        if number % 2 == 1 {
            let (name, fields) = (piece.to_string(), Vec::new());
            names.push(Name { name, fields });
            continue;
        }
        let mut words = piece;
        if let Some(name) = names.last_mut() {
            (name.fields, words) = leading_fields(words);
        }
        if [", ", " and "].contains(&words) {
            continue;
        }
        // Names are cited only where a place follows at once.
        if !words.starts_with(" (") {
            names.clear();
        }
        for bracketed in words.split('(').skip(1) {
            let inside = bracketed.split(')').next().unwrap_or_default();
            let names = std::mem::take(&mut names);
            let word_before = if names.is_empty() { "" } else { word_before };
            if let Some(place) = place_of(inside, word_before) {
                citations.push(Citation { line, names, place });
            }
        }
        // One word is enough for several places: edit `a` (sorting), `b` (bitmaps) and `c` (masks).
        if !words.ends_with("), ") && !words.ends_with(") and ") {
            let last_word = words.trim_end().rsplit([' ', '(']).next();
            word_before = last_word.unwrap_or_default();
        }
    }
    citations
}

/// The fields at the start of a text, and the text behind them.
fn leading_fields(mut text: &str) -> (Vec<Vec<String>>, &str) {
    let mut fields: Vec<Vec<String>> = Vec::new();
    loop {
        let behind_comma = text.strip_prefix(',');
        let Some(behind_dot) = behind_comma.unwrap_or(text).strip_prefix(" .") else {
            return (fields, text);
        };
        let end = behind_dot.find(|c: char| !c.is_alphanumeric() && c != '_');
        let (field, rest) = behind_dot.split_at(end.unwrap_or(behind_dot.len()));
        match fields.last_mut() {
            Some(steps) if behind_comma.is_none() => steps.push(field.to_string()),
            _ => fields.push(vec![field.to_string()]),
        }
        text = rest;
    }
}

/// The place that the words inside brackets name, if they name one.
fn place_of(inside: &str, word_before: &str) -> Option<Place> {
    let is_crate = |word: &str| word.chars().all(|c| c.is_ascii_lowercase() || c == '_');
    let is_file = |word: &str| word == "src" || word.starts_with(char::is_uppercase);
    let words: Vec<String> = inside.split(", ").map(String::from).collect();
    match (word_before, &words[..]) {
        (_, [one, file]) if is_crate(one) && is_file(file) => {
            Some(Place::File(one.clone(), file.clone()))
        }
        ("edit" | "edits", _) => Some(Place::Edits(words)),
        ("test" | "tests", _) => Some(Place::Tests(words)),
        _ => None,
    }
}
