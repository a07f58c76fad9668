//! The documents are for any reader: they name no one's machine, and no one's way of working.

use documents::repository::Repository;

const PHRASES: [&str; 5] = ["/work", "/opt", "/home", "/tmp", "document 01"];
const WORDS: [&str; 4] = ["issue", "issues", "session", "sessions"];

/// Which of the phrases and words a line has.
fn unwanted(line: &str) -> Vec<&'static str> {
    let line = line.to_lowercase();
    let words: Vec<&str> = line.split(|c: char| !c.is_alphanumeric()).collect();
    let phrases = PHRASES.into_iter().filter(|phrase| has(&line, phrase));
    let whole_words = WORDS.into_iter().filter(|word| words.contains(word));
    phrases.chain(whole_words).collect()
}

/// Whether a line has a phrase that does not go on from what stands before it, as in `crates/work`
/// and `../work`.
fn has(line: &str, phrase: &str) -> bool {
    let mut before = line.match_indices(phrase).map(|(at, _)| &line[..at]);
    before.any(|before| !before.ends_with(|c: char| c.is_alphanumeric() || c == '.'))
}

#[test]
fn documents_name_no_machine_and_no_way_of_working() {
    let repository = Repository::here();
    for document in repository.documents() {
        for (line, number) in repository.text(&document).lines().zip(1..) {
            let found = unwanted(line);
            assert!(found.is_empty(), "{document}, line {number}: {found:?}");
        }
    }
}

#[test]
fn unwanted_words_are_seen() {
    assert_eq!(unwanted("An Issue, in /home/me."), ["/home", "issue"]);
    assert_eq!(unwanted("From crates/work to /work."), ["/work"]);
    assert!(unwanted("An order that was issued, in crates/work or ../work.").is_empty());
}
