//! The operator's table, and the texts of refusals.

use asdrifen::{canonical_buckets, Answer, Change, Guard, Head, Index, Named, Node, Posting, Told};
use std::collections::BTreeMap;

/// The numbers and names, written down a second time.
const TABLE: [(u32, &str); 24] = [
    (0, "ACCEPTED"),
    (1, "TABLE"),
    (2, "POISONED"),
    (3, "LIST"),
    (4, "STRIP"),
    (5, "ROOM"),
    (6, "GUARD"),
    (7, "TWICE"),
    (8, "PRESENT"),
    (9, "OVERLAP"),
    (10, "STORE"),
    (11, "FULL"),
    (12, "UNDO"),
    (13, "SOURCE"),
    (14, "RECORD"),
    (20, "HEIGHT"),
    (21, "VIEW"),
    (22, "WINDOW"),
    (23, "STRIP"),
    (24, "OFFSET"),
    (25, "BUDGET"),
    (30, "LIMITS"),
    (31, "ROOM"),
    (32, "RANGE"),
];

#[test]
fn every_number_has_its_name() {
    let told = Answer::ALL.map(|answer| (answer.number(), answer.name()));
    assert_eq!(told, TABLE);
}

#[test]
fn numbers_go_round() {
    let known = BTreeMap::from(TABLE);
    for number in (0..100).chain([u32::MAX]) {
        let answer = Answer::from(number);
        assert_eq!(answer.number(), number);
        assert_eq!(answer.name(), *known.get(&number).unwrap_or(&"UNKNOWN"));
        assert_eq!(
            answer == Answer::Unknown(number),
            !known.contains_key(&number)
        );
        assert_eq!(answer.to_string(), format!("{number} {}", answer.name()));
    }
}

#[test]
fn the_readme_has_the_same_numbers_and_names() {
    let path = concat!(env!("CARGO_MANIFEST_DIR"), "/../../README.md");
    let readme = std::fs::read_to_string(path).expect("README.md is at the top");
    let mut rows: Vec<(u32, &str)> = readme.lines().filter_map(number_and_name).collect();
    rows.sort();
    // Each of the three tables has a line for 0.
    rows.dedup();
    assert_eq!(rows, TABLE);
}

// Of a line `| 8 | PRESENT | ...`, the number and the name.
fn number_and_name(line: &str) -> Option<(u32, &str)> {
    let mut cells = line.strip_prefix('|')?.split('|').map(str::trim);
    Some((cells.next()?.parse().ok()?, cells.next()?))
}

#[test]
fn texts_fit_into_a_line_of_a_log() {
    for answer in Answer::ALL.into_iter().chain([Answer::Unknown(99)]) {
        for text in [answer.meaning(), answer.what_to_do()] {
            assert!(!text.is_empty() && text.len() <= 80, "{answer}: {text}");
            assert!(
                !text.ends_with('.') && !text.contains('\n'),
                "{answer}: {text}"
            );
        }
    }
}

#[test]
fn counts_are_withheld_at_these_numbers_alone() {
    let withheld = |number: &u32| Answer::from(*number).withholds_counts();
    let numbers: Vec<u32> = TABLE
        .map(|(number, _)| number)
        .into_iter()
        .filter(withheld)
        .collect();
    assert_eq!(numbers, [1, 2, 12, 13]);
    assert!(Answer::Unknown(99).withholds_counts());
}

#[test]
fn a_number_that_is_not_known_is_no_count() {
    let told = Told {
        answer: 99,
        named: 7,
        other: 0,
    };
    let refused = told.counted().unwrap_err();
    assert_eq!(refused.answer, Answer::Unknown(99));
    assert_eq!(
        refused.to_string(),
        "99 UNKNOWN: the library gave a number that this wrapper does not know. \
         What to do: withhold the counts; build library and wrapper from one tree."
    );
}

fn add(row: u32) -> Change {
    Change::added(Posting {
        binding: 0,
        key: 5,
        row,
    })
}

#[test]
fn a_pair_is_named_in_words() {
    let mut index = Index::new(1, 4).unwrap();
    let refused = index
        .publish(&[add(1), add(2), add(3), add(2)], &[Guard::new(0, 5)])
        .unwrap_err();
    assert_eq!(refused.named, Named::Changes(1, 3));
    assert_eq!(
        refused.to_string(),
        "7 TWICE, changes 1 and 3 (counted from 0): two destinations are equal. \
         What to do: take one of the two changes out."
    );
}

#[test]
fn a_place_of_the_record_is_named_in_words() {
    let mut index = Index::new(1, 4).unwrap();
    let held = [Guard::new(0, 5)];
    let record = index.prepare(&[add(1), add(2)], &held).unwrap();
    assert_eq!(record, [0, 1]);
    let refused = index
        .rollback(&[add(1), add(2)], &held, &[0, 1, 1])
        .unwrap_err();
    assert_eq!(refused.named, Named::Place(2));
    assert_eq!(
        refused.to_string(),
        "14 RECORD, record place 2 (counted from 0): a number of the record means no destination, \
         or is a repeat. What to do: lend the record that prepare named."
    );
}

#[test]
fn a_refused_count_names_no_change() {
    let index = Index::new(1, 4).unwrap();
    let refused = index.count(1, 5).unwrap_err();
    assert_eq!(
        (refused.answer, refused.named),
        (Answer::Guard, Named::Nothing)
    );
    assert_eq!(
        refused.to_string(),
        "6 GUARD: a binding is not below the count, or a key is not held. \
         What to do: take the guard, or mend the binding or key."
    );
}

#[test]
fn rounds_and_elements_are_named_in_words() {
    let line = |rounds| {
        let mut node = Node::guarded(3, 7, 6);
        node.detach_before_retire(&[], &[], rounds)
            .unwrap_err()
            .to_string()
    };
    let rest = "the rounds lent are used up; the node is not retired. \
                What to do: keep the view, and lend more rounds.";
    assert_eq!(line(0), format!("25 BUDGET, after 0 rounds: {rest}"));
    assert_eq!(line(1), format!("25 BUDGET, after 1 round: {rest}"));
    assert_eq!(
        canonical_buckets(&[2, 9, 7], 5).unwrap_err().to_string(),
        "32 RANGE, element 9: an element is not below the bucket count. \
         What to do: lock nothing; find who made that element."
    );
}

#[test]
fn a_refusal_goes_through_the_question_mark_as_any_error() {
    fn count(index: &Index) -> Result<u32, Box<dyn std::error::Error>> {
        Ok(index.count(0, 5)?)
    }
    let head = Head {
        bindings: 1,
        used: 9,
        poisoned: 0,
    };
    let error = count(&Index::from_parts(head, vec![])).unwrap_err();
    assert_eq!(
        error.to_string(),
        "1 TABLE: the table or its head is not well formed. \
         What to do: do not count from it; find who wrote it."
    );
}
