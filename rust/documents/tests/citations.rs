//! What the documents cite is there, and what is not there is reported.

use documents::citations::citations_of;
use documents::repository::Repository;

/// How many names a document cites at the least. Without it a reader of citations that finds none
/// would pass. A document that is not here may cite nothing.
const LEAST: [(&str, usize); 5] = [
    ("README.md", 20),
    ("docs/CONTRACTS.md", 500),
    ("docs/DECISIONS.md", 75),
    ("docs/EXCEPTIONS.md", 40),
    ("docs/DEMANDS.md", 450),
];

/// Tells of each landing in the names of its time. What was renamed since then is not there.
const A_HISTORY: &str = "docs/LANDINGS.md";

/// How many names a text cites, and what of them is not there, with its line.
fn read(repository: &Repository, text: &str) -> (usize, Vec<String>) {
    let mut cited = 0;
    let mut missing = Vec::new();
    for citation in citations_of(text) {
        cited += citation.names.len();
        for what in repository.not_found(&citation) {
            missing.push(format!("line {}: {what}", citation.line));
        }
    }
    (cited, missing)
}

#[test]
fn what_documents_cite_is_there() {
    let repository = Repository::here();
    let mut all_missing = Vec::new();
    for document in repository.documents() {
        if document == A_HISTORY {
            continue;
        }
        let (cited, missing) = read(&repository, &repository.text(&document));
        println!("{document}: {cited} names cited");
        all_missing.extend(missing.iter().map(|what| format!("{document}, {what}")));
    }
    assert!(all_missing.is_empty(), "\n{}", all_missing.join("\n"));
}

#[test]
fn documents_cite_enough() {
    let repository = Repository::here();
    for (document, least) in LEAST {
        let (cited, _) = read(&repository, &repository.text(document));
        assert!(cited >= least, "{document} cites only {cited} names");
    }
}

/// How many names each line cites. All of them are there.
const RIGHT: &str = "\
2 `held_at`, `at_held` (laws, Names)
2 `compare` and `cached_pass` (passes, src)
2 (`told_injective` (laws, Answers)), not `this`; `check_guards` (checks, src), not `that` (or that)
2 `prepare_clauses` .ok_record, .ok_named, `prefix_record` (history, Upstream)
1 `refreshed_clauses` .pass .valid, .pass .yes, .yes_same (lane_laws, Upstream)
3 `View` (lane_rules, src), `MOST_INPUT` (bucket_checks, src), `asdrifen_count` (exports_postings, src)
1 edit `always-25` (lane_rules, lane_rounds)
2 (edits `always-25`, `rounds-made-up` (lane_rounds))
2 edit `always-25` (lane_rounds) and `count-named` (bucket_rules)
3 edit `count-named` (bucket_rules), `any-bad-element` (bucket_laws), `range` (bucket_rules, Examples)
2 test `small_views`, `edge_views` (comparison)
0 the promise of that name (exports_lanes, Promises)
";

#[test]
fn every_form_is_read() {
    let repository = Repository::here();
    for line in RIGHT.lines() {
        let (names, text) = line.split_once(' ').unwrap();
        let expected = (names.parse().unwrap(), Vec::new());
        assert_eq!(read(&repository, text), expected, "{text}");
    }
}

/// Each line cites one thing that is not there, and says what is to be reported.
fn reported(lines: &str) {
    let repository = Repository::here();
    for line in lines.lines() {
        let (text, what) = line.split_once(" => ").unwrap();
        let (_, missing) = read(&repository, text);
        assert_eq!(missing, [format!("line 1: {what}")], "{text}");
    }
}

#[test]
fn a_wrong_name_is_reported() {
    // The last two are a field and a helper of a proof, and so no declarations.
    reported(
        "\
`guard_named` (laws, Names) => no guard_named in (laws, Names)
`guarded`, `guard_names` (laws, Names) => no guarded in (laws, Names)
`check_guard` (checks, src) => no check_guard in (checks, src)
`nearest` (laws, Names) => no nearest in (laws, Names)
`go` (laws, Names) => no go in (laws, Names)",
    );
}

#[test]
fn a_wrong_file_is_reported() {
    reported(
        "\
`guard_names` (laws, Calls) => no guard_names in (laws, Calls)
`guard_names` (laws, Called) => no (laws, Called)
the lemmas of (exports_lent, Outcome) => no (exports_lent, Outcome)",
    );
}

#[test]
fn a_wrong_crate_is_reported() {
    reported(
        "\
`guard_names` (rules, Names) => no (rules, Names)
`guard_names` (law, Names) => no (law, Names)
`check_guards` (steps, src) => no check_guards in (steps, src)
`check_guards` (check, src) => no (check, src)",
    );
}

#[test]
fn a_missing_edit_or_test_is_reported() {
    reported(
        "\
edit `always-26` (lane_rounds) => no edit always-26 in lane_rounds
edit `always-25` (lane_rounds, lanes) => no edit always-25 in lanes
edit `always-25` (lane_rounds), `always-26` (passes) => no edit always-26 in passes
test `small_view` (comparison) => no test small_view in comparison
test `small_views` (model) => no test small_views in model",
    );
}

#[test]
fn a_missing_field_is_reported() {
    // The second is a field of `Outcome`, which `UndoLeaves` names. The third is a clause of
    // rollback, and not of prepare.
    reported(
        "\
`FirstPair` .order, .pair (laws, Names) => no .pair of FirstPair
`UndoLeaves` .record_list (history, Failures) => no .record_list of UndoLeaves
`prepare_clauses` .requires_indices (history, Upstream) => no .requires_indices of prepare_clauses
`refreshed_clauses` .pass .yes_same (lane_laws, Upstream) => no .pass .yes_same of refreshed_clauses",
    );
}
