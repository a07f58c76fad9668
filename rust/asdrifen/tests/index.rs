//! The owning index: flattening, the record, and that no poison is lost.

use asdrifen::{
    flatten_changes, flatten_guards, limits, Answer, Change, Guard, Head, Index, Named, Posting,
};

const fn change(binding: u32, row: u32, before: Option<u32>, after: Option<u32>) -> Change {
    Change {
        binding,
        row,
        before,
        after,
    }
}

const MOVE_ONE: Change = change(0, 1, Some(5), Some(6));
const MOVE_TWO: Change = change(0, 2, Some(5), Some(6));

/// Two bindings, room for four postings, rows 1 and 2 under key 5.
fn lettered() -> Index {
    let head = Head {
        bindings: 2,
        used: 2,
        poisoned: 0,
    };
    Index::from_parts(head, vec![0, 5, 1, 0, 5, 2, 0, 0, 0, 0, 0, 0])
}

fn held() -> [Guard; 3] {
    [Guard::new(0, 5), Guard::new(0, 6), Guard::new(1, 9)]
}

fn three_more() -> [Change; 3] {
    [7, 8, 9].map(|row| change(1, row, None, Some(9)))
}

#[test]
fn changes_and_guards_flatten_in_order() {
    let changes = [
        MOVE_ONE,
        change(2, 3, None, Some(4)),
        change(5, 6, Some(7), None),
        change(8, 9, None, None),
    ];
    assert_eq!(
        flatten_changes(&changes),
        [0, 1, 1, 5, 1, 6, 2, 3, 0, 0, 1, 4, 5, 6, 1, 7, 0, 0, 8, 9, 0, 0, 0, 0]
    );
    assert_eq!(flatten_guards(&held()), [0, 5, 0, 6, 1, 9]);
    let posting = Posting {
        binding: 2,
        key: 4,
        row: 3,
    };
    assert_eq!(Change::added(posting), changes[1]);
    assert_eq!(Change::removed(posting), change(2, 3, Some(4), None));
    assert_eq!(Change::moved(posting, 8), change(2, 3, Some(4), Some(8)));
}

/// The fourteen lettered orders: letter, answer, used, poison flag.
#[test]
fn lettered_orders() {
    let mut lines = String::new();
    let mut run = |letter: char, mut index: Index, changes: &[Change], strip: &[u8]| {
        let answer = match index.with_strip(strip).publish(changes, &held()) {
            Ok(_) => Answer::Accepted,
            Err(refused) => refused.answer,
        };
        let Head { used, poisoned, .. } = index.head();
        lines += &format!("{letter} {} {used} {poisoned}\n", answer.number());
    };
    let mut poisoned = lettered();
    poisoned.poison();
    let full = Index::from_parts(lettered().head(), lettered().table()[..6].to_vec());
    let twice = [change(0, 1, None, Some(6)); 2];
    let overlap = [change(0, 3, None, Some(6)), change(0, 3, Some(6), None)];
    run('A', lettered(), &[MOVE_ONE], &[]);
    run('B', lettered(), &[change(0, 1, Some(5), None)], &[]);
    run('C', lettered(), &three_more(), &[]);
    run('D', lettered(), &three_more(), &[0, 0, 0, 1, 0]);
    run('E', lettered(), &three_more(), &[0, 0, 0, 2, 0]);
    run('F', lettered(), &[MOVE_ONE, MOVE_TWO], &[0, 0, 1]);
    run('G', lettered(), &[MOVE_ONE, MOVE_TWO], &[0, 0, 0, 2]);
    run('H', lettered(), &[MOVE_ONE], &[1]);
    run('I', lettered(), &twice, &[]);
    run('J', lettered(), &[change(0, 2, None, Some(5))], &[]);
    run('K', lettered(), &overlap, &[]);
    run('L', poisoned, &[MOVE_ONE], &[]);
    run('M', full, &[MOVE_ONE], &[]);
    run('N', lettered(), &[], &[]);
    assert_eq!(
        lines,
        "A 0 2 0\nB 0 1 0\nC 11 2 0\nD 12 3 1\nE 12 2 1\nF 13 4 1\nG 13 2 1\n\
         H 10 2 0\nI 7 2 0\nJ 8 2 0\nK 9 2 0\nL 2 2 1\nM 11 2 0\nN 0 2 0\n"
    );
}

#[test]
fn an_accepted_publish_gives_its_record_and_no_more() {
    let mut index = lettered();
    let changes = [
        change(0, 2, Some(5), None),
        MOVE_ONE,
        change(1, 7, None, Some(9)),
    ];
    assert_eq!(index.publish(&changes, &held()), Ok(vec![1, 2]));
    let postings: Vec<Posting> = index.postings().unwrap().collect();
    let expected = [(0, 6, 1), (1, 9, 7)].map(|(binding, key, row)| Posting { binding, key, row });
    assert_eq!(postings, expected);
    assert_eq!(index.table(), [0, 6, 1, 1, 9, 7, 0, 0, 0, 0, 0, 0]);
    assert_eq!(
        index.into_parts(),
        (
            Head {
                bindings: 2,
                used: 2,
                poisoned: 0
            },
            vec![0, 6, 1, 1, 9, 7, 0, 0, 0, 0, 0, 0]
        )
    );
}

/// Nothing comes out of a poisoned index any more, and nothing changes it.
fn assert_withheld(mut index: Index) {
    let before = index.clone();
    let poisoned = |answer| assert_eq!(answer, Answer::Poisoned);
    assert!(index.is_poisoned());
    poisoned(index.count(0, 5).unwrap_err().answer);
    poisoned(index.postings().err().expect("withheld").answer);
    poisoned(index.publish(&[], &[]).unwrap_err().answer);
    poisoned(index.prepare(&[], &[]).unwrap_err().answer);
    poisoned(index.rollback(&[], &[], &[]).unwrap_err().answer);
    poisoned(index.remove_sources(&[], &[]).unwrap_err().answer);
    assert_eq!(index, before);
    let (head, table) = index.into_parts();
    assert_eq!(head.poisoned, 1);
    poisoned(
        Index::from_parts(head, table)
            .count(0, 5)
            .unwrap_err()
            .answer,
    );
}

#[test]
fn a_publish_that_poisons_leaves_a_poisoned_index() {
    let mut index = lettered();
    let refused = index
        .with_strip(&[0, 0, 0, 1, 0])
        .publish(&three_more(), &held())
        .unwrap_err();
    assert_eq!(
        (refused.answer, refused.named),
        (Answer::Undo, Named::Change(2))
    );
    assert_eq!(index.table(), [0, 5, 1, 0, 5, 2, 1, 9, 8, 0, 0, 0]);
    assert_withheld(index);
}

#[test]
fn a_prepare_that_poisons_leaves_a_poisoned_index() {
    let mut index = lettered();
    let refused = index
        .with_strip(&[0, 0, 0, 2, 0])
        .prepare(&three_more(), &held())
        .unwrap_err();
    assert_eq!(
        (refused.answer, refused.named),
        (Answer::Undo, Named::Change(2))
    );
    assert_eq!(index.table(), lettered().table());
    assert_withheld(index);
}

#[test]
fn a_rollback_that_poisons_leaves_a_poisoned_index() {
    let mut index = lettered();
    let changes = [MOVE_ONE, MOVE_TWO];
    let record = index.prepare(&changes, &held()).unwrap();
    let refused = index
        .with_strip(&[1])
        .rollback(&changes, &held(), &record)
        .unwrap_err();
    assert_eq!(
        (refused.answer, refused.named),
        (Answer::Undo, Named::Change(1))
    );
    assert_eq!(index.head().used, 3);
    assert_withheld(index);
}

#[test]
fn a_removal_that_poisons_leaves_a_poisoned_index() {
    let mut index = lettered();
    let refused = index
        .with_strip(&[0, 1])
        .remove_sources(&[MOVE_ONE, MOVE_TWO], &held())
        .unwrap_err();
    assert_eq!(
        (refused.answer, refused.named),
        (Answer::Source, Named::Change(1))
    );
    assert_eq!(index.head().used, 1);
    assert_withheld(index);
}

#[test]
fn poison_by_hand_leaves_a_poisoned_index() {
    let mut index = lettered();
    index.poison();
    assert_eq!(
        index.head(),
        Head {
            poisoned: 1,
            ..lettered().head()
        }
    );
    assert_withheld(index);
}

#[test]
fn prepare_then_removal_is_publish_and_rollback_undoes_prepare() {
    let taken = change(0, 2, Some(5), None);
    let changes = [taken, MOVE_ONE, change(1, 7, None, Some(9))];
    let mut by_halves = lettered();
    let record = by_halves.prepare(&changes, &held()).unwrap();
    assert_eq!(record, [1, 2]);
    let mut back = by_halves.clone();
    back.rollback(&changes, &held(), &record).unwrap();
    assert_eq!(back, lettered());
    by_halves.remove_sources(&changes, &held()).unwrap();
    let mut at_once = lettered();
    at_once.publish(&changes, &held()).unwrap();
    assert_eq!(by_halves, at_once);
}

#[test]
fn postings_are_withheld_of_a_damaged_table() {
    // Not ascending.
    let head = Head {
        bindings: 1,
        used: 2,
        poisoned: 0,
    };
    let index = Index::from_parts(head, vec![0, 5, 2, 0, 5, 1]);
    assert_eq!(
        index.postings().err().expect("withheld").answer,
        Answer::Table
    );
    // No binding at all is well formed.
    assert_eq!(Index::new(0, 2).unwrap().postings().unwrap().count(), 0);
}

#[test]
fn limits_are_those_of_the_library() {
    let largest = Index::new(limits::BINDINGS, limits::CAPACITY).unwrap();
    assert_eq!(largest.count(63, 0), Ok(0));
    let (head, mut table) = largest.into_parts();
    let answer = |bindings, table: &[u32]| {
        let index = Index::from_parts(Head { bindings, ..head }, table.to_vec());
        index.count(0, 0).map_err(|refused| refused.answer)
    };
    assert_eq!(answer(limits::BINDINGS + 1, &table), Err(Answer::Table));
    table.extend([0, 0, 0]);
    assert_eq!(answer(limits::BINDINGS, &table), Err(Answer::Table));

    let table = |made: Result<Index, _>| made.map_err(|refused: asdrifen::Refused| refused.answer);
    assert_eq!(
        table(Index::new(limits::BINDINGS + 1, 0)),
        Err(Answer::Table)
    );
    assert_eq!(
        table(Index::new(0, limits::CAPACITY + 1)),
        Err(Answer::Table)
    );
    assert_eq!(table(Index::new(0, usize::MAX)), Err(Answer::Table));

    let publish = |changes: usize, guards: usize, strip: usize| {
        let changes = vec![change(0, 1, None, None); changes];
        let guards = vec![Guard::new(0, 5); guards];
        let mut index = lettered();
        let done = index.with_strip(&vec![0; strip]).publish(&changes, &guards);
        done.map_err(|refused| refused.answer)
    };
    assert_eq!(
        publish(limits::CHANGES, limits::GUARDS, limits::STRIP),
        Ok(vec![])
    );
    assert_eq!(publish(limits::CHANGES + 1, 0, 0), Err(Answer::List));
    assert_eq!(publish(0, limits::GUARDS + 1, 0), Err(Answer::List));
    assert_eq!(publish(0, 0, limits::STRIP + 1), Err(Answer::Strip));
}
