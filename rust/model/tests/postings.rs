//! Single rules of the posting table that the lettered orders do not show.

use model::{
    count, held, poison_indexes, prepare_index_destinations, publish_by_value,
    remove_index_sources, rollback_index_destinations, Done, Guard, Head,
};

const HEAD: Head = Head {
    bindings: 1,
    used: 1,
    poisoned: 0,
};

/// Guards for keys 1, 2 and 3 of binding 0.
const GUARDS: [u32; 6] = [0, 1, 0, 2, 0, 3];

/// Changes of binding 0, each as row, before and after. Key 0 stands for none.
fn list(changes: &[(u32, u32, u32)]) -> Vec<u32> {
    let flag = |key: u32| u32::from(key > 0);
    changes
        .iter()
        .flat_map(|&(row, before, after)| [0, row, flag(before), before, flag(after), after])
        .collect()
}

/// A table with the one posting (0, 1, 1) and room for three more.
fn table() -> Vec<u32> {
    vec![0, 1, 1, 0, 0, 0, 0, 0, 0, 0, 0, 0]
}

fn publish(changes: &[u32], strip: &[u8]) -> (u32, u32, u32) {
    told(publish_by_value(
        HEAD,
        &mut table(),
        changes,
        &GUARDS,
        strip,
        &mut [9; 8],
    ))
}

fn told(done: Done) -> (u32, u32, u32) {
    (done.told.answer, done.told.named, done.told.other)
}

#[test]
fn twice_stops_at_the_least_later_change() {
    let changes = list(&[(5, 0, 2), (6, 0, 2), (6, 0, 2), (5, 0, 2)]);
    assert_eq!(publish(&changes, &[]), (7, 1, 2));
}

#[test]
fn each_check_is_over_the_whole_list_before_the_next() {
    let twice_then_not_held = list(&[(5, 0, 2), (5, 0, 2), (5, 0, 4)]);
    assert_eq!(publish(&twice_then_not_held, &[]), (6, 2, 0));
    assert_eq!(publish(&twice_then_not_held, &[3]), (4, 0, 0));
}

#[test]
fn overlap_names_the_change_with_the_source() {
    let later_destination = list(&[(1, 1, 3), (5, 2, 0), (5, 0, 2)]);
    assert_eq!(publish(&later_destination, &[]), (9, 1, 0));
    let own_destination = list(&[(1, 1, 0), (5, 2, 2)]);
    assert_eq!(publish(&own_destination, &[]), (9, 1, 0));
}

#[test]
fn a_failing_byte_is_read_before_room_is_looked_at() {
    let mut full = vec![0, 1, 1];
    let changes = list(&[(5, 0, 2)]);
    let done = publish_by_value(HEAD, &mut full, &changes, &GUARDS, &[2], &mut [9]);
    assert_eq!(told(done), (10, 0, 0));
}

#[test]
fn an_absent_source_reads_its_byte() {
    let changes = list(&[(7, 1, 0), (7, 1, 0), (8, 1, 0)]);
    assert_eq!(publish(&changes, &[]), (0, 0, 0));
    assert_eq!(publish(&changes, &[0, 1]), (13, 1, 0));
    assert_eq!(publish(&changes, &[0, 0, 2]), (13, 2, 0));
    assert_eq!(publish(&changes, &[0, 0, 0, 2]), (0, 0, 0));
}

#[test]
fn the_record_list_needs_a_place_for_each_change() {
    let changes = list(&[(1, 1, 0), (2, 1, 0)]);
    let mut table = table();
    let done = publish_by_value(HEAD, &mut table, &changes, &GUARDS, &[], &mut [9]);
    assert_eq!(told(done), (5, 0, 0));
}

#[test]
fn a_change_that_brings_nothing_is_not_recorded() {
    let changes = list(&[(1, 1, 0), (5, 0, 2), (6, 0, 0), (7, 0, 3)]);
    let mut record = [9; 5];
    let mut table = table();
    let done = prepare_index_destinations(HEAD, &mut table, &changes, &GUARDS, &[], &mut record);
    assert_eq!(told(done), (0, 2, 0));
    assert_eq!(record, [1, 3, 9, 9, 9]);
    assert_eq!(done.head.used, 3);
    assert_eq!(table, [0, 1, 1, 0, 2, 5, 0, 3, 7, 0, 0, 0]);
}

#[test]
fn rollback_undoes_prepare() {
    let changes = list(&[(1, 1, 0), (5, 0, 2), (6, 0, 0), (7, 0, 3)]);
    let mut record = [9; 4];
    let mut table = table();
    let before = table.clone();
    let done = prepare_index_destinations(HEAD, &mut table, &changes, &GUARDS, &[], &mut record);
    let inserted = &record[..done.told.named as usize];
    let undone =
        rollback_index_destinations(done.head, &mut table, &changes, &GUARDS, &[], inserted);
    assert_eq!(told(undone), (0, 0, 0));
    assert_eq!((undone.head, table), (HEAD, before));
}

#[test]
fn rollback_goes_on_and_names_the_last_to_fail() {
    let changes = list(&[(1, 0, 2), (2, 0, 2), (3, 0, 2)]);
    let head = Head { used: 3, ..HEAD };
    let mut table = vec![0, 2, 1, 0, 2, 2, 0, 2, 3];
    let record = [2, 0, 1];
    let done =
        rollback_index_destinations(head, &mut table, &changes, &GUARDS, &[1, 2, 0], &record);
    assert_eq!(told(done), (12, 0, 0));
    assert_eq!((done.head.used, done.head.poisoned), (1, 1));
    assert_eq!(table, [0, 2, 2, 0, 0, 0, 0, 0, 0]);
}

#[test]
fn rollback_names_the_first_bad_place() {
    let changes = list(&[(1, 0, 2), (2, 1, 0), (3, 0, 2)]);
    let answer = |record: &[u32]| {
        told(rollback_index_destinations(
            HEAD,
            &mut table(),
            &changes,
            &GUARDS,
            &[],
            record,
        ))
    };
    assert_eq!(answer(&[2, 0]), (0, 0, 0));
    assert_eq!(answer(&[2, 3]), (14, 1, 0));
    assert_eq!(answer(&[1, 3]), (14, 0, 0));
    assert_eq!(answer(&[2, 0, 2]), (14, 2, 0));
    assert_eq!(answer(&[0, u32::MAX]), (14, 1, 0));
}

#[test]
fn source_removal_stops_at_its_first_failure() {
    let changes = list(&[(5, 0, 2), (1, 1, 2), (2, 1, 0)]);
    let mut table = vec![0, 1, 1, 0, 1, 2];
    let head = Head { used: 2, ..HEAD };
    let done = remove_index_sources(head, &mut table, &changes, &GUARDS, &[2, 0]);
    assert_eq!(told(done), (13, 1, 0));
    assert_eq!((done.head.used, done.head.poisoned), (1, 1));
    assert_eq!(table, [0, 1, 2, 0, 0, 0]);
}

#[test]
fn malformed_tables_and_heads_are_told_before_anything_else() {
    let answer = |bindings, used, poisoned, table: &[u32]| {
        let head = Head {
            bindings,
            used,
            poisoned,
        };
        count(head, table, u32::MAX, 0).answer
    };
    let two = [0, 1, 1, 0, 1, 2];
    assert_eq!(answer(1, 2, 0, &two), 6);
    assert_eq!(answer(1, 2, 1, &two), 2);
    assert_eq!(answer(1, 2, 2, &two), 1);
    assert_eq!(answer(0, 2, 0, &two), 1);
    assert_eq!(answer(65, 2, 0, &two), 1);
    assert_eq!(answer(64, 2, 0, &two), 6);
    assert_eq!(answer(1, 3, 0, &two), 1);
    assert_eq!(answer(1, u32::MAX, 0, &two), 1);
    assert_eq!(answer(1, 1, 0, &two), 1);
    assert_eq!(answer(1, 1, 0, &two[..5]), 1);
    assert_eq!(answer(1, 2, 0, &[0, 1, 2, 0, 1, 2]), 1);
    assert_eq!(answer(1, 2, 0, &[0, 2, 0, 0, 1, 2]), 1);
    assert_eq!(answer(0, 0, 0, &[]), 6);
    assert_eq!(answer(0, 0, 0, &[0; 12_288]), 6);
    assert_eq!(answer(0, 0, 0, &[0; 12_291]), 1);
}

#[test]
fn count_gives_the_postings_of_a_key() {
    let table = [0, 0, 0, 0, 1, 1, 0, 1, 2, 1, 1, 1, 0, 0, 0];
    let head = Head {
        bindings: 2,
        used: 4,
        poisoned: 0,
    };
    assert_eq!(count(head, &table, 0, 1).named, 2);
    assert_eq!(count(head, &table, 0, 0).named, 1);
    assert_eq!(count(head, &table, 1, 0).named, 0);
    assert_eq!(count(head, &table, 2, 0).answer, 6);
}

#[test]
fn limits_of_the_lists() {
    let new =
        |count: u32| -> Vec<u32> { (0..count).flat_map(|row| [0, row, 0, 0, 1, 2]).collect() };
    let answer = |changes: &[u32], guards: &[u32], strip: &[u8]| {
        let head = Head { used: 0, ..HEAD };
        let mut table = vec![0; 12_288];
        publish_by_value(head, &mut table, changes, guards, strip, &mut [9; 300])
            .told
            .answer
    };
    let guards = |count: usize| -> Vec<u32> { [0, 2].repeat(count) };
    assert_eq!(answer(&new(256), &guards(1_024), &[0; 1_024]), 0);
    assert_eq!(answer(&new(257), &guards(1), &[]), 3);
    assert_eq!(answer(&new(1)[..5], &guards(1), &[]), 3);
    assert_eq!(answer(&new(1), &guards(1_025), &[]), 3);
    assert_eq!(answer(&new(1), &guards(2)[..3], &[]), 3);
    assert_eq!(answer(&[0, 1, 2, 0, 0, 0], &guards(1), &[]), 3);
    assert_eq!(answer(&[0, 1, 0, 0, 0, 2], &guards(1), &[]), 3);
    assert_eq!(answer(&new(1), &guards(1), &[0; 1_025]), 4);
    assert_eq!(answer(&new(1), &guards(1), &[0, 0, 0, 3]), 4);
}

#[test]
fn held_and_poison() {
    let guards = [Guard { binding: 1, key: 2 }];
    assert!(held(&guards, 1, 2));
    assert!(!held(&guards, 2, 1));
    assert!(!held(&[], 0, 0));
    let mut head = Head {
        bindings: 99,
        used: 98,
        poisoned: 97,
    };
    poison_indexes(&mut head);
    assert_eq!((head.bindings, head.used, head.poisoned), (99, 98, 1));
}
