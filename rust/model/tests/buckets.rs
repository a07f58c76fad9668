//! The bucket rules and the stamp test.

use model::{canonical_buckets_bitmap, canonical_buckets_sort, stamp_precedes_snapshot};

/// What stands in output and scratch before each call.
const STALE: u32 = 77;

/// Answer, named value, output and scratch of the bitmap engine, once the sort engine agrees.
fn both(
    input: &[u32],
    buckets: u32,
    places: usize,
    words: usize,
) -> (u32, u32, Vec<u32>, Vec<u32>) {
    let (mut output, mut scratch) = (vec![STALE; places], vec![STALE; words]);
    let told = canonical_buckets_bitmap(input, buckets, &mut output, &mut scratch);
    let mut sorted = vec![STALE; places];
    assert_eq!(canonical_buckets_sort(input, buckets, &mut sorted), told);
    assert_eq!(sorted, output);
    (told.answer, told.named, output, scratch)
}

#[test]
fn distinct_elements_ascend() {
    let expected = (0, 3, vec![0, 1, 3, STALE, STALE], vec![0b1011, STALE]);
    assert_eq!(both(&[3, 1, 3, 0], 4, 5, 2), expected);
}

#[test]
fn the_first_bad_element_is_named_and_nothing_written() {
    let expected = (32, 9, vec![STALE; 3], vec![STALE; 1]);
    assert_eq!(both(&[2, 9, 7], 5, 3, 1), expected);
}

#[test]
fn no_bucket() {
    assert_eq!(both(&[], 0, 0, 0), (0, 0, vec![], vec![]));
    assert_eq!(both(&[0], 0, 0, 0), (32, 0, vec![], vec![]));
}

#[test]
fn bits_lie_in_words_of_32() {
    let expected = (0, 3, vec![31, 32, 64], vec![1 << 31, 1, 1, STALE]);
    assert_eq!(both(&[64, 31, 32], 65, 3, 4), expected);
}

#[test]
fn limits_come_before_space() {
    let mut output = [STALE; 1];
    let mut sort = |input: &[u32], buckets| canonical_buckets_sort(input, buckets, &mut output);
    assert_eq!(sort(&[0; 4_097], 1).answer, 30);
    assert_eq!(sort(&[0; 4_096], 1).answer, 0);
    assert_eq!(sort(&[9; 2], 65_537).answer, 30);
    assert_eq!(sort(&[9; 2], 65_536).answer, 31);
    assert_eq!(sort(&[65_535], 65_536).answer, 0);
    let bitmap = |words: usize| canonical_buckets_bitmap(&[99], 33, &mut [0], &mut vec![0; words]);
    assert_eq!(bitmap(1).answer, 31);
    assert_eq!(bitmap(2).answer, 32);
}

#[test]
fn a_stamp_precedes_when_it_is_less() {
    assert!(stamp_precedes_snapshot(0, 1));
    assert!(!stamp_precedes_snapshot(1, 1));
    assert!(!stamp_precedes_snapshot(u64::MAX, 0));
    assert!(stamp_precedes_snapshot(1 << 32, (1 << 32) + 1));
}
