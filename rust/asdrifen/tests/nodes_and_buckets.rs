//! The owning node, and the bucket calls over lent and own lists.

use asdrifen::{
    canonical_buckets, canonical_buckets_bitmap, canonical_buckets_sort, enough_rounds, held,
    limits, output_length, scratch_length, stamp_precedes_snapshot, Answer, Guard, Named, Node,
    Refused, View,
};

fn answer<T>(done: Result<T, Refused>) -> Answer {
    done.err()
        .map_or(Answer::Accepted, |refused| refused.answer)
}

#[test]
fn a_node_keeps_what_an_error_left() {
    // Lane 2 is cleared, then storage meets an error at lane 1.
    let mut node = Node::guarded(3, 0b111, 0b111);
    let refused = node.detach_before_retire(&[], &[0, 2], 9).unwrap_err();
    assert_eq!(
        (refused.answer, refused.named),
        (Answer::Offset, Named::Rounds(0))
    );
    assert_eq!(node, Node::guarded(3, 0b011, 0b111));
    // It goes on from there. The top lane is not attached any more, so the pass says no.
    assert_eq!(node.detach_before_retire(&[], &[], 2), Ok(2));
    assert!(node.is_retired());
    assert_eq!(
        node.view(),
        View {
            height: 3,
            guarded: 1,
            retired: 1,
            attached: 0,
            window: 0
        }
    );
    assert_eq!(answer(node.detach_before_retire(&[], &[], 2)), Answer::View);
}

#[test]
fn passes_say_yes_or_no() {
    let mut node = Node::guarded(2, 0b11, 0b11);
    assert_eq!(node.cached_detach(&[5], &[]), Ok(true));
    assert_eq!(node, Node::guarded(2, 0, 0b11));
    assert_eq!(node.cached_detach(&[5], &[]), Ok(false));

    let mut node = Node::guarded(2, 0b01, 0b01);
    assert_eq!(node.refreshed_detach(&[], &[]), Ok(false));
    assert_eq!(node, Node::guarded(2, 0, 0b01));
    let mut bare = Node::guarded(2, 0, 0);
    assert_eq!(bare.refreshed_detach(&[], &[]), Ok(true));
    let mut outside = Node::guarded(2, 0b10, 0b01);
    assert_eq!(answer(outside.refreshed_detach(&[], &[])), Answer::Window);
}

#[test]
fn a_damaged_view_is_kept_as_it_came() {
    let view = View {
        height: 3,
        guarded: 7,
        retired: 9,
        attached: 1,
        window: 1,
    };
    let mut node = Node::from_view(view);
    assert_eq!(answer(node.detach_before_retire(&[], &[], 1)), Answer::View);
    assert_eq!(node.view(), view);
    assert!(!node.is_retired());
}

#[test]
fn lane_limits_are_those_of_the_library() {
    let detach = |height, strip: usize| {
        let strip = vec![0; strip];
        answer(Node::guarded(height, 0, 0).detach_before_retire(&[], &strip, enough_rounds(&strip)))
    };
    assert_eq!(detach(limits::LANES, limits::STRIP), Answer::Accepted);
    assert_eq!(detach(limits::LANES + 1, 0), Answer::Height);
    assert_eq!(detach(1, limits::STRIP + 1), Answer::LaneStrip);
}

#[test]
fn enough_rounds_are_enough_and_no_more() {
    // The window is empty, so the cached pass reads no byte. Then three times a refresh goes well
    // and the compare fails; the next round clears the lane, and the one after says yes.
    let strip = [0, 1, 0, 1, 0, 1];
    let detach = |rounds| Node::guarded(1, 1, 0).detach_before_retire(&[], &strip, rounds);
    assert_eq!(enough_rounds(&strip), 5);
    assert_eq!(detach(5), Ok(5));
    assert_eq!(answer(detach(4)), Answer::Budget);
}

#[test]
fn the_part_of_the_output_is_the_order() {
    let mut output = [99; 6];
    assert_eq!(
        canonical_buckets_sort(&[3, 1, 3, 0], 4, &mut output),
        Ok(&[0, 1, 3][..])
    );
    assert_eq!(output, [0, 1, 3, 99, 99, 99]);
    let (mut output, mut scratch) = ([99; 6], [u32::MAX; 2]);
    let order = canonical_buckets_bitmap(&[3, 1, 3, 0], 4, &mut output, &mut scratch);
    assert_eq!(order, Ok(&[0, 1, 3][..]));
    assert_eq!(
        (output, scratch),
        ([0, 1, 3, 99, 99, 99], [0b1011, u32::MAX])
    );
}

#[test]
fn told_lengths_are_enough_and_no_more() {
    for (numbers, buckets) in [
        (1, 1),
        (3, 32),
        (3, 33),
        (5, 2),
        (1, 64),
        (1, 65),
        (4_096, 65_536),
    ] {
        let input = vec![0; numbers];
        let bitmap = |output: usize, scratch: usize| {
            answer(canonical_buckets_bitmap(
                &input,
                buckets,
                &mut vec![0; output],
                &mut vec![0; scratch],
            ))
        };
        let (output, scratch) = (output_length(numbers, buckets), scratch_length(buckets));
        assert_eq!(bitmap(output, scratch), Answer::Accepted);
        assert_eq!(bitmap(output - 1, scratch), Answer::BucketRoom);
        assert_eq!(bitmap(output, scratch - 1), Answer::BucketRoom);
    }
    assert_eq!(
        (output_length(0, 4), output_length(4, 0), scratch_length(0)),
        (0, 0, 0)
    );
    assert_eq!(scratch_length(u32::MAX), 1 << 27);
}

#[test]
fn own_lists_take_all_that_the_calls_take() {
    let input: Vec<u32> = (0..limits::INPUT as u32).rev().collect();
    let sorted: Vec<u32> = (0..limits::INPUT as u32).collect();
    assert_eq!(canonical_buckets(&input, limits::BUCKETS), Ok(sorted));
    assert_eq!(canonical_buckets(&[3, 1, 3, 0], 4), Ok(vec![0, 1, 3]));
    assert_eq!(canonical_buckets(&[], 0), Ok(vec![]));
    assert_eq!(
        canonical_buckets(&[0], 0).unwrap_err().named,
        Named::Element(0)
    );
    assert_eq!(
        answer(canonical_buckets(&[0; limits::INPUT + 1], 1)),
        Answer::Limits
    );
    assert_eq!(
        answer(canonical_buckets(&[], limits::BUCKETS + 1)),
        Answer::Limits
    );
    assert_eq!(answer(canonical_buckets(&[], u32::MAX)), Answer::Limits);
}

#[test]
fn guards_and_stamps() {
    let guards = [Guard::new(0, 5), Guard::new(1, 9)];
    assert!(held(&guards, 1, 9));
    assert!(!held(&guards, 0, 9));
    assert!(!held(&[], 0, 0));
    assert!(stamp_precedes_snapshot(u64::MAX - 1, u64::MAX));
    assert!(!stamp_precedes_snapshot(7, 7));
    assert!(!stamp_precedes_snapshot(1 << 32, 1));
}
