//! The call of the plan file's reader that tells the field, as compiled: the fields that are told, the lengths of events, and the reply of the
//! call that tells only the bytes.

use bench_tests::plan_bytes::field;
use bench_tests::reading_call::{read_field, tell_field, Progress};

const HEADER: usize = 3;

/// The tag of each event, and the bytes of its value.
const EVENTS: [(u8, usize); 9] = [(4, 2), (5, 2), (6, 1), (7, 1), (8, 1), (9, 2), (10, 2), (11, 1), (12, 2)];

/// Lent for a field: one more than its four numbers.
const LENT: [u32; 5] = [7001, 7002, 7003, 7004, 7005];

/// A view's header and these costs.
fn view_field(costs: &[u32]) -> Vec<u8> {
    field(3, &costs.iter().flat_map(|cost| cost.to_be_bytes()).collect::<Vec<u8>>())
}

// ---- the field that is told

/// What a field of these bytes, with these numbers as its value, leaves in the lent numbers.
fn told(written: &[u8], numbers: &[u8]) -> Vec<u32> {
    let number = |k: usize| numbers.get(k).map_or(0, |&number| number.into());
    vec![written[0].into(), number(0), number(1), written.len() as u32, LENT[4]]
}

/// The call that tells only the bytes replies the same, and the same bytes.
fn told_alike(p: Progress, rest: &[u8]) {
    let ((reply, out), (read, bytes)) = (tell_field(rest, p, &LENT), read_field(rest, p, &[7]));
    assert_eq!(reply, read, "{p:?}, {rest:?}");
    assert_eq!(bytes, [if reply == 0 { out[3] } else { 7 }], "{p:?}, {rest:?}");
}

/// The field is read and told so, at the plan's end and before other bytes.
fn told_as_written(p: Progress, written: &[u8], numbers: &[u8]) {
    for rest in [written.to_vec(), [written, &[0xff; 4]].concat()] {
        assert_eq!(tell_field(&rest, p, &LENT), (0, told(written, numbers)), "{p:?}, {rest:?}");
        told_alike(p, &rest);
    }
}

#[test]
fn setups_told_as_written() {
    let first = Progress { stage: 0, bridges: 0, links: 0, views: 0 };
    for bridges in 2..=16 {
        told_as_written(first, &field(1, &[bridges]), &[bridges]);
        let p = Progress { stage: 1, bridges: bridges.into(), ..first };
        for (a, b) in (0..bridges).flat_map(|a| (0..bridges).map(move |b| (a, b))).filter(|(a, b)| a != b) {
            told_as_written(p, &field(2, &[a, b]), &[a, b]);
        }
    }
    // a view's costs are read apart
    for links in 0..=32 {
        let p = Progress { stage: 1, bridges: 16, links, views: 0 };
        let view = view_field(&vec![0x0001_0203; links]);
        told_as_written(p, &view, &[]);
        told_as_written(Progress { stage: 2, views: 1, ..p }, &view, &[]);
    }
}

/// Any byte may stand in an event, also where the network would refuse it.
#[test]
fn events_told_as_written() {
    let bytes = [0, 1, 2, 15, 16, 31, 32, 63, 64, 127, 128, 254, 255];
    for p in [2, 3].map(|stage| Progress { stage, bridges: 2, links: 1, views: 1 }) {
        for (tag, length) in EVENTS {
            for (a, b) in bytes.iter().flat_map(|&a| bytes.map(|b| (a, b))) {
                let numbers = &[a, b][..length];
                told_as_written(p, &field(tag, numbers), numbers);
            }
        }
    }
}

#[test]
fn lengths_of_events() {
    let p = Progress { stage: 2, bridges: 2, links: 1, views: 1 };
    for (tag, length) in EVENTS {
        for said in (0..5).filter(|&said| said != length) {
            assert_eq!(tell_field(&field(tag, &vec![0; said]), p, &LENT), (3, LENT.to_vec()), "tag {tag}, length {said}");
        }
        let whole = field(tag, &vec![0; length]);
        for there in 1..HEADER + length {
            assert_eq!(tell_field(&whole[..there], p, &LENT), (1, LENT.to_vec()), "tag {tag}, {there} bytes");
        }
        told_as_written(p, &whole, &[0; 2]);
    }
}

/// Fewer than four numbers are refused first and left alone; four zeros tell the plan's end.
#[test]
fn room_for_a_field_and_the_end() {
    let p = Progress { stage: 2, bridges: 2, links: 0, views: 1 };
    let path = field(12, &[0, 1]);
    for lent in (0..4).map(|room| &LENT[..room]) {
        // a field, the plan's end, and bytes that are refused with 1
        for rest in [&path[..], &[], &[0]] {
            assert_eq!(tell_field(rest, p, lent), (17, lent.to_vec()), "{rest:?}");
        }
    }
    assert_eq!(tell_field(&path, p, &LENT[..4]), (0, vec![12, 0, 1, 5]));
    assert_eq!(tell_field(&[], p, &LENT[..4]), (0, vec![0; 4]));
    assert_eq!(tell_field(&[], p, &LENT), (0, vec![0, 0, 0, 0, LENT[4]]));
    assert_eq!(tell_field(&[0], p, &LENT), (1, LENT.to_vec()));
    assert_eq!(tell_field(&[], Progress { stage: 1, views: 0, ..p }, &LENT), (4, LENT.to_vec()));
}
