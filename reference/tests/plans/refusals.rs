//! The table of 'Where input is turned down', as far as a plan can reach it.

use crate::builder::Plan;

/// Two bridges, one link, one view: the plan before any event.
fn pair() -> Plan {
    Plan::new().bridges(2).link(0, 1).view(&[5])
}

#[test]
fn r18_plan_too_long() {
    let longest = pair().bytes(&vec![11; 61_440 - 16]);
    assert_eq!(longest.len(), 61_440);
    longest.prints(&["refused 3 at 16"]);
    longest.clone().bytes(&[0]).prints(&["refused 18 at 61440"]);
    pair().report(0).bytes(&vec![0; 100_000]).prints(&["refused 18 at 61440"]);
}

#[test]
fn r1_one_or_two_bytes_left() {
    for bytes in [&[1][..], &[1, 0], &[99], &[99, 99], &[0, 0]] {
        Plan::new().bytes(bytes).refused(1, &Plan::new());
        pair().bytes(bytes).refused(1, &pair());
        // Before 4: the plan also has no view.
        Plan::new().bridges(2).bytes(bytes).refused(1, &Plan::new().bridges(2));
    }
}

#[test]
fn r2_unknown_tag() {
    for tag in [0, 13, 14, 128, 255] {
        // Before 4: the first field is not tag 1.
        Plan::new().field(tag, &[]).refused(2, &Plan::new());
        pair().field(tag, &[0]).refused(2, &pair());
        // Before 1: the value is also cut short.
        pair().bytes(&[tag, 255, 255]).refused(2, &pair());
    }
}

#[test]
fn r4_out_of_order() {
    for tag in 2..=12 {
        Plan::new().field(tag, &[0]).refused(4, &Plan::new());
    }
    let bridges = Plan::new().bridges(2);
    for tag in 4..=12 {
        bridges.clone().field(tag, &[0]).refused(4, &bridges);
        bridges.clone().link(0, 1).field(tag, &[0]).refused(4, &bridges.clone().link(0, 1));
    }
    bridges.clone().bridges(2).refused(4, &bridges);
    pair().bridges(2).refused(4, &pair());
    pair().link(0, 1).refused(4, &pair());
    let event = pair().report(0);
    event.clone().bridges(2).refused(4, &event);
    event.clone().link(0, 1).refused(4, &event);
    event.clone().view(&[5]).refused(4, &event);
    // Before 3 and 1: the length is wrong too, and the value cut short.
    event.clone().bytes(&[3, 255, 255]).refused(4, &event);
}

#[test]
fn r4_no_view() {
    Plan::new().prints(&["refused 4 at 0"]);
    Plan::new().bridges(2).prints(&["refused 4 at 4"]);
    Plan::new().bridges(2).link(0, 1).prints(&["refused 4 at 9"]);
}

#[test]
fn r3_wrong_length() {
    Plan::new().field(1, &[]).refused(3, &Plan::new());
    Plan::new().field(1, &[2, 0]).refused(3, &Plan::new());
    let bridges = Plan::new().bridges(2);
    bridges.clone().field(2, &[0]).refused(3, &bridges);
    bridges.clone().field(2, &[0, 1, 1]).refused(3, &bridges);
    bridges.clone().view(&[5]).refused(3, &bridges);
    let link = bridges.link(0, 1);
    link.clone().view(&[]).refused(3, &link);
    link.clone().view(&[5, 5]).refused(3, &link);
    for (tag, length) in [(4, 2), (5, 2), (6, 1), (7, 1), (8, 1), (9, 2), (10, 2), (11, 1), (12, 2)] {
        pair().field(tag, &vec![0; length - 1]).refused(3, &pair());
        pair().field(tag, &vec![0; length + 1]).refused(3, &pair());
        // Before 1: the value is also cut short.
        pair().bytes(&[tag, 1, length as u8]).refused(3, &pair());
    }
}

#[test]
fn r1_value_cut_short() {
    Plan::new().bytes(&[1, 0, 1]).refused(1, &Plan::new());
    let bridges = Plan::new().bridges(2);
    bridges.clone().bytes(&[2, 0, 2, 9]).refused(1, &bridges);
    let link = bridges.link(0, 1);
    link.clone().bytes(&[3, 0, 4, 255, 255, 255]).refused(1, &link);
    pair().bytes(&[12, 0, 2, 77]).refused(1, &pair());
    pair().bytes(&[6, 0, 1]).refused(1, &pair());
}

#[test]
fn r5_bridge_count() {
    for count in [0, 1, 17, 255] {
        Plan::new().bridges(count).view(&[]).prints(&["refused 5 at 0"]);
    }
    Plan::new().bridges(16).view(&[]).prints(&["end 0"]);
}

#[test]
fn r6_and_r7_links() {
    let bridges = Plan::new().bridges(3);
    for (a, b) in [(0, 3), (3, 0), (255, 1), (1, 1), (3, 3)] {
        bridges.clone().link(a, b).refused(7, &bridges);
    }
    let full = (0..32).fold(bridges, |plan, _| plan.link(2, 0));
    full.clone().view(&[0; 32]).accepted(0);
    full.clone().link(0, 1).refused(6, &full);
    // 6 before 7.
    full.clone().link(1, 1).refused(6, &full);
}

#[test]
fn r8_and_r9_views() {
    let link = Plan::new().bridges(2).link(0, 1);
    link.clone().view(&[16_777_216]).refused(9, &link);
    link.clone().view(&[u32::MAX]).refused(9, &link);
    let full = (0..32).fold(link, |plan, _| plan.view(&[5]));
    full.clone().update(0, 31).accepted(1);
    full.clone().view(&[5]).refused(8, &full);
    // 8 before 9.
    full.clone().view(&[u32::MAX]).refused(8, &full);
}

#[test]
fn r10_no_such_bridge_view_or_link() {
    let values: [(u8, &[u8]); 20] = [
        (4, &[2, 0]),
        (4, &[0, 1]),
        (4, &[255, 255]),
        (5, &[2, 0]),
        (5, &[0, 1]),
        (5, &[2, 1]),
        (9, &[2, 0]),
        (9, &[0, 1]),
        (9, &[2, 1]),
        (9, &[255, 255]),
        (10, &[2, 0]),
        (10, &[0, 1]),
        (10, &[2, 1]),
        (10, &[255, 255]),
        (11, &[2]),
        (11, &[255]),
        (12, &[2, 0]),
        (12, &[0, 2]),
        (12, &[2, 2]),
        (12, &[255, 255]),
    ];
    for (tag, value) in values {
        pair().field(tag, value).refused(10, &pair());
    }
}

#[test]
fn r11_bridge_not_on_the_link() {
    let plan = Plan::triangle();
    plan.clone().send(2, 0).refused(11, &plan);
    plan.clone().cut(2, 0).refused(11, &plan);
    // Before 12: both ends of the link are up.
    plan.clone().restore(2, 0).refused(11, &plan);
    // Before 12 and 13: both ends are down.
    let cut = plan.cut_both([0, 1], 0);
    cut.clone().send(2, 0).refused(11, &cut);
    cut.clone().cut(2, 0).refused(11, &cut);
    cut.clone().restore(2, 0).refused(11, &cut);
}

#[test]
fn r12_end_already_so() {
    for (end, other) in [(0, 1), (1, 0)] {
        pair().restore(end, 0).refused(12, &pair());
        let cut = pair().cut(end, 0);
        cut.clone().cut(end, 0).refused(12, &cut);
        // The other end is still up.
        cut.clone().restore(other, 0).refused(12, &cut);
        let both = cut.clone().cut(other, 0);
        both.accepted(2);
        both.clone().cut(end, 0).refused(12, &both);
        both.clone().cut(other, 0).refused(12, &both);
        let restored = cut.restore(end, 0);
        restored.clone().restore(end, 0).refused(12, &restored);
        restored.clone().cut(end, 0).accepted(3);
        let one = both.restore(end, 0);
        one.clone().restore(end, 0).refused(12, &one);
        one.clone().cut(other, 0).refused(12, &one);
        one.clone().cut(end, 0).restore(other, 0).accepted(5);
    }
}

#[test]
fn r13_send_with_the_own_end_down() {
    for (own, far) in [(0, 1), (1, 0)] {
        let cut = pair().cut(own, 0);
        cut.clone().send(own, 0).refused(13, &cut);
        cut.clone().send(far, 0).accepted(2);
        let both = cut.cut(far, 0);
        both.clone().send(own, 0).refused(13, &both);
        both.clone().send(far, 0).refused(13, &both);
        let restored = both.restore(own, 0);
        restored.clone().send(own, 0).accepted(4);
        restored.clone().send(far, 0).refused(13, &restored);
        // Before 14.
        let full = (0..64).fold(pair(), |plan, _| plan.send(own, 0)).cut(own, 0);
        full.clone().send(own, 0).refused(13, &full);
        full.clone().send(far, 0).refused(14, &full);
    }
}

#[test]
fn r13_delivery_with_the_receivers_end_down() {
    for (sender, receiver) in [(0, 1), (1, 0)] {
        let sent = pair().send(sender, 0);
        let cut = sent.clone().cut(receiver, 0);
        cut.clone().deliver(0).refused(13, &cut);
        cut.clone().repeat(0).refused(13, &cut);
        cut.clone().lose(0).accepted(3);
        // 15 comes before.
        cut.clone().deliver(1).refused(15, &cut);
        cut.clone().repeat(1).refused(15, &cut);
        // The sender's end does not matter.
        let sender_down = sent.cut(sender, 0);
        sender_down.clone().repeat(0).deliver(0).accepted(4);
        sender_down.clone().lose(0).accepted(3);
        let both = cut.cut(sender, 0);
        both.clone().deliver(0).refused(13, &both);
        both.clone().repeat(0).refused(13, &both);
        both.clone().lose(0).accepted(4);
        both.clone().restore(receiver, 0).repeat(0).deliver(0).accepted(6);
        let receiver_down = both.restore(sender, 0);
        receiver_down.clone().deliver(0).refused(13, &receiver_down);
    }
}

#[test]
fn r15_no_message_at_that_place() {
    for place in [0, 1, 63, 64, 255] {
        for tag in 6..=8 {
            pair().field(tag, &[place]).refused(15, &pair());
        }
    }
    let sent = pair().send(0, 0).send(1, 0);
    sent.clone().deliver(2).refused(15, &sent);
    sent.clone().repeat(1).repeat(1).deliver(1).deliver(0).accepted(6);
    let lost = sent.lose(0);
    lost.clone().lose(1).refused(15, &lost);
}
