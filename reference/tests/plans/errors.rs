//! 'Attractive errors': each plan prints something else if the error is made.

use crate::builder::Plan;

/// The triangle up to E6: bridge 1 is on view 1, and its sent limit on link 1 is still 2.
fn e6() -> Plan {
    Plan::triangle().triangle_round(0).triangle_round(0).cut_both([0, 1], 0).update(1, 1).update(2, 1).pass(2, 1, 0)
}

#[test]
fn sending_does_not_clear_the_sent_limit() {
    let no_port = ["dest 0", "0 0 -", "1 4 -", "2 3 2"];
    let sent = e6().send(1, 1).report(0);
    sent.prints(&[&no_port[..], &["end 32"]].concat());
    // Nor does the delivery of what was sent: only the neighbour's report of the discard.
    let delivered = e6().send(1, 1).deliver(0).report(0).pass(2, 1, 0).report(0);
    delivered.prints(&[&no_port[..], &["dest 0", "0 0 -", "1 4 1", "2 3 2", "end 36"]].concat());
}

#[test]
fn sent_limits_of_links_other_than_the_chosen_one_count() {
    // Bridge 1 promised 2 to bridge 2 over link 1 in view 0. In view 1 its distance is 4, over link 2.
    let plan = Plan::new().bridges(3).link(0, 1).link(1, 2).link(0, 1).view(&[1, 1, 9]).view(&[0, 1, 4]);
    let plan = plan.update(0, 1).update(1, 1).pass(0, 2, 0);
    plan.clone().report(0).prints(&["dest 0", "0 0 -", "1 4 -", "2 2 -", "end 5"]);
    // The sent limit of a link that is down at bridge 1's own end does not count.
    plan.clone().cut(1, 1).report(0).prints(&["dest 0", "0 0 -", "1 4 2", "2 2 -", "end 6"]);
    plan.clone().cut_both([1, 2], 1).report(0).prints(&["dest 0", "0 0 -", "1 4 2", "2 2 -", "end 7"]);
    // Bridge 1 does not see that the far end is down.
    plan.clone().cut(2, 1).report(0).prints(&["dest 0", "0 0 -", "1 4 -", "2 2 -", "end 6"]);
    // Nor does it once bridge 2 has agreed to view 1 and reported the discard.
    let agreed = plan.update(2, 1).pass(1, 1, 0).pass(2, 1, 0);
    agreed.report(0).prints(&["dest 0", "0 0 -", "1 4 2", "2 5 1", "end 10"]);
}

#[test]
fn an_equal_number_is_not_stale() {
    // Both messages of bridge 2 have number 2. Only the second has the discarded number 2, which is bridge 1's number.
    let plan = e6().pass(1, 1, 0).send(2, 1).repeat(0).report(0);
    plan.prints(&["dest 0", "0 0 -", "1 4 1", "2 3 2", "end 35"]);
}

#[test]
fn held_limits_survive_a_cut() {
    let plan = Plan::triangle().triangle_round(0).triangle_round(0);
    let shut_then_open = ["dest 0", "0 0 -", "1 1 -", "2 2 1", "dest 0", "0 0 -", "1 1 0", "2 2 1"];
    let both = plan.clone().cut_both([0, 1], 0).report(0).restore_both([0, 1], 0).report(0);
    both.prints(&[&shut_then_open[..], &["end 30"]].concat());
    let one = plan.cut(1, 0).report(0).restore(1, 0).report(0);
    one.prints(&[&shut_then_open[..], &["end 28"]].concat());
}

#[test]
fn sent_limits_survive_a_cut() {
    let plan = Plan::new().bridges(3).link(0, 1).link(1, 2).link(0, 1).view(&[1, 1, 9]).view(&[0, 1, 4]);
    let open_then_shut = ["dest 0", "0 0 -", "1 4 2", "2 2 -", "dest 0", "0 0 -", "1 4 -", "2 2 -"];
    let after = |plan: Plan| plan.update(0, 1).update(1, 1).pass(0, 2, 0).report(0);
    let both = after(plan.clone().cut_both([1, 2], 1)).restore_both([1, 2], 1).report(0);
    both.prints(&[&open_then_shut[..], &["end 10"]].concat());
    let one = after(plan.cut(1, 1)).restore(1, 1).report(0);
    one.prints(&[&open_then_shut[..], &["end 8"]].concat());
}

#[test]
fn sent_limits_are_lowered_while_the_link_is_cut() {
    // Bridge 1 is on view 1, at distance 1, only while its end of link 1 is down; its offer of 2 must still count afterwards.
    let plan = Plan::new().bridges(3).link(0, 1).link(1, 2).view(&[4, 1]).view(&[1, 1]);
    let plan = plan.pass(0, 0, 0).cut(1, 1).update(1, 1).update(1, 0).report(0).restore(1, 1).report(0);
    plan.prints(&["dest 0", "0 0 -", "1 4 0", "2 5 -", "dest 0", "0 0 -", "1 4 -", "2 5 -", "end 8"]);
}

#[test]
fn messages_over_a_cut_link_are_retained() {
    let sent = Plan::new().bridges(2).link(0, 1).view(&[5]).send(0, 0);
    let both = sent.clone().cut_both([0, 1], 0).restore_both([0, 1], 0).deliver(0).report(0);
    both.prints(&["dest 0", "0 0 -", "1 5 0", "end 7"]);
    let receiver = sent.cut(1, 0).restore(1, 0).deliver(0).report(0);
    receiver.prints(&["dest 0", "0 0 -", "1 5 0", "end 5"]);
}
