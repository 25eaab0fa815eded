//! E1 to E10 of 'Known examples'.

use crate::builder::Plan;

/// Two rounds in view 0. A message of number 1 from bridge 1 over link 1 stays in flight at place 0, for E8.
fn e3() -> Plan {
    Plan::triangle().send(1, 1).triangle_round(1).triangle_round(1)
}

fn e4() -> Plan {
    e3().cut_both([0, 1], 0).update(1, 1)
}

fn e5() -> Plan {
    e4().update(2, 1)
}

fn e6() -> Plan {
    e5().pass(2, 1, 1)
}

fn e7() -> Plan {
    e6().pass(1, 1, 1).pass(2, 1, 1)
}

fn e8() -> Plan {
    e7().deliver(0)
}

#[test]
fn e1_distances() {
    let plan = Plan::triangle().report(0).update(0, 1).update(1, 1).update(2, 1).report(0);
    plan.prints(&["dest 0", "0 0 -", "1 1 -", "2 2 -", "dest 0", "0 0 -", "1 4 -", "2 3 -", "end 5"]);
}

#[test]
fn e2_fresh() {
    let plan = Plan::triangle().report(0).report(1).report(2);
    plan.prints(&[
        "dest 0", "0 0 -", "1 1 -", "2 2 -", "dest 1", "0 1 -", "1 0 -", "2 1 -", "dest 2", "0 2 -", "1 1 -", "2 0 -", "end 3",
    ]);
}

#[test]
fn e3_two_rounds() {
    let plan = e3().report(0).path(2, 0);
    plan.prints(&["dest 0", "0 0 -", "1 1 0", "2 2 1", "path 2 0 delivered 2", "end 27"]);
}

#[test]
fn e4_cut_and_update() {
    let plan = e4().report(0).path(2, 0);
    plan.prints(&["dest 0", "0 0 -", "1 4 -", "2 2 1", "path 2 0 stops 1 1", "end 30"]);
}

#[test]
fn e5_second_update() {
    e5().report(0).path(2, 0).prints(&["dest 0", "0 0 -", "1 4 -", "2 3 2", "path 2 0 delivered 1", "end 31"]);
}

#[test]
fn e6_sent_limit_still_too_low() {
    e6().report(0).path(1, 0).prints(&["dest 0", "0 0 -", "1 4 -", "2 3 2", "path 1 0 stops 1 0", "end 33"]);
}

#[test]
fn e7_agreement() {
    e7().report(0).path(1, 0).prints(&["dest 0", "0 0 -", "1 4 1", "2 3 2", "path 1 0 delivered 2", "end 37"]);
}

#[test]
fn e8_stale() {
    e8().report(0).path(1, 0).prints(&["dest 0", "0 0 -", "1 4 1", "2 3 2", "path 1 0 delivered 2", "end 38"]);
    // Had the stale message been recorded, bridge 2 would hold view 0 from bridge 1 once back on it, and use link 1.
    e8().update(2, 0).report(0).prints(&["dest 0", "0 0 -", "1 4 1", "2 2 -", "end 38"]);
}

#[test]
fn e9_greatest_cost() {
    let links = Plan::new().bridges(2).link(0, 1);
    links.clone().view(&[16_777_215]).report(0).prints(&["dest 0", "0 0 -", "1 16777215 -", "end 1"]);
    links.clone().view(&[16_777_216]).report(0).prints(&["refused 9 at 9"]);
}

#[test]
fn e10_messages_in_flight() {
    let mut plan = Plan::new().bridges(2).link(0, 1).view(&[5]);
    for _ in 0..64 {
        plan = plan.send(0, 0);
    }
    plan.accepted(64);
    plan.clone().send(1, 0).refused(14, &plan);
    plan.clone().repeat(63).send(1, 0).refused(14, &plan.clone().repeat(63));
    plan.clone().lose(63).send(1, 0).accepted(66);
    plan.clone().deliver(0).send(1, 0).accepted(66);
    let full = plan.lose(5).send(1, 0);
    full.clone().send(1, 0).refused(14, &full);
}
