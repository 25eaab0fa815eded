//! The example of 'Plan file', and small plans beside it.

use crate::builder::Plan;

#[test]
fn the_example_plan() {
    let plan = Plan::new().bytes(&[
        0x01, 0, 1, 2, 0x02, 0, 2, 0, 1, 0x03, 0, 4, 0, 0, 0, 5, 0x0B, 0, 1, 0, 0x05, 0, 2, 0, 0, 0x06, 0, 1, 0, 0x0B, 0, 1, 0,
    ]);
    plan.prints(&["dest 0", "0 0 -", "1 5 -", "dest 0", "0 0 -", "1 5 0", "end 4"]);
}

#[test]
fn the_builder_gives_the_example_plan() {
    let plan = Plan::new().bridges(2).link(0, 1).view(&[5]).report(0).send(0, 0).deliver(0).report(0);
    plan.prints(&["dest 0", "0 0 -", "1 5 -", "dest 0", "0 0 -", "1 5 0", "end 4"]);
}

#[test]
fn no_links_and_no_events() {
    Plan::new().bridges(2).view(&[]).prints(&["end 0"]);
    Plan::new().bridges(2).view(&[]).report(1).path(0, 1).path(1, 1).prints(&[
        "dest 1",
        "0 - -",
        "1 0 -",
        "path 0 1 stops 0 0",
        "path 1 1 delivered 0",
        "end 3",
    ]);
}

#[test]
fn lines_before_a_refusal_stand() {
    let plan = Plan::new().bridges(2).link(0, 1).view(&[5]).report(0);
    let lines = ["dest 0", "0 0 -", "1 5 -", "refused 15 at 20"];
    plan.clone().deliver(0).report(0).prints(&lines);
}

#[test]
fn an_update_to_the_present_view_changes_nothing() {
    // Bridge 1 waits for the discarded number 2, its own number. Were the number to rise to 3, it would get no port.
    let plan = Plan::triangle().triangle_round(0).triangle_round(0).cut_both([0, 1], 0).update(1, 1).update(2, 1);
    let plan = plan.pass(1, 1, 0).update(1, 1).pass(2, 1, 0).report(0);
    plan.prints(&["dest 0", "0 0 -", "1 4 1", "2 3 2", "end 34"]);
}

#[test]
fn the_lowest_of_equal_parallel_links_is_chosen_even_if_cut() {
    let plan = Plan::new().bridges(2).link(0, 1).link(1, 0).view(&[5, 5]).pass_all(&[(0, 0), (0, 1)], 0);
    plan.clone().report(0).prints(&["dest 0", "0 0 -", "1 5 0", "end 5"]);
    plan.clone().cut(1, 0).report(0).prints(&["dest 0", "0 0 -", "1 5 -", "end 6"]);
}

#[test]
fn views_with_equal_costs_are_different() {
    let plan = Plan::new().bridges(2).link(0, 1).view(&[5]).view(&[5]).update(0, 1).pass(0, 0, 0).report(0);
    plan.prints(&["dest 0", "0 0 -", "1 5 -", "end 4"]);
    plan.clone().update(1, 1).report(0).prints(&["dest 0", "0 0 -", "1 5 -", "dest 0", "0 0 -", "1 5 0", "end 6"]);
}

#[test]
fn many_reports_fit_a_plan() {
    let mut plan = Plan::new().bridges(16).view(&[]);
    while plan.len() + 4 <= 61_440 {
        plan = plan.report(15);
    }
    let printed = plan.printed();
    assert!(printed.lines().count() > 15_000 * 17);
    assert!(printed.ends_with(&format!("15 0 -\nend {}\n", (plan.len() - 7) / 4)));
}

#[test]
fn a_bridge_at_the_same_distance_gets_no_offer() {
    // Bridges 1 and 2 are both at 2 in view 0. An offer of 3 from bridge 1 would bar its distance 4 in view 1.
    let plan = Plan::new().bridges(3).link(0, 1).link(0, 2).link(1, 2).view(&[2, 2, 1]).view(&[4, 2, 9]);
    let plan = plan.update(0, 1).update(1, 1).pass(0, 0, 0).report(0);
    plan.prints(&["dest 0", "0 0 -", "1 4 0", "2 2 -", "end 5"]);
}

#[test]
fn an_update_to_the_view_last_received_moves_the_discarded_number() {
    // Bridge 2 notes number 2 of bridge 1 before it goes over to view 1 itself; its next message reports the discard.
    let plan = Plan::triangle().triangle_round(0).triangle_round(0).cut_both([0, 1], 0);
    let plan = plan.update(1, 1).pass(1, 1, 0).update(2, 1).pass(2, 1, 0).report(0);
    plan.prints(&["dest 0", "0 0 -", "1 4 1", "2 3 2", "end 33"]);
}

#[test]
fn clearing_does_not_need_an_agreed_view() {
    // Bridge 2 agrees to number 2 of bridge 1, then goes back to view 0. Its message is only noted, yet it clears.
    let plan = Plan::triangle().triangle_round(0).triangle_round(0).cut_both([0, 1], 0).update(1, 1).update(2, 1);
    let plan = plan.send(2, 1).deliver(0).pass(1, 1, 0).update(2, 0).pass(2, 1, 0).report(0);
    plan.prints(&["dest 0", "0 0 -", "1 4 1", "2 2 -", "end 36"]);
}
