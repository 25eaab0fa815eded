//! 'Each end sees its own cut' (document 02).

use crate::builder::Plan;

/// Two bridges with a link of cost 5, each holding the other's view.
fn pair() -> Plan {
    Plan::new().bridges(2).link(0, 1).view(&[5]).pass_all(&[(0, 0), (1, 0)], 0)
}

/// The triangle after two rounds in view 0: bridge 1 uses link 0, bridge 2 link 1.
fn triangle() -> Plan {
    Plan::triangle().triangle_round(0).triangle_round(0)
}

#[test]
fn tags_9_and_10_have_the_bridge_first() {
    // Link 2 of the triangle joins 0 and 2. Read the other way round, bridge 2 would not be on link 0.
    Plan::triangle().bytes(&[9, 0, 2, 0, 2]).bytes(&[10, 0, 2, 0, 2]).accepted(2);
    Plan::triangle().bytes(&[9, 0, 2, 2, 0]).refused(11, &Plan::triangle());
    // The old form.
    Plan::triangle().bytes(&[9, 0, 1, 0]).refused(3, &Plan::triangle());
    Plan::triangle().bytes(&[10, 0, 1, 0]).refused(3, &Plan::triangle());
}

#[test]
fn the_own_end_shuts_the_port_and_the_far_end_does_not() {
    let [open, shut] = [["dest 0", "0 0 -", "1 5 0"], ["dest 0", "0 0 -", "1 5 -"]];
    let [delivered, stops] = ["path 1 0 delivered 1", "path 1 0 stops 1 0"];
    let ends = |plan: Plan, lines: [&str; 3], path: &str, events: usize| {
        plan.report(0).path(1, 0).prints(&[&lines[..], &[path, &format!("end {events}")]].concat());
    };
    ends(pair(), open, delivered, 6);
    // Bridge 1 has noticed nothing: it forwards, and its frames die on the link.
    ends(pair().cut(0, 0), open, stops, 7);
    ends(pair().cut(1, 0), shut, stops, 7);
    ends(pair().cut_both([0, 1], 0), shut, stops, 8);
    ends(pair().cut_both([0, 1], 0).restore(0, 0), shut, stops, 9);
    ends(pair().cut_both([0, 1], 0).restore(1, 0), open, stops, 9);
    ends(pair().cut_both([0, 1], 0).restore_both([0, 1], 0), open, delivered, 10);
}

#[test]
fn either_direction_of_a_link_is_cut_by_one_end() {
    // Bridge 0 does not forward to bridge 1, and what bridge 1 sends to bridge 0 dies.
    let plan = pair().cut(0, 0).report(0).report(1).path(1, 0).path(0, 1);
    plan.prints(&["dest 0", "0 0 -", "1 5 0", "dest 1", "0 5 -", "1 0 -", "path 1 0 stops 1 0", "path 0 1 stops 0 0", "end 9"]);
}

#[test]
fn the_hop_on_which_the_frame_dies_is_not_counted() {
    // At the first hop, and at the second.
    let first = triangle().cut(1, 1).report(0).path(2, 0).path(1, 0);
    first.prints(&["dest 0", "0 0 -", "1 1 0", "2 2 1", "path 2 0 stops 2 0", "path 1 0 delivered 1", "end 28"]);
    let second = triangle().cut(0, 0).report(0).path(2, 0).path(1, 0);
    second.prints(&["dest 0", "0 0 -", "1 1 0", "2 2 1", "path 2 0 stops 1 1", "path 1 0 stops 1 0", "end 28"]);
}

#[test]
fn a_path_from_the_destination_is_delivered_with_every_end_down() {
    pair().cut_both([0, 1], 0).path(0, 0).path(1, 1).prints(&["path 0 0 delivered 0", "path 1 1 delivered 0", "end 8"]);
}

#[test]
fn a_message_sent_before_the_senders_end_went_down_arrives() {
    let plan = Plan::new().bridges(2).link(0, 1).view(&[5]).send(0, 0).cut(0, 0).deliver(0).report(0).path(1, 0);
    plan.prints(&["dest 0", "0 0 -", "1 5 0", "path 1 0 stops 1 0", "end 5"]);
}

#[test]
fn a_message_is_sent_into_a_link_whose_far_end_is_down() {
    let plan = Plan::new().bridges(2).link(0, 1).view(&[5]).cut(1, 0).send(0, 0);
    plan.clone().deliver(0).refused(13, &plan);
    plan.restore(1, 0).deliver(0).report(0).prints(&["dest 0", "0 0 -", "1 5 0", "end 5"]);
}

#[test]
fn e4_with_one_end_cut() {
    // As in E4 bridge 1 is on view 1, without link 0. Bridge 0 still forwards into it, and its frames die.
    let plan = triangle().cut(1, 0).update(1, 1);
    plan.clone().report(0).path(2, 0).prints(&["dest 0", "0 0 -", "1 4 -", "2 2 1", "path 2 0 stops 1 1", "end 28"]);
    plan.report(1).path(0, 1).prints(&["dest 1", "0 1 0", "1 0 -", "2 1 1", "path 0 1 stops 0 0", "end 28"]);
}

#[test]
fn the_end_of_a_parallel_link_is_its_own() {
    let plan = Plan::new().bridges(2).link(0, 1).link(1, 0).view(&[5, 7]).view(&[0, 7]);
    let plan = plan.pass_all(&[(0, 0), (0, 1), (1, 0), (1, 1)], 0).cut(0, 0);
    // No other port takes the place of the one whose frames die.
    plan.clone().report(0).path(1, 0).prints(&["dest 0", "0 0 -", "1 5 0", "path 1 0 stops 1 0", "end 11"]);
    let plan = plan.update(0, 1).update(1, 1).pass_all(&[(0, 1), (1, 1), (0, 1), (1, 1)], 0).report(0).path(1, 0);
    plan.prints(&["dest 0", "0 0 -", "1 7 1", "path 1 0 delivered 1", "end 21"]);
}
