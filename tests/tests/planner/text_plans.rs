//! A plan that is correct, to be spoilt.

/// A link is moved, with everything that a careful planner writes down. Some 40 lines, every expectation met, no warning.
pub const MOVED: &str = r#"# Two cores, two wards and a laboratory. The link icuA is moved by day.
bridges coreA coreB ICU RAD LAB

link core coreA coreB
link icuA coreA ICU
link icuB coreB ICU
link radA coreA RAD
link radB coreB RAD
link lab  coreA LAB

view before core=10 icuA=20 icuB=40 radA=20 radB=30 lab=15
view during = before without icuA
view after  = before with icuA=25

label "morning"
round 2
watch ICU LAB
watch RAD LAB
expect path ICU LAB delivered
expect no outage

label "the link is pulled"
cut icuA
update all to during
round 2
expect path RAD ICU delivered
expect port ICU coreA icuB

label "the link is back"
restore coreA icuA
restore ICU icuA
update coreA coreB ICU to after
update RAD LAB to after
round
send ICU over icuA
deliver ICU over icuA
round
expect path ICU coreA delivered
expect port ICU coreA icuA
report ICU
path ICU LAB
"#;
