//! The conditions under which the bound of the errors is promised (demand 3).

use demo::plan::{Plan, DAY, MINUTE, START};

/// The most that two clocks may differ, and that a message may take.
const DIFFERENCE: i64 = 16_384;
const DELAY: i64 = 16_383;

/// What of the plan breaks a condition, in words; empty where the bound is promised.
pub fn broken(plan: &Plan) -> Vec<String> {
    let first = plan.clocks.iter().min().expect("a room has hosts");
    let last = plan.clocks.iter().max().expect("a room has hosts");
    let longest = plan.cables.iter().flat_map(|cable| cable.delay).max();
    let longest = longest.expect("a room has cables");

    let mut broken = Vec::new();
    if last - first > DIFFERENCE {
        broken.push(format!(
            "any two clocks differ by at most {DIFFERENCE} ms; here two differ by {} ms",
            last - first
        ));
    }
    if longest > DELAY {
        broken.push(format!(
            "a message takes at most {DELAY} ms; here a cable takes {longest} ms"
        ));
    }
    if START + plan.minutes * MINUTE + last >= DAY {
        broken.push("no clock reaches midnight; here one does".to_string());
    }
    broken
}
