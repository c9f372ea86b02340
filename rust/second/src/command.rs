//! The two algorithms that derive a command from the decisions of the link
//! sets. A command byte has one bit per link set, the lowest first.

/// Algorithm 1: up if all link sets decide 1, else down.
pub fn algorithm_1(commands: u8, link_sets: u8) -> i32 {
    if (0..link_sets).all(|set| decision(commands, set)) {
        1
    } else {
        -1
    }
}

/// Algorithm 2 in the fifth slot of a set that nothing has spoilt: the five
/// command bytes of the set, oldest first.
pub fn algorithm_2(five: [u8; 5], link_sets: u8) -> i32 {
    let temporaries: Vec<i32> = (0..link_sets)
        .map(|set| temporary(five.map(|commands| decision(commands, set))))
        .collect();
    vote(&temporaries)
}

/// What one link set gives for its five decisions.
pub fn temporary(decisions: [bool; 5]) -> i32 {
    if decisions.iter().all(|&one| one) {
        1
    } else if decisions.iter().all(|&one| !one) {
        -1
    } else {
        0
    }
}

/// The command of the temporaries of all link sets: down if any is down;
/// else up if their sum is more than half their number, asked without a
/// division; else none.
pub fn vote(temporaries: &[i32]) -> i32 {
    let sum: i32 = temporaries.iter().sum();
    if temporaries.contains(&-1) {
        -1
    } else if 2 * sum > temporaries.len() as i32 {
        1
    } else {
        0
    }
}

fn decision(commands: u8, set: u8) -> bool {
    commands >> set & 1 == 1
}
