//! Worked fates of a plan that loses one of three and fails one of three.
use parameters::Plan;
use lane_core::Fate;

const PLAN: Plan = Plan {
    lose_every: 3,
    corrupt_every: 3,
};

/// Counts with their fates: the first ten, and of 65,536 values the greatest of the 21,845 that are lost, the one above
/// it, the one below the 21,845 that fail, and the least of these.
const FATES: [(u64, Fate); 14] = [
    (1, Fate::Good),
    (2, Fate::Lost),
    (3, Fate::Failed),
    (4, Fate::Good),
    (5, Fate::Lost),
    (6, Fate::Failed),
    (7, Fate::Lost),
    (8, Fate::Failed),
    (9, Fate::Good),
    (10, Fate::Lost),
    (2892, Fate::Lost),
    (33491, Fate::Good),
    (1446, Fate::Good),
    (32045, Fate::Failed),
];

/// Whether each count has its fate.
fn fates_are_right() -> bool {
    let mut right = true;
    for (count, fate) in FATES {
        right &= PLAN.fate(count) == fate;
    }
    right
}

#[test]
fn worked_fates() {
    assert!(fates_are_right());
}
