//! Values that AtomicOps leave.
use seq_memory::{AtomicOp, apply};
use tlp_core::Width;

/// An AtomicOp, the old value, the operand's size, and the new value.
const ROWS: [(AtomicOp, u128, Width, u128); 8] = [
    (AtomicOp::FetchAdd(7), 5, Width::Four, 12),
    (AtomicOp::FetchAdd(1), 0xFFFF_FFFF, Width::Four, 0),
    (
        AtomicOp::FetchAdd(1),
        0xFFFF_FFFF,
        Width::Eight,
        0x1_0000_0000,
    ),
    (
        AtomicOp::FetchAdd(2),
        0xFFFF_FFFF_FFFF_FFFF,
        Width::Eight,
        1,
    ),
    (AtomicOp::FetchAdd(1), u128::MAX, Width::Sixteen, 0),
    (AtomicOp::Swap(9), 5, Width::Eight, 9),
    (AtomicOp::Cas(5, 9), 5, Width::Four, 9),
    (AtomicOp::Cas(6, 9), 5, Width::Sixteen, 5),
];

/// Whether each row comes out as it should.
fn all_leave() -> bool {
    let mut right = true;
    for (op, old, width, new) in ROWS {
        right &= apply(op, old, width) == new;
    }
    right
}

#[test]
fn new_values() {
    assert!(all_leave());
}
