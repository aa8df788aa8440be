//! Tables of rows.
use kit::alloc::Global;

/// What has to come of something.
pub trait Row {
    /// Whether it comes of it.
    fn is_right(&self, alloc: Global) -> bool;
}

/// Whether all rows are right.
pub fn all_right<T: Row>(rows: &[T], alloc: Global) -> bool {
    for row in rows {
        if !row.is_right(alloc) {
            return false;
        }
    }
    true
}
