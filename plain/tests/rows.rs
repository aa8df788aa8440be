//! Tables of rows.

/// What has to come of something.
pub trait Row {
    /// Whether it comes of it.
    fn is_right(&self) -> bool;
}

/// Whether all rows are right.
pub fn all_right<T: Row>(rows: &[T]) -> bool {
    for row in rows {
        if !row.is_right() {
            return false;
        }
    }
    true
}
