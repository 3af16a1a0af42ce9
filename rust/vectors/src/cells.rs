//! Slices as a call gets them.

/// Elements on each side of a slice.
const MARGIN: usize = 64;

/// A copy of a slice between two margins. The library gets a pointer into it, so that a write past either end, or to
/// what is lent for reading alone, is seen and does no harm.
pub struct Cells<T>(Vec<T>);

impl<T: Copy + PartialEq + From<u8>> Cells<T> {
    pub fn of(slice: &[T]) -> Self {
        let margin = [T::from(crate::IN_BYTES); MARGIN];
        Cells([&margin, slice, &margin].concat())
    }

    pub fn pointer(&mut self) -> *mut T {
        self.0.as_mut_ptr().wrapping_add(MARGIN)
    }

    pub fn len(&self) -> usize {
        self.0.len() - 2 * MARGIN
    }

    /// The slice after the call.
    fn returned(&self) -> &[T] {
        let (front, rest) = self.0.split_at(MARGIN);
        let (slice, back) = rest.split_at(self.len());
        let untouched = |margin: &[T]| margin.iter().all(|&cell| cell == T::from(crate::IN_BYTES));
        assert!(
            untouched(front) && untouched(back),
            "a call wrote beside a slice that it was lent"
        );
        slice
    }

    /// After a call that may write to the slice.
    pub fn put_into(&self, slice: &mut [T]) {
        slice.copy_from_slice(self.returned());
    }

    /// After a call that may only read it.
    pub fn expect_same(&self, slice: &[T]) {
        assert!(
            self.returned() == slice,
            "a call wrote to a slice that it was lent for reading"
        );
    }
}
