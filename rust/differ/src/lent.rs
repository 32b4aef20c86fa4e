//! Memory to lend: a slice in the middle of a longer buffer.

/// Elements that fill a buffer, each telling its index, so that a moved or repeated one is noticed.
pub trait Mark: Copy {
    fn mark(index: usize) -> Self;
}

impl Mark for u8 {
    fn mark(index: usize) -> u8 {
        0xC3 ^ index as u8
    }
}

impl Mark for u32 {
    fn mark(index: usize) -> u32 {
        0xA5A5_0000 + index as u32
    }
}

/// A slice with as many guards before it as behind it, which a call has to leave alone.
#[derive(Clone, Debug, PartialEq, Eq)]
pub struct Lent<T> {
    memory: Vec<T>,
    guards: usize,
}

impl<T: Mark> Lent<T> {
    /// A slice full of marks. There is at least one guard on each side.
    pub fn blank(length: usize, guards: usize) -> Lent<T> {
        assert!(guards > 0);
        Lent { memory: (0..length + 2 * guards).map(T::mark).collect(), guards }
    }

    /// A slice that holds these elements.
    pub fn holding(elements: &[T], guards: usize) -> Lent<T> {
        let mut lent = Lent::blank(elements.len(), guards);
        lent.slice_mut().copy_from_slice(elements);
        lent
    }

    pub fn length(&self) -> usize {
        self.memory.len() - 2 * self.guards
    }

    pub fn slice(&self) -> &[T] {
        &self.memory[self.guards..][..self.length()]
    }

    pub fn slice_mut(&mut self) -> &mut [T] {
        let length = self.length();
        &mut self.memory[self.guards..][..length]
    }

    /// Where the slice starts. The pointer is the whole buffer's, which is borrowed for writing also where the slice is
    /// lent for reading: so the compiler may take nothing of it as unchanged by a call, and comparing is no idle work.
    pub fn pointer(&mut self) -> *mut T {
        self.memory.as_mut_ptr().wrapping_add(self.guards)
    }

    /// The slice and its guards.
    #[cfg(test)]
    pub fn whole(&mut self) -> &mut [T] {
        &mut self.memory
    }
}

#[cfg(test)]
mod tests {
    use super::Lent;

    #[test]
    fn guards_on_both_sides() {
        let mut lent = Lent::holding(&[7u32, 8], 3);
        assert_eq!((lent.length(), lent.slice()), (2, &[7, 8][..]));
        lent.slice_mut()[1] = 9;
        let marks = |indices: [u32; 3]| indices.map(|index| 0xA5A5_0000 + index);
        assert_eq!(lent.whole()[..3], marks([0, 1, 2]));
        assert_eq!(lent.whole()[3..5], [7, 9]);
        assert_eq!(lent.whole()[5..], marks([5, 6, 7]));
        let (start, whole) = (lent.pointer(), lent.whole().as_mut_ptr());
        assert_eq!(start, whole.wrapping_add(3));
    }

    #[test]
    fn empty_slices_lie_between_guards_too() {
        let mut lent = Lent::<u8>::blank(0, 2);
        assert_eq!((lent.length(), lent.whole().len()), (0, 4));
    }
}
