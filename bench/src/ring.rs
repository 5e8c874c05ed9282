//! The newest records of one kind, in memory that the user lends.

/// A ring over lent slots; the oldest record gives way to the newest.
pub struct Ring<'a, T: Copy> {
    slots: &'a mut [T],
    /// Where the next record goes.
    next: usize,
    count: usize,
}

impl<'a, T: Copy> Ring<'a, T> {
    pub fn new(slots: &'a mut [T]) -> Self {
        Ring { slots, next: 0, count: 0 }
    }

    pub fn push(&mut self, record: T) {
        let capacity = self.slots.len();
        if let Some(slot) = self.slots.get_mut(self.next) {
            *slot = record;
            self.next = if self.next + 1 == capacity { 0 } else { self.next + 1 };
            self.count = capacity.min(self.count + 1);
        }
    }

    pub fn clear(&mut self) {
        self.next = 0;
        self.count = 0;
    }

    pub fn len(&self) -> usize {
        self.count
    }

    pub fn is_empty(&self) -> bool {
        self.count == 0
    }

    /// The record of this age; age 0 is the newest.
    pub fn get(&self, age: usize) -> Option<T> {
        if age >= self.count {
            return None;
        }
        let back = age + 1;
        let slot = if back <= self.next { self.next - back } else { self.next + self.slots.len() - back };
        self.slots.get(slot).copied()
    }
}

#[cfg(test)]
mod tests {
    use super::*;

    #[test]
    fn example_of_the_page() {
        let mut memory = [0; 3];
        let mut ring = Ring::new(&mut memory);
        let reads = |ring: &Ring<'_, i32>| (ring.len(), ring.get(0), ring.get(2), ring.get(3));
        assert_eq!(reads(&ring), (0, None, None, None));
        ring.push(7);
        assert_eq!(reads(&ring), (1, Some(7), None, None));
        ring.push(8);
        assert_eq!(reads(&ring), (2, Some(8), None, None));
        ring.push(9);
        assert_eq!(reads(&ring), (3, Some(9), Some(7), None));
        ring.push(4);
        assert_eq!(reads(&ring), (3, Some(4), Some(8), None));
        ring.clear();
        assert_eq!(reads(&ring), (0, None, None, None));
    }

    #[test]
    fn no_slots_hold_nothing() {
        let mut ring: Ring<'_, u8> = Ring::new(&mut []);
        ring.push(1);
        assert_eq!((ring.len(), ring.get(0)), (0, None));
    }
}
