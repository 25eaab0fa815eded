//! Buffers between guards.

/// A number that stands in the guards.
pub trait Guard: Copy + PartialEq {
    const GUARD: Self;
}

impl Guard for u8 {
    const GUARD: u8 = 0xa5;
}

impl Guard for u32 {
    const GUARD: u32 = 0xdead_beef;
}

const WIDTH: usize = 16;

/// A buffer that is lent to a call, between guards that no call may write.
#[derive(Clone, Debug)]
pub struct Buffer<T = u32> {
    memory: Vec<T>,
}

impl<T: Guard> Buffer<T> {
    pub fn of(numbers: &[T]) -> Buffer<T> {
        Buffer { memory: [&[T::GUARD; WIDTH], numbers, &[T::GUARD; WIDTH]].concat() }
    }

    pub fn numbers(&self) -> &[T] {
        &self.memory[WIDTH..self.memory.len() - WIDTH]
    }

    pub fn numbers_mut(&mut self) -> &mut [T] {
        let end = self.memory.len() - WIDTH;
        &mut self.memory[WIDTH..end]
    }

    pub fn is_guarded(&self) -> bool {
        let end = self.memory.len() - WIDTH;
        self.memory[..WIDTH].iter().chain(&self.memory[end..]).all(|&x| x == T::GUARD)
    }

    /// The numbers after a call. Panics where the call wrote outside them.
    pub fn back(&self) -> Vec<T> {
        assert!(self.is_guarded(), "a write outside a lent buffer");
        self.numbers().to_vec()
    }
}
