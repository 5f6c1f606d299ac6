//! Memory lent to a call: the cells it may use, and guards on both sides that it must leave alone.

use crate::exponential::NAN_BITS;
use std::ptr;

/// An odd number, so that what is lent lies at no rounder address than it must.
const GUARDS: usize = 5;

/// What a lent cell can hold.
pub trait Cell: Copy {
    const GUARD: Self;

    fn bits(self) -> u64;
}

impl Cell for f32 {
    // An ordinary number, so that a guard that is read does not show by being NaN or zero alone.
    const GUARD: f32 = 1234.5;

    fn bits(self) -> u64 {
        u64::from(self.to_bits())
    }
}

impl Cell for u8 {
    const GUARD: u8 = 0xa5;

    fn bits(self) -> u64 {
        u64::from(self)
    }
}

impl Cell for usize {
    const GUARD: usize = 0x5ca1_ab1e_0ddb_a115;

    fn bits(self) -> u64 {
        self as u64
    }
}

#[derive(Clone)]
pub struct Lent<T> {
    cells: Vec<T>,
    /// Guards before the contents.
    front: usize,
    null: bool,
}

impl<T: Cell> Lent<T> {
    pub fn new(contents: &[T]) -> Self {
        Lent::behind(GUARDS, contents)
    }

    /// Behind so many guards, which decide how bytes lie to the words of memory.
    pub fn behind(front: usize, contents: &[T]) -> Self {
        let mut cells = Vec::with_capacity(front + contents.len() + GUARDS);
        cells.resize(front, T::GUARD);
        cells.extend(contents);
        cells.extend([T::GUARD; GUARDS]);
        Lent {
            cells,
            front,
            null: false,
        }
    }

    /// Nothing, lent as the null pointer.
    pub fn null() -> Self {
        Lent {
            null: true,
            ..Lent::new(&[])
        }
    }

    /// One number, which holds the guard's pattern before the call.
    pub fn number() -> Self {
        Lent::new(&[T::GUARD])
    }

    pub fn len(&self) -> usize {
        self.cells.len() - self.front - GUARDS
    }

    pub fn is_empty(&self) -> bool {
        self.len() == 0
    }

    pub fn is_null(&self) -> bool {
        self.null
    }

    pub fn contents(&self) -> &[T] {
        &self.cells[self.front..self.front + self.len()]
    }

    pub fn contents_mut(&mut self) -> &mut [T] {
        let end = self.front + self.len();
        &mut self.cells[self.front..end]
    }

    pub fn pointer(&self) -> *const T {
        if self.null {
            ptr::null()
        } else {
            self.contents().as_ptr()
        }
    }

    pub fn pointer_mut(&mut self) -> *mut T {
        if self.null {
            ptr::null_mut()
        } else {
            // From all cells, so that a write to a guard is seen and not lost.
            self.cells[self.front..].as_mut_ptr()
        }
    }

    /// The first cell, guards included, whose bits are others: its place, and both bits.
    pub fn difference(&self, other: &Lent<T>) -> Option<(isize, u64, u64)> {
        let pairs = self.cells.iter().zip(&other.cells);
        let bits = pairs.map(|(a, b)| (a.bits(), b.bits()));
        let (place, (a, b)) = bits.enumerate().find(|(_, (a, b))| a != b)?;
        Some((place as isize - self.front as isize, a, b))
    }
}

impl Lent<f32> {
    /// The same with one NaN for all: which one a sum gives depends on the machine.
    pub fn with_one_nan(&self) -> Self {
        let mut lent = self.clone();
        for cell in lent.cells.iter_mut().filter(|cell| cell.is_nan()) {
            *cell = f32::from_bits(NAN_BITS);
        }
        lent
    }
}
