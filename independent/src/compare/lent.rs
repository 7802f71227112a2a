//! Tables and single numbers as they are lent to the engine: with guards
//! before and behind them, which must stay.

use independent::Words;
use std::ptr;

/// Numbers before and behind each lent table that must stay.
pub const GUARD: usize = 64;

/// A table to lend, with its guards.
#[derive(Clone, Default)]
pub struct Lent<T> {
    pub cells: Vec<T>,
    /// Whether it is lent as a null pointer if it is empty.
    pub null: bool,
}

impl<T: Copy> Lent<T> {
    pub fn len(&self) -> usize {
        self.cells.len() - 2 * GUARD
    }

    pub fn inside(&self) -> &[T] {
        &self.cells[GUARD..self.cells.len() - GUARD]
    }

    pub fn inside_mut(&mut self) -> &mut [T] {
        let end = self.cells.len() - GUARD;
        &mut self.cells[GUARD..end]
    }

    pub fn pointer(&mut self) -> *mut T {
        if self.len() == 0 && self.null {
            ptr::null_mut()
        } else {
            self.cells.as_mut_ptr().wrapping_add(GUARD)
        }
    }

    pub fn copy_from(&mut self, other: &Self) {
        self.cells.clone_from(&other.cells);
        self.null = other.null;
    }
}

impl Lent<u16> {
    /// The first n messages; the table has them.
    pub fn messages(&self, n: usize) -> &[Words] {
        &self.inside().as_chunks().0[..n]
    }
}

/// One number to lend, between two guards.
pub const ONE: [u16; 3] = [0x5a5a, 0xa5a5, 0x3c3c];

/// The number, or none if a guard was written.
pub fn the_one([before, number, behind]: [u16; 3]) -> Option<u16> {
    (before == ONE[0] && behind == ONE[2]).then_some(number)
}

/// The first number that differs, by its position in the lent table.
pub fn first_difference<T: Copy + PartialEq + Into<u64>>(
    name: &str,
    engine: &Lent<T>,
    own: &Lent<T>,
) -> Option<String> {
    let i = engine.cells.iter().zip(&own.cells).position(|(a, b)| a != b)?;
    let (a, b): (u64, u64) = (engine.cells[i].into(), own.cells[i].into());
    let position = i as i64 - GUARD as i64;
    let len = engine.len();
    Some(format!("{name}, {len} long, at {position}: engine {a}, independent {b}\n"))
}
