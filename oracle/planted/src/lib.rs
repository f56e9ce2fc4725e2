//! Which planted mistake a thread makes, if any, and which planted places it passes. Only a build
//! with the feature `mistakes` holds any.

use std::cell::Cell;

/// Mistakes are numbered from 1 to below this.
pub const MOST: usize = 1024;

/// One bit for each mistake's number.
pub type Set = [u64; MOST / 64];

thread_local! {
    static MADE: Cell<u16> = const { Cell::new(0) };
    static PASSED: [Cell<u64>; MOST / 64] = const { [const { Cell::new(0) }; MOST / 64] };
}

/// From now on this thread makes the mistake of this number; 0 for none.
pub fn make(number: u16) {
    MADE.set(number);
}

/// Stands at the place whose first mistake has this number: the number of the one that is made.
#[inline]
pub fn at(first: u16) -> u16 {
    PASSED.with(|words| {
        let word = &words[usize::from(first) / 64];
        word.set(word.get() | 1 << (first % 64));
    });
    MADE.get()
}

/// The places passed since the last call, each by its first mistake's number.
pub fn passed() -> Set {
    PASSED.with(|words| std::array::from_fn(|k| words[k].take()))
}

pub fn holds(set: &Set, number: u16) -> bool {
    set[usize::from(number) / 64] >> (number % 64) & 1 == 1
}

/// The numbers from 0 to 9 with those in places `at - 1` and `at` exchanged.
pub fn swapped(at: usize) -> [usize; 10] {
    let mut order = std::array::from_fn(|k| k);
    order.swap(at - 1, at);
    order
}
