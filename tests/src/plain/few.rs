//! A short list in an array of fixed size, which is written only where something is put in: setting
//! one up costs nothing, whatever its room.

use std::mem::MaybeUninit;
use std::ops::{Deref, DerefMut};

pub struct Few<T: Copy, const ROOM: usize> {
    items: [MaybeUninit<T>; ROOM],
    count: usize,
}

impl<T: Copy, const ROOM: usize> Few<T, ROOM> {
    pub const fn new() -> Self {
        Few {
            items: [const { MaybeUninit::uninit() }; ROOM],
            count: 0,
        }
    }

    pub fn is_full(&self) -> bool {
        self.count == ROOM
    }

    /// Panics if the list is full.
    pub fn push(&mut self, item: T) {
        self.items[self.count].write(item);
        self.count += 1;
    }

    /// Panics if the list is empty.
    pub fn newest(&mut self) -> &mut T {
        self.last_mut().expect("nothing was put in")
    }
}

impl<T: Copy, const ROOM: usize> Deref for Few<T, ROOM> {
    type Target = [T];

    fn deref(&self) -> &[T] {
        // SAFETY: `push` alone raises `count`, once it has written the item there.
        unsafe { std::slice::from_raw_parts(self.items.as_ptr().cast(), self.count) }
    }
}

impl<T: Copy, const ROOM: usize> DerefMut for Few<T, ROOM> {
    fn deref_mut(&mut self) -> &mut [T] {
        // SAFETY: as above.
        unsafe { std::slice::from_raw_parts_mut(self.items.as_mut_ptr().cast(), self.count) }
    }
}
