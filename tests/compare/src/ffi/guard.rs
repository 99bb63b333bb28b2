//! Buffers between guard bytes, at a changing alignment.

use std::cell::Cell;
use std::marker::PhantomData;

/// How many guard bytes lie on each side of a buffer.
const GUARD: usize = 48;

/// Content between guard bytes.
pub struct Guarded {
    name: &'static str,
    bytes: Vec<u8>,
    at: usize,
    length: usize,
    salt: u8,
}

/// The guard byte at an index of the whole buffer.
fn guard_byte(salt: u8, index: usize) -> u8 {
    salt ^ (index as u8).wrapping_mul(37)
}

/// A number that changes with every buffer: the guards' content and the alignment follow it.
fn next_turn() -> usize {
    thread_local!(static TURN: Cell<usize> = const { Cell::new(0) });
    TURN.with(|turn| {
        turn.set(turn.get().wrapping_add(1));
        turn.get()
    })
}

impl Guarded {
    pub fn new(name: &'static str, content: &[u8]) -> Guarded {
        let turn = next_turn();
        let at = GUARD + turn % 16;
        let salt = (turn as u8).wrapping_mul(157);
        let mut bytes: Vec<u8> = Vec::with_capacity(at + content.len() + GUARD);
        bytes.extend((0..at).map(|index| guard_byte(salt, index)));
        bytes.extend(content);
        bytes.extend((0..GUARD).map(|index| guard_byte(salt, at + content.len() + index)));
        Guarded {
            name,
            bytes,
            at,
            length: content.len(),
            salt,
        }
    }

    pub fn content(&self) -> &[u8] {
        &self.bytes[self.at..self.at + self.length]
    }

    /// The content as it is lent to a call.
    pub fn lend(&mut self) -> Lent<'_> {
        Lent {
            // SAFETY: `at` is an index of the bytes.
            first: unsafe { self.bytes.as_mut_ptr().add(self.at) },
            length: self.length,
            guarded: PhantomData,
        }
    }

    /// What is wrong with the guards, and with the content if it was lent only for reading.
    pub fn fault(&self, read_only: Option<&[u8]>) -> Option<String> {
        let end = self.at + self.length;
        let outside = (0..self.at).chain(end..self.bytes.len());
        for index in outside {
            if self.bytes[index] != guard_byte(self.salt, index) {
                let offset = index as i64 - self.at as i64;
                return Some(format!(
                    "{}: the byte at offset {offset} outside the buffer was changed",
                    self.name
                ));
            }
        }
        match read_only {
            Some(before) if before != self.content() => Some(format!(
                "{}: the buffer was lent for reading and was changed",
                self.name
            )),
            _ => None,
        }
    }
}

/// What a call is lent: an address and a length. The call could write to all of it, whatever it
/// was lent for, and to the guards beside it; `fault` and the comparison show where it did.
pub struct Lent<'a> {
    first: *mut u8,
    length: usize,
    guarded: PhantomData<&'a mut Guarded>,
}

impl Lent<'_> {
    pub fn bytes(&self) -> &[u8] {
        // SAFETY: the content, which is borrowed as long as this is.
        unsafe { std::slice::from_raw_parts(self.first, self.length) }
    }

    pub fn bytes_mut(&mut self) -> &mut [u8] {
        // SAFETY: as above.
        unsafe { std::slice::from_raw_parts_mut(self.first, self.length) }
    }

    /// The first byte past the content, a guard.
    pub fn past_end(&mut self) -> &mut u8 {
        // SAFETY: guards follow the content.
        unsafe { &mut *self.first.add(self.length) }
    }
}
