// SPDX-License-Identifier: Apache-2.0 OR BSD-3-Clause
// Made by the command tools/erase from crates/superio_core/src/fifo.rt.
// These are the lines that the prover checks, without their contracts. Change them there.
//! What a port needs of its receive FIFO, and a FIFO in the 64 places of an array.

/// The capacity of the FIFO, as in a 16750.
pub const FIFO_SIZE: usize = 64;

/// The fewest bytes for which a copy is cheaper than a loop.
const COPY_MIN: usize = 8;

/// What a port needs from its receive FIFO: a list of at most 64 bytes, oldest first.
pub trait RxFifo {
    /// How many bytes are held.
    // Clauses in crates/superio_core/src/fifo.rt: value, bound.
    fn len(&self) -> usize;

    /// Whether no byte is held.
    // Clauses in crates/superio_core/src/fifo.rt: returns.
    fn is_empty(&self) -> bool;

    /// Removes the oldest byte and returns it, or `None` if no byte is held.
    // Clauses in crates/superio_core/src/fifo.rt: byte, rest, len_in_range.
    fn take_first(&mut self) -> Option<u8>;

    /// Adds a byte if there is room, and returns whether there was.
    // Clauses in crates/superio_core/src/fifo.rt: room, added, len_in_range.
    fn push(&mut self, byte: u8) -> bool;

    /// Adds the first of these bytes, as many as fit, and returns how many it added.
    // Clauses in crates/superio_core/src/fifo.rt: count, added, len_in_range.
    fn fill(&mut self, bytes: &[u8]) -> usize;
}

/// Received bytes in a ring of 64 places. Any values are valid: `head` is taken modulo 64, and a `len` above 64 counts
/// as 64.
#[repr(C)]
#[derive(Clone, Debug)]
pub struct ArrayFifo {
    /// The place of the oldest byte.
    pub head: u8,
    /// How many bytes are held.
    pub len: u8,
    /// The places of the ring. The first place follows the last.
    pub bytes: [u8; 64],
}

impl ArrayFifo {
    /// An empty FIFO.
    pub(crate) fn new() -> ArrayFifo {
        ArrayFifo {
            head: 0,
            len: 0,
            bytes: [0; 64],
        }
    }

    /// How many bytes are held, at most 64.
    #[inline(always)]
    fn count(&self) -> usize {
        usize::from(self.len).min(FIFO_SIZE)
    }

    /// The place at this distance from the oldest byte.
    #[inline(always)]
    fn place(&self, distance: usize) -> usize {
        (usize::from(self.head) + distance) % FIFO_SIZE
    }

    /// The held bytes, oldest first, in two slices: up to the last place, and from the first place on.
    pub(crate) fn as_slices(&self) -> (&[u8], &[u8]) {
        let held = self.count();
        let (from_start, to_end) = self.bytes.split_at(self.place(0));
        let older = held.min(to_end.len());
        (&to_end[..older], &from_start[..held - older])
    }

    /// Puts these bytes into the places after the first `held`, one at a time.
    #[inline(always)]
    fn put_each(&mut self, held: usize, bytes: &[u8]) {
        for i in 0..bytes.len() {
            let place = self.place(held + i);
            self.bytes[place] = bytes[i];
        }
    }

    /// Puts these bytes into the places after the first `held`: first up to the last place, and then from the first
    /// place on.
    #[inline(never)]
    fn put_all(&mut self, held: usize, bytes: &[u8]) {
        let room = FIFO_SIZE - self.place(held);
        let (to_end, from_start) = bytes.split_at(bytes.len().min(room));
        self.copy_in(held, to_end);
        self.copy_in(held + to_end.len(), from_start);
    }

    /// Copies these bytes into the places after the first `held`, none of them past the last place.
    #[inline(always)]
    fn copy_in(&mut self, held: usize, bytes: &[u8]) {
        let place = self.place(held);
        self.bytes[place..place + bytes.len()].copy_from_slice(bytes);
    }
}

impl RxFifo for ArrayFifo {
    #[inline(always)]
    fn len(&self) -> usize {
        self.count()
    }

    #[inline(always)]
    fn is_empty(&self) -> bool {
        self.len == 0
    }

    #[inline(always)]
    fn take_first(&mut self) -> Option<u8> {
        let held = self.count();
        if held == 0 {
            return None;
        }
        let byte = self.bytes[self.place(0)];
        self.head = self.head.wrapping_add(1);
        self.len = (held - 1) as u8;
        Some(byte)
    }

    #[inline(always)]
    fn push(&mut self, byte: u8) -> bool {
        let held = self.count();
        if held == FIFO_SIZE {
            return false;
        }
        let place = self.place(held);
        self.bytes[place] = byte;
        self.len = (held + 1) as u8;
        true
    }

    #[inline(always)]
    fn fill(&mut self, bytes: &[u8]) -> usize {
        let held = self.count();
        let count = bytes.len().min(FIFO_SIZE - held);
        let bytes = &bytes[..count];
        if count < COPY_MIN {
            self.put_each(held, bytes);
        } else {
            self.put_all(held, bytes);
        }
        self.len = (held + count) as u8;
        count
    }
}
