// SPDX-License-Identifier: Apache-2.0 OR BSD-3-Clause
// Made by the command tools/erase from crates/superio_console/src/output_ring.rt.
// These are the lines that the prover checks, without their contracts. Change them there.
//! The guest's output that waits for its reader: at most 4,096 bytes, in a ring.

/// How many bytes of output may wait, as many as a page has.
pub const OUTPUT_SIZE: usize = 4096;

/// Bytes that wait, oldest first, in a ring of 4,096 places. Any values are valid: `head` is taken modulo 4,096, and a
/// `len` above 4,096 counts as 4,096.
#[repr(C)]
#[derive(Clone)]
pub struct OutputRing {
    /// The place of the oldest byte.
    pub head: u16,
    /// How many bytes wait.
    pub len: u16,
    /// The places of the ring. The first place follows the last.
    pub bytes: [u8; 4096],
}

impl OutputRing {
    /// An empty ring.
    pub(crate) fn new() -> OutputRing {
        OutputRing {
            head: 0,
            len: 0,
            bytes: [0; 4096],
        }
    }

    /// A ring in which these bytes wait.
    pub(crate) fn from_slice(bytes: &[u8]) -> OutputRing {
        let mut places = [0; OUTPUT_SIZE];
        places[..bytes.len()].copy_from_slice(bytes);
        OutputRing {
            head: 0,
            len: bytes.len() as u16,
            bytes: places,
        }
    }

    /// How many bytes wait, at most 4,096.
    #[inline(always)]
    pub(crate) fn count(&self) -> usize {
        usize::from(self.len).min(OUTPUT_SIZE)
    }

    /// Whether no byte waits.
    #[inline(always)]
    pub(crate) fn is_empty(&self) -> bool {
        self.len == 0
    }

    /// The place at this distance from the oldest byte.
    #[inline(always)]
    fn place(&self, distance: usize) -> usize {
        (usize::from(self.head) + distance) % OUTPUT_SIZE
    }

    /// Adds a byte if there is room, and returns whether there was.
    #[inline(always)]
    pub(crate) fn push(&mut self, byte: u8) -> bool {
        let waiting = self.count();
        if waiting == OUTPUT_SIZE {
            return false;
        }
        let place = self.place(waiting);
        self.bytes[place] = byte;
        self.len = (waiting + 1) as u16;
        true
    }

    /// The bytes that wait, oldest first, in two slices: up to the last place, and from the first place on.
    pub(crate) fn as_slices(&self) -> (&[u8], &[u8]) {
        let waiting = self.count();
        let (from_start, to_end) = self.bytes.split_at(self.place(0));
        let older = waiting.min(to_end.len());
        (&to_end[..older], &from_start[..waiting - older])
    }

    /// The oldest bytes, up to the last place. There are none only if no byte waits.
    pub(crate) fn oldest(&self) -> &[u8] {
        self.as_slices().0
    }

    /// Removes the oldest bytes: `taken`, or all if fewer wait.
    pub(crate) fn remove(&mut self, taken: usize) {
        let waiting = self.count();
        let taken = taken.min(waiting);
        self.head = self.head.wrapping_add(taken as u16);
        self.len = (waiting - taken) as u16;
    }
}
