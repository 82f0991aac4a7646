//! What is lent to a call, and what may have changed when it returns. Buffers and lists are words of many values, with words on either side, and are compared byte for byte.

use inputs::Rng;
use std::mem::size_of;

/// Bytes on either side of an input, and words on either side of a buffer.
const MARGIN: usize = 16;
/// An input longer than this is lent where it lies.
const LONG: usize = 1 << 20;
/// What lies around an input changes from call to call, and must not matter.
const AROUND: &[u8] = b"9,\"\n GWNP\x80";

#[derive(Default)]
pub struct Lent {
    input: Vec<u8>,
    words: Vec<u64>,
    pattern: Vec<u64>,
    shift: usize,
    from: usize,
    calls: usize,
}

impl Lent {
    /// Calls f with a copy of the input and room for so many values.
    pub fn call<T: Copy, R>(&mut self, input: &[u8], room: usize, f: impl FnOnce(&[u8], &mut [T]) -> R) -> R {
        self.calls += 1;
        let words = (room * size_of::<T>()).div_ceil(8) + 2 * MARGIN + 1;
        if self.pattern.len() < words + MARGIN {
            let mut rng = Rng::new(words as u64);
            self.pattern = (0..2 * words + MARGIN).map(|_| rng.next()).collect();
        }
        self.shift = self.calls % MARGIN;
        self.words.clear();
        self.words.extend_from_slice(&self.pattern[self.shift..][..words]);
        self.from = 8 * MARGIN + if size_of::<T>() == 1 { self.calls % 8 } else { 0 };
        // Safe: the room lies within the words and is aligned for T, and a T is any bytes.
        let lent = unsafe { std::slice::from_raw_parts_mut((self.words.as_mut_ptr() as *mut u8).add(self.from) as *mut T, room) };
        if input.len() > LONG {
            return f(input, lent);
        }
        self.input.clear();
        self.input.resize(input.len() + 2 * MARGIN, AROUND[self.calls % AROUND.len()]);
        self.input[MARGIN..][..input.len()].copy_from_slice(input);
        f(&self.input[MARGIN..][..input.len()], lent)
    }

    /// The first n values of the room.
    pub fn written<T: Copy>(&self, n: usize) -> &[T] {
        // Safe as above, for n up to the room.
        unsafe { std::slice::from_raw_parts((self.words.as_ptr() as *const u8).add(self.from) as *const T, n) }
    }

    /// All bytes but the first n values of the room are as they came, and the input is.
    pub fn kept_but<T: Copy>(&self, n: usize, input: &[u8]) -> Result<(), String> {
        let (now, came) = (bytes(&self.words), bytes(&self.pattern[self.shift..][..self.words.len()]));
        let behind = self.from + n * size_of::<T>();
        if now[..self.from] != came[..self.from] || now[behind..] != came[behind..] {
            return Err(format!("bytes are changed outside the first {n} values"));
        }
        let around = AROUND[self.calls % AROUND.len()];
        let is_around = |part: &[u8]| part.iter().all(|&b| b == around);
        let changed = |at: &[u8]| at[MARGIN..][..input.len()] != *input || !is_around(&at[..MARGIN]) || !is_around(&at[MARGIN + input.len()..]);
        if input.len() <= LONG && changed(&self.input) {
            return Err("the input is changed".to_string());
        }
        Ok(())
    }
}

fn bytes(words: &[u64]) -> &[u8] {
    // Safe: words are bytes.
    unsafe { std::slice::from_raw_parts(words.as_ptr() as *const u8, 8 * words.len()) }
}
