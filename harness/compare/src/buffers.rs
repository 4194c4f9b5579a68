//! Lent buffers filled with a pattern, so that every byte written or left alone shows.

use generator::chance::Chance;

/// Bytes kept before and behind each lent buffer.
const GUARD: usize = 64;

/// What a call left behind: its number, the lent bytes before and after it, and whether bytes outside were touched.
pub struct Call {
    pub number: u64,
    pub before: Vec<u8>,
    pub after: Vec<u8>,
    pub outside: bool,
}

/// The pattern of a buffer and of the bytes around it.
fn pattern(salt: u8, room: usize) -> Vec<u8> {
    (0..room + 2 * GUARD).map(|i| (i as u8).wrapping_mul(37) ^ salt).collect()
}

impl Call {
    /// Calls with a patterned buffer of `room` bytes.
    pub fn with(chance: &mut Chance, room: usize, ask: impl FnOnce(&mut [u8]) -> u64) -> Call {
        Call::salted(chance.byte(), room, ask)
    }

    /// Calls with the buffer of `room` bytes that the salt gives.
    pub fn salted(salt: u8, room: usize, ask: impl FnOnce(&mut [u8]) -> u64) -> Call {
        let whole = pattern(salt, room);
        let mut lent = whole.clone();
        let number = ask(&mut lent[GUARD..GUARD + room]);
        let outside = lent[..GUARD] != whole[..GUARD] || lent[GUARD + room..] != whole[GUARD + room..];
        Call::told(salt, number, outside, lent[GUARD..GUARD + room].to_vec())
    }

    /// A call with the buffer that the salt gives, from what it left behind.
    pub fn told(salt: u8, number: u64, outside: bool, after: Vec<u8>) -> Call {
        let before = pattern(salt, after.len())[GUARD..GUARD + after.len()].to_vec();
        Call { number, before, after, outside }
    }

    /// Number and place of a refusal.
    pub fn refusal(&self) -> Option<(u64, u64)> {
        (self.number >> 32 != 0).then_some((self.number >> 32, self.number & 0xffff_ffff))
    }

    pub fn untouched(&self) -> bool {
        !self.outside && self.before == self.after
    }

    /// The bytes a reply with this length wrote, if the rest is untouched.
    pub fn written(&self, length: usize) -> Option<&[u8]> {
        let fits = self.number == 1 + length as u64 && length <= self.after.len();
        (fits && !self.outside && self.after[length..] == self.before[length..]).then(|| &self.after[..length])
    }
}
