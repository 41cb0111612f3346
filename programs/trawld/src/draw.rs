//! Numbers of which it does not matter who guesses them.

use crate::secret::Secret;
use crate::stop::Stop;

#[derive(Debug)]
pub struct Draw(u64);

impl Draw {
    /// Others in each thread and at each start.
    pub fn new() -> Result<Draw, Stop> {
        let seed = Secret::random()?;
        Ok(Draw(u64::from_le_bytes(seed.bytes()[..8].try_into().expect("they are eight")) | 1))
    }

    fn next(&mut self) -> u64 {
        self.0 ^= self.0 << 13;
        self.0 ^= self.0 >> 7;
        self.0 ^= self.0 << 17;
        self.0
    }

    /// A number below this one, which is not 0.
    pub fn below(&mut self, end: u64) -> u64 {
        (self.next() >> 11) % end
    }

    /// As many bytes as there is room for.
    pub fn fill(&mut self, bytes: &mut [u8]) {
        bytes.fill_with(|| (self.next() >> 24) as u8);
    }
}
