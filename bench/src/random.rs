//! Random words, the same every time (xorshift), and what is made of them.

pub struct Random(u64);

impl Random {
    pub fn new() -> Random {
        Random(0x9e37_79b9_7f4a_7c15)
    }

    pub fn word(&mut self) -> u64 {
        self.0 ^= self.0 << 13;
        self.0 ^= self.0 >> 7;
        self.0 ^= self.0 << 17;
        self.0
    }

    pub fn below(&mut self, n: usize) -> usize {
        (self.word() % n as u64) as usize
    }

    pub fn element(&mut self, m: usize) -> Vec<u64> {
        (0..hecke::size(m)).map(|_| self.word()).collect()
    }

    pub fn signed_word(&mut self, m: usize) -> Vec<i8> {
        (0..100).map(|_| (self.below(m) as i8 + 1) * if self.below(2) == 0 { 1 } else { -1 }).collect()
    }

    pub fn tower(&mut self, points: usize) -> Vec<u8> {
        (1..points).map(|j| self.below(j + 1) as u8).collect()
    }

    /// Puts the images of a list in a random order.
    pub fn shuffle(&mut self, images: &mut [u8]) {
        for index in (1..images.len()).rev() {
            images.swap(index, self.below(index + 1));
        }
    }
}
