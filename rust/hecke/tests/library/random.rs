//! Random numbers, lists and elements from a seed (splitmix64).

/// Words at which a sum or product wraps or vanishes.
pub const EDGES: [u64; 6] = [0, 1, 2, 3, 1 << 63, u64::MAX];

pub struct Random(pub u64);

impl Random {
    pub fn word(&mut self) -> u64 {
        self.0 = self.0.wrapping_add(0x9e3779b97f4a7c15);
        let mixed = (self.0 ^ self.0 >> 30).wrapping_mul(0xbf58476d1ce4e5b9);
        let mixed = (mixed ^ mixed >> 27).wrapping_mul(0x94d049bb133111eb);
        mixed ^ mixed >> 31
    }

    pub fn below(&mut self, bound: usize) -> usize {
        (self.word() % bound as u64) as usize
    }

    pub fn pick<T: Copy>(&mut self, list: &[T]) -> T {
        list[self.below(list.len())]
    }

    pub fn bytes(&mut self, size: usize) -> Vec<u8> {
        (0..size).map(|_| self.word() as u8).collect()
    }

    pub fn words(&mut self, size: usize) -> Vec<u64> {
        (0..size).map(|_| self.word()).collect()
    }

    /// An edge, or any word.
    pub fn parameter(&mut self) -> u64 {
        if self.below(4) == 0 {
            self.word()
        } else {
            self.pick(&EDGES)
        }
    }

    /// A permutation of so many points.
    pub fn images(&mut self, points: usize) -> Vec<u8> {
        let mut images: Vec<u8> = (1..=points as u8).collect();
        for index in (1..points).rev() {
            images.swap(index, self.below(index + 1));
        }
        images
    }

    pub fn tower(&mut self, m: usize) -> Vec<u8> {
        (1..=m).map(|j| self.below(j + 1) as u8).collect()
    }

    pub fn letters(&mut self, m: usize, size: usize) -> Vec<u8> {
        (0..size).map(|_| self.below(m) as u8 + 1).collect()
    }

    /// Letters of both signs.
    pub fn signed_letters(&mut self, m: usize, size: usize) -> Vec<i8> {
        (0..size).map(|_| (self.below(m) as i8 + 1) * self.pick(&[1, -1])).collect()
    }

    /// So many coefficients: any words, edges, small ones, or a single 1.
    pub fn element(&mut self, size: usize) -> Vec<u64> {
        match self.below(4) {
            0 => self.words(size),
            1 => (0..size).map(|_| self.pick(&EDGES)).collect(),
            2 => (0..size).map(|_| self.below(10) as u64).collect(),
            _ => {
                let place = self.below(size);
                (0..size).map(|index| (index == place) as u64).collect()
            }
        }
    }
}
