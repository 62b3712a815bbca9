//! The one random generator: splitmix64, the same for a seed on every machine.

pub struct Random(u64);

impl Random {
    pub fn new(seed: u64) -> Self {
        Random(seed)
    }

    pub fn next(&mut self) -> u64 {
        self.0 = self.0.wrapping_add(0x9e37_79b9_7f4a_7c15);
        let mut z = self.0;
        z = (z ^ (z >> 30)).wrapping_mul(0xbf58_476d_1ce4_e5b9);
        z = (z ^ (z >> 27)).wrapping_mul(0x94d0_49bb_1331_11eb);
        z ^ (z >> 31)
    }

    /// From 0 to n - 1.
    pub fn below(&mut self, n: u64) -> u64 {
        ((self.next() as u128 * n as u128) >> 64) as u64
    }

    /// From low to high, both included.
    pub fn between(&mut self, low: i64, high: i64) -> i64 {
        low + self.below((high - low + 1) as u64) as i64
    }

    pub fn pick<T: Copy>(&mut self, list: &[T]) -> T {
        list[self.below(list.len() as u64) as usize]
    }

    /// A number of 0 to `bits` bits, each length as likely.
    pub fn of_bits(&mut self, bits: u32) -> u64 {
        let length = self.below(bits as u64 + 1) as u32;
        self.next().checked_shr(64 - length).unwrap_or(0)
    }

    /// `count` numbers of any size.
    pub fn list<T: Cut>(&mut self, count: usize) -> Vec<T> {
        (0..count).map(|_| T::cut(self.next())).collect()
    }

    /// `count` samples of one kind: flat, near each other, near the ends, or any.
    pub fn samples(&mut self, count: usize, depth: u8) -> Vec<u16> {
        let max = (1i64 << depth) - 1;
        let base = self.between(0, max);
        let kind = self.below(4);
        let mut sample = || match kind {
            0 => base,
            1 => (base + self.between(-6, 6)).clamp(0, max),
            2 => self.pick(&[0, 1, 2, 3, max - 3, max - 2, max - 1, max]),
            _ => self.between(0, max),
        };
        (0..count).map(|_| sample() as u16).collect()
    }

    /// A plane of slopes and one edge with noise, as a picture has.
    pub fn picture(&mut self, width: usize, height: usize, depth: u8) -> Vec<u16> {
        let (max, scale) = ((1i64 << depth) - 1, 1i64 << (depth - 8));
        let base = self.between(0, max);
        let (right, down) = (self.between(-8, 8), self.between(-8, 8));
        let (edge_x, edge_y) = (self.between(-3, 3), self.between(-3, 3));
        let (edge_at, edge) = (self.between(-100, 100), self.between(-60, 60));
        let noise = self.pick(&[0, 1, 3, 12]);
        let mut plane = Vec::with_capacity(width * height);
        for y in 0..height as i64 {
            for x in 0..width as i64 {
                let over = edge_x * x + edge_y * y > edge_at;
                let step = if over { edge * scale } else { 0 };
                let slope = (right * x + down * y) * scale / 8;
                let sample = base + slope + step + self.between(-noise, noise) * scale;
                plane.push(sample.clamp(0, max) as u16);
            }
        }
        plane
    }
}

/// A number made of a u64's low bits.
pub trait Cut {
    fn cut(v: u64) -> Self;
}

macro_rules! cut {
    ($($number:ty)*) => {
        $(impl Cut for $number {
            fn cut(v: u64) -> Self {
                v as $number
            }
        })*
    };
}

cut!(u8 u16 u32 i64);
