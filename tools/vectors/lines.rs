//! What the programs of tools/vectors and tools/compare share: a fixed stream of numbers, and a line of words.

/// a fixed stream of numbers: Knuth's 64-bit linear congruence, its upper half
pub struct Stream(pub u64);

impl Stream {
    pub fn next(&mut self) -> u32 {
        self.0 = self.0.wrapping_mul(6364136223846793005).wrapping_add(1442695040888963407);
        (self.0 >> 32) as u32
    }

    pub fn bytes(&mut self, n: usize) -> Vec<u8> {
        (0..n).map(|_| self.next() as u8).collect()
    }

    /// numbers such as images hold: whole and broken ones up to 4,096, of both signs, and some tiny and some large ones
    pub fn floats(&mut self, n: usize) -> Vec<f32> {
        (0..n)
            .map(|_| {
                let v = (self.next() % 1_048_576) as f32 / 256.0;
                let v = if self.next() % 2 == 0 { -v } else { v };
                match self.next() % 16 {
                    0 => v * 1e-30,
                    1 => v * 1e4,
                    2 => v * 0.0,
                    _ => v,
                }
            })
            .collect()
    }
}

/// one of them
pub fn pick<T: Copy>(s: &mut Stream, of: &[T]) -> T {
    of[s.next() as usize % of.len()]
}

/// a number below n
pub fn below(s: &mut Stream, n: usize) -> usize {
    s.next() as usize % n
}

/// a number from -size to size
pub fn about(s: &mut Stream, size: f32) -> f32 {
    (s.next() as f32 / 2147483648.0 - 1.0) * size
}

pub struct Line(pub String);

impl Line {
    pub fn new(kind: u64) -> Line {
        Line(format!("{:x}", kind))
    }

    pub fn words(mut self, ws: &[usize]) -> Line {
        ws.iter().for_each(|w| self.0 += &format!(" {:x}", w));
        self
    }

    pub fn bytes(mut self, bs: &[u8]) -> Line {
        bs.iter().for_each(|b| self.0 += &format!(" {:x}", b));
        self
    }

    pub fn floats(mut self, xs: &[f32]) -> Line {
        xs.iter().for_each(|x| self.0 += &format!(" {:x}", if x.is_nan() { 0x7fc0_0000 } else { x.to_bits() }));
        self
    }
}
