//! The lent tables, and the dice that make them.

/// The widths of the rows.
pub const ROAD: usize = 20;
pub const JUNCTION: usize = 5;
pub const CONNECTION: usize = 7;
pub const PAIR: usize = 2;
pub const LANE: usize = 10;
pub const EDGE: usize = 12;
pub const GAP: usize = 5;
pub const ABSENT: u32 = u32::MAX;

#[derive(Clone, Debug, Default, PartialEq)]
pub struct Tables {
    pub text: Vec<u8>,
    pub roads: Vec<u32>,
    pub sections: Vec<u32>,
    pub junctions: Vec<u32>,
    pub connections: Vec<u32>,
    pub pairs: Vec<u32>,
    pub lanes: Vec<u32>,
    pub edges: Vec<f32>,
}

impl Tables {
    pub fn rows(table: &[u32], width: usize) -> usize {
        table.len() / width
    }
    pub fn bytes(&self, start: u32, size: u32) -> &[u8] {
        &self.text[start as usize..start as usize + size as usize]
    }
    /// The stand-in of the name at that place.
    pub fn stand_in(&self, start: u32, size: u32) -> String {
        stand_in(self.bytes(start, size))
    }
}

/// A name's stand-in, one for each different name: its bytes in hexadecimal.
pub fn stand_in(name: &[u8]) -> String {
    let digit = |half: u8| char::from(b"0123456789abcdef"[usize::from(half)]);
    let mut s = String::from("n");
    for b in name {
        s.extend([digit(b >> 4), digit(b & 15)]);
    }
    s
}

/// A small generator of numbers, the same for the same seed.
pub struct Dice(u64);

impl Dice {
    pub fn new(seed: u64) -> Self {
        Dice(seed.wrapping_mul(0x9e37_79b9_7f4a_7c15) ^ 0x2545_f491_4f6c_dd1d)
    }
    pub fn word(&mut self) -> u64 {
        self.0 ^= self.0 << 13;
        self.0 ^= self.0 >> 7;
        self.0 ^= self.0 << 17;
        self.0.wrapping_mul(0x2545_f491_4f6c_dd1d) >> 16
    }
    /// Below n.
    pub fn below(&mut self, n: usize) -> usize {
        (self.word() % n as u64) as usize
    }
    pub fn one_in(&mut self, n: usize) -> bool {
        self.below(n) == 0
    }
    pub fn pick<T: Copy>(&mut self, from: &[T]) -> T {
        from[self.below(from.len())]
    }
    /// Puts these into another order.
    pub fn shuffle<T>(&mut self, these: &mut [T]) {
        for i in (1..these.len()).rev() {
            these.swap(i, self.below(i + 1));
        }
    }
}
