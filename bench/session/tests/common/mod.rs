//! Random sessions of any kind.
#![allow(dead_code)]

use bridge::{Operation, State, Words};
use session::{Session, Step, World};

/// A small generator of numbers.
pub struct Dice(pub u64);

impl Dice {
    pub fn word(&mut self) -> u64 {
        self.0 = self.0.wrapping_add(0x9e37_79b9_7f4a_7c15);
        let x = (self.0 ^ (self.0 >> 30)).wrapping_mul(0xbf58_476d_1ce4_e5b9);
        let x = (x ^ (x >> 27)).wrapping_mul(0x94d0_49bb_1331_11eb);
        x ^ (x >> 31)
    }

    pub fn below(&mut self, end: u64) -> u64 {
        self.word() % end
    }

    /// Zero, small, or any bits.
    pub fn some_word(&mut self) -> u64 {
        match self.below(4) {
            0 => 0,
            1 => self.below(10),
            2 => self.word() >> self.below(64),
            _ => self.word(),
        }
    }

    /// Bytes of any kind: zeros, runs of one byte, or all different.
    pub fn bytes(&mut self, length: usize) -> Vec<u8> {
        let mut bytes = Vec::new();
        while bytes.len() < length {
            let run = match self.below(3) {
                0 => 1,
                1 => self.below(9) as usize,
                _ => self.below(100) as usize,
            };
            let byte = [0, 0xA5, self.word() as u8][self.below(3) as usize];
            bytes.resize(length.min(bytes.len() + run), byte);
        }
        bytes
    }

    /// Bytes that look like HEX text: records, some of them cut, and letters of all kinds.
    pub fn letters(&mut self, length: usize) -> Vec<u8> {
        let parts: [&[u8]; 8] = [
            b":00000001FF\n",
            b":0000000000\n",
            b":",
            b"\n",
            b"\r\n",
            b"00aF",
            b"\"# *\\",
            b"\xa5",
        ];
        let mut bytes = Vec::new();
        while bytes.len() < length {
            let part = parts[self.below(8) as usize];
            let times = [1, 2, self.below(40) as usize][self.below(3) as usize];
            let cut = if self.below(4) == 0 { self.below(part.len() as u64) as usize } else { 0 };
            bytes.extend(part[cut..].repeat(times));
        }
        bytes.truncate(length);
        bytes
    }

    pub fn words(&mut self) -> Words {
        let words = [(); Words::COUNT].map(|()| self.some_word());
        let operation =
            if self.below(8) == 0 { words[0] } else { self.below(Operation::COUNT as u64 + 1) };
        Words { operation, ..Words::from_order(words) }
    }

    pub fn step(&mut self) -> Step {
        let length = [0, 1, self.below(40) as usize, self.below(5000) as usize];
        let length = length[self.below(4) as usize];
        let buffer = match self.below(4) {
            0 => vec![0xA5; length],
            1 => self.letters(length),
            _ => self.bytes(length),
        };
        Step { request: self.words(), buffer, leases: self.leases() }
    }

    /// Leases of any kind: none, a few, the same one many times, and a rest that is none.
    pub fn leases(&mut self) -> Vec<u8> {
        if self.below(2) == 0 {
            return Vec::new();
        }
        let mut leases = Vec::new();
        for _ in 0..self.below(5) {
            let lease = self.some_word().to_le_bytes();
            leases.extend(lease.repeat([1, 1, 1, self.below(70) as usize][self.below(4) as usize]));
        }
        let rest = if self.below(3) == 0 { self.below(8) as usize } else { 0 };
        leases.extend(self.bytes(rest));
        leases
    }

    pub fn session(&mut self) -> Session {
        let [table, memory] = [(); 2].map(|()| {
            let length = [0, 32 * self.below(9), self.below(300), 31, 33];
            length[self.below(5) as usize] as usize
        });
        let state = State::from_order([(); State::WORDS].map(|()| self.some_word()));
        let (mut table, memory) = (self.bytes(table), self.bytes(memory));
        // Types 1 to 3 are written by their fields.
        for part in table.chunks_mut(32).step_by(2) {
            part[0] = part[0] & 0x1F | (1 + self.below(3) as u8) << 5;
        }
        let steps = (0..self.below(8)).map(|_| self.step()).collect();
        Session { world: World { state, table, memory }, steps }
    }
}
