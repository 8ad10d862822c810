//! Lines to be answered, at random: well-formed frames, and what damage makes of them. No line has a newline within it.

use crate::kernels::Takes;
use crate::reader::Reader;
use crate::words::{edges, Random};

/// Bytes that are no lower-case hex digit: the neighbours of those that are, upper-case ones, and others.
pub const BAD: &[u8] = b"/:`gABCDEFG@ \r\0\t\x0b+-._xzO\x01\x1a\x7f\x80\xb0\xff";

/// The digits of a frame.
pub fn frame(op: u32, a: u32, b: u32) -> Vec<u8> {
    format!("{op:02x}{a:08x}{b:08x}").into_bytes()
}

/// The lines of an input, joined by newlines. The last has none after it.
pub fn joined(lines: &[Vec<u8>]) -> Vec<u8> {
    lines.join(&b'\n')
}

pub struct Lines {
    random: Random,
    edges: Vec<u32>,
    /// The known operations, with which words they take.
    operations: Vec<(u32, Takes)>,
}

impl Lines {
    pub fn new(reader: &Reader, seed: u64) -> Lines {
        Lines { random: Random::new(seed), edges: edges(), operations: reader.known().iter().map(|(op, kernel)| (*op, kernel.takes)).collect() }
    }

    /// A frame of a known operation.
    pub fn known(&mut self) -> Vec<u8> {
        let (op, takes) = self.random.one_of(&self.operations);
        self.of(op, takes)
    }

    /// A frame of this operation.
    pub fn of(&mut self, op: u32, takes: Takes) -> Vec<u8> {
        let (a, b) = self.random.operands(takes, &self.edges);
        frame(op, a, b)
    }

    /// A frame of this operation whose first word is a zero or a small number: it has an exponent field of 0.
    pub fn low(&mut self, op: u32, takes: Takes) -> Vec<u8> {
        let (a, b) = self.random.operands(takes, &self.edges);
        frame(op, a & 0x807f_ffff, b)
    }

    /// Any line: half of them are frames of known operations, and the others damaged ones, any digits, any bytes, or empty.
    pub fn any(&mut self) -> Vec<u8> {
        let line = self.known();
        match self.random.below(16) {
            0..=7 => line,
            8..=11 => self.damaged(line),
            12 => {
                let line = self.damaged(line);
                self.damaged(line)
            }
            13 => frame(self.random.below(256) as u32, self.random.word(), [0, self.random.word()][self.random.below(2)]),
            14 => (0..self.random.below(40)).map(|_| self.byte()).collect(),
            _ => Vec::new(),
        }
    }

    /// The line with one thing wrong, mostly.
    fn damaged(&mut self, mut line: Vec<u8>) -> Vec<u8> {
        if line.is_empty() {
            return line;
        }
        let place = self.random.below(line.len());
        match self.random.below(10) {
            0 => line[place] = self.random.one_of(BAD),
            1 => line[place] = self.byte(),
            2 => line[place] = line[place].to_ascii_uppercase(),
            3 => line.make_ascii_uppercase(),
            4 => line.truncate(place),
            5 => drop(line.remove(place)),
            6 => line.insert(place, line[place]),
            7 => line.push(b'\r'),
            8 => line.push(self.random.one_of(BAD)),
            _ => line.insert(0, self.random.one_of(b" 0\r\0")),
        }
        line
    }

    /// A line of this length that begins as a frame does and goes on with more frames, digits, or bytes that are none.
    pub fn long(&mut self, length: usize) -> Vec<u8> {
        let line = self.known();
        let rest = match self.random.below(4) {
            0 => b"0".to_vec(),
            1 => b"\0".to_vec(),
            2 => b"\r".to_vec(),
            _ => line.clone(),
        };
        line.iter().chain(rest.iter().cycle()).take(length).copied().collect()
    }

    /// A length at which a count of bytes may run over, or a buffer.
    pub fn some_length(&mut self) -> usize {
        self.random.one_of(&[18, 256, 4096, 8192, 65_536]) + self.random.one_of(&[0, 1, 17, 18, 19, 256, 65_536])
    }

    /// Any byte but a newline.
    fn byte(&mut self) -> u8 {
        match self.random.word() as u8 {
            b'\n' => b'\r',
            byte => byte,
        }
    }
}
