//! Recipe lines judged by the specification's words: how many bytes a line has, how deep it is and whether it is in the grammar,
//! each by itself over its bytes, and what the tree that it is written from comes to, by the crate's kernels behind the gates of
//! `gates.rs`. Nothing here is taken from the library. A line is not read from left to right: it is cut at the last operator
//! that stands in no parentheses, and each piece again.

use crate::kernels::{guarded, Kernel, NAN};
use crate::reader::number;

/// What may stand before an opening parenthesis: nothing, or a kernel's name.
pub const OPENINGS: [&str; 11] = ["", "sqrt", "invsqrt", "inv", "recip", "exp", "ln", "atan", "cos", "sin", "floor"];

/// The operators of a sum, and those of a product.
pub const RANKS: [[u8; 2]; 2] = [*b"+-", *b"*/"];

pub const MOST_BYTES: usize = 240;
pub const MOST_DEPTH: usize = 16;

/// The names alone.
pub fn names() -> &'static [&'static str] {
    &OPENINGS[1..]
}

/// The bytes that lines of the grammar have, each once: 33.
pub fn alphabet() -> Vec<u8> {
    let mut bytes = [b"0123456789abcdefx()", OPENINGS.concat().as_bytes(), RANKS.as_flattened()].concat();
    bytes.sort_unstable();
    bytes.dedup();
    bytes
}

/// A recipe as it is written.
#[derive(PartialEq)]
pub enum Tree {
    Number(u32),
    X,
    /// A sum in parentheses, behind one of the `OPENINGS`.
    Inside(usize, Box<Tree>),
    /// Two operands and the operator between them.
    Joined(Box<Tree>, u8, Box<Tree>),
}

impl Tree {
    /// Puts the tree's line behind these bytes.
    pub fn write(&self, line: &mut Vec<u8>) {
        match self {
            Tree::Number(word) => line.extend(format!("{word:08x}").bytes()),
            Tree::X => line.push(b'x'),
            Tree::Inside(opening, sum) => {
                line.extend(OPENINGS[*opening].bytes().chain([b'(']));
                sum.write(line);
                line.push(b')');
            }
            Tree::Joined(left, operator, right) => {
                left.write(line);
                line.push(*operator);
                right.write(line);
            }
        }
    }

    /// How many parentheses stand about what stands in most.
    pub fn depth(&self) -> usize {
        match self {
            Tree::Number(_) | Tree::X => 0,
            Tree::Inside(_, sum) => 1 + sum.depth(),
            Tree::Joined(left, _, right) => left.depth().max(right.depth()),
        }
    }
}

/// How many more ( than ) there are in the beginning of the line that has most.
fn depth(line: &[u8]) -> i64 {
    let counts = line.iter().scan(0i64, |count, byte| {
        *count += (*byte == b'(') as i64 - (*byte == b')') as i64;
        Some(*count)
    });
    // the empty beginning has none
    counts.max().unwrap_or(0).max(0)
}

/// The tree of a line that is a sum.
pub fn read(line: &[u8]) -> Option<Tree> {
    of_rank(line, &RANKS)
}

/// The tree of a line whose operators outside all parentheses are of these ranks: what stands before the last of the first rank
/// is of the same ranks, and what stands behind it of the others. With no ranks left the line is a factor.
fn of_rank(line: &[u8], ranks: &[[u8; 2]]) -> Option<Tree> {
    let Some((operators, others)) = ranks.split_first() else { return factor(line) };
    match last_outside(line, operators) {
        None => of_rank(line, others),
        Some(place) => {
            let (left, right) = (of_rank(&line[..place], ranks)?, of_rank(&line[place + 1..], others)?);
            Some(Tree::Joined(Box::new(left), line[place], Box::new(right)))
        }
    }
}

/// The last place of one of these bytes outside all parentheses.
fn last_outside(line: &[u8], operators: &[u8]) -> Option<usize> {
    let mut closed = 0i64;
    (0..line.len()).rev().find(|&place| {
        closed += (line[place] == b')') as i64 - (line[place] == b'(') as i64;
        closed == 0 && operators.contains(&line[place])
    })
}

fn factor(line: &[u8]) -> Option<Tree> {
    if line == b"x" {
        Some(Tree::X)
    } else if let Some(opened) = line.strip_suffix(b")") {
        let place = opened.iter().position(|byte| *byte == b'(')?;
        let opening = OPENINGS.iter().position(|name| name.as_bytes() == &line[..place])?;
        Some(Tree::Inside(opening, Box::new(read(&opened[place + 1..])?)))
    } else if line.len() == 8 {
        number(line).map(Tree::Number)
    } else {
        None
    }
}

/// What a line is before x is known: the number that it is refused with, or its tree.
pub type Reading = Result<Tree, u64>;

/// The refusals of a line, the first that holds.
pub fn reading(line: &[u8]) -> Reading {
    if line.len() > MOST_BYTES {
        Err(13)
    } else if depth(line) > MOST_DEPTH as i64 {
        Err(14)
    } else {
        read(line).ok_or(15)
    }
}

/// A refusal's number, or a value's word, as an answer has them.
fn answered(outcome: Result<f32, u64>) -> u64 {
    match outcome {
        Err(refusal) => refusal << 32,
        Ok(value) if value.is_nan() => NAN as u64,
        Ok(value) => value.to_bits() as u64,
    }
}

pub struct Judge {
    /// The guarded kernel of each opening that has one.
    kernels: Vec<Option<Kernel>>,
}

impl Judge {
    pub fn new() -> Judge {
        Judge { kernels: OPENINGS.iter().map(|name| guarded().into_iter().find(|kernel| kernel.name == *name)).collect() }
    }

    /// What the kernel of an opening makes of a number, or how it refuses it; without a kernel that number.
    fn called(&self, opening: usize, value: f32) -> Result<f32, u64> {
        let Some(kernel) = &self.kernels[opening] else { return Ok(value) };
        let answer = kernel.expected(value.to_bits(), 0).expect("no guarded answer is a NaN");
        match answer >> 32 {
            0 => Ok(f32::from_bits(answer as u32)),
            refusal => Err(refusal),
        }
    }

    /// What a tree comes to at x, or the first refusal that is met.
    fn value(&self, tree: &Tree, x: f32) -> Result<f32, u64> {
        match tree {
            Tree::Number(word) => Ok(f32::from_bits(*word)),
            Tree::X => Ok(x),
            Tree::Inside(opening, sum) => self.called(*opening, self.value(sum, x)?),
            Tree::Joined(left, operator, right) => {
                let (left, right) = (self.value(left, x)?, self.value(right, x)?);
                Ok(match operator {
                    b'+' => left + right,
                    b'-' => left - right,
                    b'*' => left * right,
                    _ => left / right,
                })
            }
        }
    }

    /// The answer at x: a refusal in the high half, a word in the low.
    pub fn at(&self, reading: &Reading, x: u32) -> u64 {
        answered(reading.as_ref().map_err(|refusal| *refusal).and_then(|tree| self.value(tree, f32::from_bits(x))))
    }

    /// The answer to a line of text: eight digits for x, a blank, and the recipe.
    pub fn answer(&self, text: &[u8]) -> u64 {
        const MALFORMED: u64 = 7 << 32;
        match text.split_at_checked(9) {
            Some(([digits @ .., b' '], line)) => number(digits).map_or(MALFORMED, |x| self.at(&reading(line), x)),
            _ => MALFORMED,
        }
    }

    /// The answer to a recipe by one pass from left to right and without a tree, as a program has it that is to be fast.
    pub fn straight(&self, line: &[u8], x: u32) -> u64 {
        if line.len() > MOST_BYTES {
            return answered(Err(13));
        } else if depth(line) > MOST_DEPTH as i64 {
            return answered(Err(14));
        }
        let mut pass = Pass { judge: self, line, at: 0, x: f32::from_bits(x), refusal: 0 };
        match pass.sum() {
            Some(value) if pass.at == line.len() => answered(if pass.refusal == 0 { Ok(value) } else { Err(pass.refusal) }),
            _ => answered(Err(15)),
        }
    }
}

/// A pass over a line: how far it is, and the first refusal that it met, or 0. Its steps give nothing where the line is no recipe.
struct Pass<'a> {
    judge: &'a Judge,
    line: &'a [u8],
    at: usize,
    x: f32,
    refusal: u64,
}

impl Pass<'_> {
    /// Whether this byte comes next, and then goes past it.
    fn takes(&mut self, byte: u8) -> bool {
        let takes = self.line.get(self.at) == Some(&byte);
        self.at += takes as usize;
        takes
    }

    fn sum(&mut self) -> Option<f32> {
        let mut value = self.product()?;
        loop {
            if self.takes(b'+') {
                value += self.product()?;
            } else if self.takes(b'-') {
                value -= self.product()?;
            } else {
                return Some(value);
            }
        }
    }

    fn product(&mut self) -> Option<f32> {
        let mut value = self.factor()?;
        loop {
            if self.takes(b'*') {
                value *= self.factor()?;
            } else if self.takes(b'/') {
                value /= self.factor()?;
            } else {
                return Some(value);
            }
        }
    }

    fn factor(&mut self) -> Option<f32> {
        if self.takes(b'x') {
            return Some(self.x);
        }
        let rest = &self.line[self.at..];
        if let Some(word) = rest.get(..8).and_then(number) {
            self.at += 8;
            return Some(f32::from_bits(word));
        }
        let opens = |name: &&str| rest.strip_prefix(name.as_bytes()).is_some_and(|rest| rest.starts_with(b"("));
        let opening = OPENINGS.iter().position(opens)?;
        self.at += OPENINGS[opening].len() + 1;
        let value = self.sum()?;
        let closes = self.takes(b')');
        closes.then(|| self.called(opening, value))
    }

    /// Once a kernel has refused, no other is asked.
    fn called(&mut self, opening: usize, value: f32) -> f32 {
        if self.refusal > 0 {
            return 0.0;
        }
        self.judge.called(opening, value).unwrap_or_else(|refusal| {
            self.refusal = refusal;
            0.0
        })
    }
}
