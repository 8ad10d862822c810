//! Recipe lines at random: trees to be written, and what damage makes of their lines. And lines about the ends of length and
//! depth, in the grammar and not.

use crate::edges::first_of;
use crate::recipe::{alphabet, names, Tree, MOST_BYTES, MOST_DEPTH, OPENINGS, RANKS};
use crate::words::Random;

/// Numbers of one kind, for a whole tree.
#[derive(Clone, Copy)]
enum Words {
    /// From 0.5 up to 8.
    Tame,
    /// Of a size from 2^-15 to 2^17.
    NearOne,
    /// Both sides of the ends of the kernels' gates, zeros, small numbers, infinities and NaN.
    Edges,
    /// Each of any kind.
    Mixed,
}

pub struct Recipes {
    pub random: Random,
    alphabet: Vec<u8>,
    edges: Vec<u32>,
    words: Words,
    /// How many of eight parentheses have a name before them.
    named: usize,
}

impl Recipes {
    pub fn new(seed: u64) -> Recipes {
        Recipes { random: Random::new(seed), alphabet: alphabet(), edges: edges(), words: Words::Mixed, named: 4 }
    }

    /// A word for x, or a number of the tree.
    pub fn word(&mut self) -> u32 {
        match self.words {
            Words::Tame => 0x3f00_0000 + self.random.below(0x0200_0000) as u32,
            Words::NearOne => self.random.near_one(),
            Words::Edges => self.random.one_of(&self.edges),
            Words::Mixed => match self.random.below(4) {
                0 => 0x3f80_0000,
                1 => self.random.near_one(),
                2 => self.random.one_of(&self.edges),
                _ => self.random.operand(),
            },
        }
    }

    /// A tree of this many bytes at most, and a few less at least, and as deep as this if they suffice.
    pub fn tree(&mut self, bytes: usize, depth: usize) -> Tree {
        self.words = self.random.one_of(&[Words::Tame, Words::NearOne, Words::Edges, Words::Mixed]);
        self.named = self.random.one_of(&[0, 3, 6, 8]);
        self.of_rank(0, bytes, depth.min((bytes - 1) / 2)).0
    }

    /// A tree whose operators outside all parentheses are of the ranks from this one on, with its number of bytes. One of its
    /// operands is as deep as is asked, and the others at most.
    fn of_rank(&mut self, rank: usize, bytes: usize, depth: usize) -> (Tree, usize) {
        let Some(operators) = RANKS.get(rank) else { return self.factor(bytes, depth) };
        // what the deepest operand needs, and an operator before it
        let mut needed = if depth > 0 { 2 * depth + 2 } else { 0 };
        let (mut tree, mut left) = (None, bytes);
        while tree.is_none() || left > 1 {
            let room = left - tree.is_some() as usize;
            let deepest = needed > 0 && (room < needed + 1 || self.random.below(3) == 0);
            let (least, most) = match (deepest, needed) {
                (true, _) => (2 * depth + 1, room),
                (false, 0) => (1, room),
                // most of what is left is for the deepest
                (false, _) => (1, 1 + (room - needed - 1) / 3),
            };
            let share = if self.random.below(2) == 0 { most } else { least + self.random.below(most - least + 1) };
            // so that there is room for names and numbers
            let shallow = self.random.below(depth.min((share - 1) / 8) + 1);
            let (next, length) = self.of_rank(rank + 1, share, if deepest { depth } else { shallow });
            needed = if deepest { 0 } else { needed };
            left = room - length;
            tree = Some(match tree {
                None => next,
                Some(tree) => Tree::Joined(Box::new(tree), self.random.one_of(operators), Box::new(next)),
            });
        }
        (tree.expect("there is a first operand"), bytes - left)
    }

    fn factor(&mut self, bytes: usize, depth: usize) -> (Tree, usize) {
        if depth > 0 {
            let opening = if self.random.below(8) < self.named { 1 + self.random.below(names().len()) } else { 0 };
            // a name that leaves too little is left out
            let opening = if OPENINGS[opening].len() + 2 * depth < bytes { opening } else { 0 };
            let about = OPENINGS[opening].len() + 2;
            let (sum, length) = self.of_rank(0, bytes - about, depth - 1);
            (Tree::Inside(opening, Box::new(sum)), length + about)
        } else if bytes >= 8 && self.random.below(4) > 0 {
            (Tree::Number(self.word()), 8)
        } else {
            (Tree::X, 1)
        }
    }

    /// A tree with bytes and depth at random, both past their ends too.
    pub fn any_tree(&mut self) -> Tree {
        let (bytes, deepest) = (1 + self.random.below(MOST_BYTES + 20), self.random.one_of(&[4, MOST_DEPTH + 2]));
        let depth = self.random.below(deepest + 1);
        self.tree(bytes, depth)
    }

    /// The line with one byte replaced, removed or added, or two neighbours exchanged.
    pub fn damaged(&mut self, line: &[u8]) -> Vec<u8> {
        let (mut line, byte) = (line.to_vec(), self.byte());
        let place = self.random.below(line.len());
        match self.random.below(4) {
            0 => line[place] = byte,
            1 => drop(line.remove(place)),
            2 => line.insert(place + self.random.below(2), byte),
            _ => line.swap(place, place.saturating_sub(1)),
        }
        line
    }

    /// A byte of the grammar, or now and then any.
    pub fn byte(&mut self) -> u8 {
        if self.random.below(8) > 0 {
            self.random.one_of(&self.alphabet)
        } else {
            self.random.word() as u8
        }
    }

    /// Any bytes.
    pub fn bytes(&mut self, length: usize) -> Vec<u8> {
        (0..length).map(|_| self.byte()).collect()
    }
}

/// The words that the first list by hand has for the kernels that a recipe can name, and those about 256. They stay as they are,
/// so that the recorded list does.
pub fn edges() -> Vec<u32> {
    let about = |end: u32| [end - 1, end, end + 1];
    let mut words: Vec<u32> = names().iter().flat_map(|name| first_of(name)).map(|(a, _)| a).collect();
    words.extend([about(0x4380_0000), about(0xc380_0000)].concat());
    words.sort_unstable();
    words.dedup();
    words
}

/// The tree's line.
pub fn line(tree: &Tree) -> Vec<u8> {
    let mut line = Vec::new();
    tree.write(&mut line);
    line
}

/// Lines that go into a text: where one has a newline, at which it would end, it has a carriage return.
pub fn without_newlines(mut lines: Vec<Vec<u8>>) -> Vec<Vec<u8>> {
    lines.iter_mut().flatten().filter(|byte| **byte == b'\n').for_each(|byte| *byte = b'\r');
    lines
}

/// A recipe of so many bytes, 8 and more, made of a number, this one with a + before it as often as it goes in, and x.
pub fn filled(item: &str, bytes: usize) -> Vec<u8> {
    const FIRST: &str = "3f800000";
    let rest = |count: usize| (bytes - FIRST.len()).checked_sub(count * (item.len() + 1));
    let count = (0..).take_while(|count| rest(*count).is_some()).filter(|count| rest(*count).is_some_and(|rest| rest % 2 == 0)).last();
    let count = count.expect("an even number of bytes is left, or an odd one and this item has as many");
    let plus = |item: &str, count: usize| format!("+{item}").repeat(count);
    (FIRST.to_string() + &plus(item, count) + &plus("x", rest(count).unwrap_or(0) / 2)).into_bytes()
}

/// Lines of so many bytes, 40 and more, in the grammar and not.
pub fn of_length(bytes: usize) -> Vec<Vec<u8>> {
    let odd = bytes % 2 == 1;
    let good = if odd { "x+".repeat(bytes / 2) + "x" } else { "x+".repeat(bytes / 2 - 4) + "40400000" }.into_bytes();
    let mut lines = vec![good.clone(), filled("inv(x)", bytes), filled("ln(00000000)", bytes)];
    // a fault at either end and in the middle
    for place in [0, bytes / 2, bytes - 1] {
        for byte in b"+(x\0" {
            let mut line = good.clone();
            line[place] = *byte;
            lines.push(line);
        }
    }
    lines.extend(b"x()+0 \0\xff".map(|byte| vec![byte; bytes]));
    // too deep at once, and at last
    lines.extend([[&[b'('; 17][..], &good[17..]].concat(), [&good[..bytes - 17], &[b'('; 17]].concat()]);
    lines
}

/// Lines so deep, in the grammar and not: each of the openings at all of the parentheses, and at one of them, at each of these
/// places in turn.
pub fn of_depth(depth: usize, places: impl Iterator<Item = usize> + Clone) -> Vec<Vec<u8>> {
    let mut lines = Vec::new();
    for name in OPENINGS {
        let one = |place: usize| format!("{}{name}{}", "(".repeat(place), "(".repeat(depth - place));
        for opened in places.clone().map(one).chain([format!("{name}(").repeat(depth)]) {
            let closed = ")".repeat(depth);
            let nested = format!("{opened}x{closed}");
            lines.extend([nested.clone(), format!("x-{nested}"), format!("{nested}*x"), format!("(x)/{nested}"), format!("{nested}+({nested})")]);
            // no recipes
            lines.extend([format!("{opened}{closed}"), format!("{opened}x{}", &closed[1..]), format!("{nested})"), format!("){nested}"), format!("x{nested}")]);
            lines.push(opened);
        }
    }
    lines.into_iter().map(String::into_bytes).collect()
}

/// Some ) and then some (, and with a beginning of its own, or an end.
pub fn closed_and_opened(closed: usize, opened: usize) -> Vec<Vec<u8>> {
    let line = ")".repeat(closed) + &"(".repeat(opened);
    [line.clone(), format!("x{line}"), format!("{line}x"), format!("{line}x{}", ")".repeat(opened))].map(String::into_bytes).to_vec()
}
