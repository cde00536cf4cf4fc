//! Custom metrics, put into files and games that are made without them, from numbers of their own: all else of the files and games of a seed stays as it is.
use crate::files::text;
use crate::game::Metrics;
use crate::judge::Lent;
use crate::rng::Rng;
use crate::skim;

/// Texts of one to four bytes a letter, and an empty one.
const WORDS: [&str; 7] = ["", "a", "3BV/s 2.51", "RQP", "Zoë", "赵大锤", "\u{1F4A3}\u{10FFFF}"];

/// One block in so many has 65535 empty texts, where no more than so many bytes stand around it: the program takes games in 131072 bytes and files of 262144.
const LARGE: u64 = 4000;
const AROUND: usize = 60000;

pub struct Metered {
    r: Rng,
    /// How many files and games were given metrics.
    pub files: u64,
    pub games: u64,
}

impl Metered {
    pub fn new(seed: u64) -> Metered {
        Metered { r: Rng::new(seed), files: 0, games: 0 }
    }

    pub fn once_in(&mut self, n: u64) -> bool {
        self.r.once_in(n)
    }

    pub fn below(&mut self, n: u64) -> u64 {
        self.r.below(n)
    }

    /// A text with the 00 that ends it; now and then broken, or without the 00.
    fn text(&mut self, out: &mut Vec<u8>) {
        let word = if self.r.once_in(40) { text(&mut self.r) } else { self.r.pick(&WORDS).as_bytes().to_vec() };
        out.extend(word);
        if !self.r.once_in(80) {
            out.push(0);
        }
    }

    /// A count and a block, with so many bytes around it: most of the time so many texts, now and then one more or less, or something behind them.
    fn block(&mut self, around: usize) -> (u16, Vec<u8>) {
        if self.r.once_in(LARGE) && around < AROUND {
            return (65535, vec![0; 65535]);
        }
        let count = if self.r.once_in(12) { self.r.below(40) } else { self.r.below(5) };
        let mut block = vec![];
        (0..count).for_each(|_| self.text(&mut block));
        match self.r.below(60) {
            0 => (count as u16 + 1, block),
            1 => ((count as u16).saturating_sub(1), block),
            2 => (count as u16, [&block[..], &[0]].concat()),
            3 => (self.r.next() as u16, block),
            _ => (count as u16, block),
        }
    }

    /// A file of version 4 whose metrics are there gets others, every other time.
    pub fn file(&mut self, file: Vec<u8>) -> Vec<u8> {
        let found = if file.first() == Some(&4) { skim::metrics(&file) } else { None };
        match found {
            Some(old) if self.r.once_in(2) => {
                self.files += 1;
                let (count, block) = self.block(file.len());
                put(&file, &old, count, &block)
            }
            _ => file,
        }
    }

    /// A game gets metrics two times in three: a block behind what is lent, or any place in it and past it. Where a place of a text passes, what is lent stays as it is.
    pub fn game(&mut self, lent: &mut Lent) {
        if self.r.once_in(3) || lent.place_passes() {
            return;
        }
        self.games += 1;
        let (count, block) = self.block(lent.bytes.len());
        let gap = self.r.below(3);
        lent.bytes.extend(self.r.bytes(gap));
        let (mut start, mut len) = (lent.bytes.len() as u64, block.len() as u64);
        lent.bytes.extend(block);
        if self.r.once_in(30) {
            let n = lent.bytes.len() as u64;
            (start, len) = *self.r.pick(&[(n, 0), (n + 1, 0), (n, 1), (0, n), (u64::MAX, 0), (u64::MAX, 1), (1, u64::MAX), (n / 2, n - n / 2), (0, 0)]);
        }
        let there = start.checked_add(len).is_some_and(|end| end <= lent.bytes.len() as u64);
        let block = if there { lent.bytes[start as usize..(start + len) as usize].to_vec() } else { vec![] };
        lent.game.metrics = Metrics { start, len, count, block };
    }
}

/// A file with another count and block.
fn put(file: &[u8], old: &Metrics, count: u16, block: &[u8]) -> Vec<u8> {
    let (start, end) = (old.start as usize, (old.start + old.len) as usize);
    [&file[..start - 2], &count.to_be_bytes(), block, &file[end..]].concat()
}

/// A file of version 4 with three texts, one of them empty and one not ASCII; any other as it is.
pub fn with_three(file: Vec<u8>) -> Vec<u8> {
    match skim::metrics(&file) {
        Some(old) if file[0] == 4 => put(&file, &old, 3, "m\0\0é\0".as_bytes()),
        _ => file,
    }
}
