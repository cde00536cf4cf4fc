//! The comparison at scale: the reference and the port on the same inputs.
use crate::answers::{self, Case, Room};
use crate::judge::Lent;
use crate::metrics::Metered;
use crate::plays::Plays;
use crate::recounts::Recounts;
use crate::rng::Rng;
use crate::rules::{self, Ruled};
use crate::{files, games, port, reference, skim};
use std::collections::BTreeMap;

pub struct Comparison {
    program: String,
    waiting: Vec<Case>,
    /// How often each sort, version and number came up.
    pub seen: BTreeMap<(u8, u8, u8), u64>,
    pub compared: u64,
    pub recounts: Recounts,
    pub plays: Plays,
    pub metered: Metered,
    pub ruled: Ruled,
    /// Files re-saved, and those of version 4 among them, with custom metrics and without.
    pub resaved: u64,
    pub with_metrics: u64,
    pub without_metrics: u64,
    /// Games written as version 4 with custom metrics.
    pub games_with_metrics: u64,
}

/// The seed of the custom metrics.
const METRICS: u64 = 3;

/// Of so many files one is re-saved by the program too.
const BY_PROGRAM: u64 = 16;

/// Cases that go to the program at a time.
const BATCH: usize = 4000;

impl Comparison {
    pub fn new(program: &str) -> Comparison {
        Comparison {
            program: program.to_string(),
            waiting: vec![],
            seen: BTreeMap::new(),
            compared: 0,
            recounts: Recounts::new(),
            plays: Plays::new(),
            metered: Metered::new(METRICS),
            ruled: Ruled::new(),
            resaved: 0,
            with_metrics: 0,
            without_metrics: 0,
            games_with_metrics: 0,
        }
    }

    pub fn add(&mut self, case: Case) {
        *self.seen.entry(case.class).or_default() += 1;
        self.waiting.push(case);
        if self.waiting.len() == BATCH {
            self.flush();
        }
    }

    /// Runs the program on what waits, and stops at the first answer that differs.
    pub fn flush(&mut self) {
        let cases = std::mem::take(&mut self.waiting);
        if self.program == "-" {
            return;
        }
        let printed = port::answers(&self.program, port::blocks(&cases));
        if printed != port::expected(&cases) {
            report(&cases, &printed);
        }
        self.compared += cases.len() as u64;
    }

    /// A file: checked, upgraded and re-saved by the exported functions by both rules and by none, its board recounted, and read by the program into as much as it needs or less.
    pub fn file(&mut self, file: &[u8], r: &mut Rng) {
        let read = reference::read(file);
        must_be(file, "evf_check", *read.as_ref().err().unwrap_or(&0) as usize, port::check(file) as usize);
        if let Ok((video, _)) = &read {
            self.recounts.file(file, &video.data.board);
        }
        self.plays.file(file, &read.map(|(_, game)| game));
        self.copied(file, "evf_upgrade", &answers::copy_of(file), ALREADY_VERSION_4, port::upgrade);
        self.resaved(file);
        with_row(file, r, self.ruled.no_rule());
        let (cells, entries) = if r.once_in(30) { (r.below(400) as u16, r.below(10) as u16) } else { (65025, 65535) };
        self.add(answers::reading(file, cells, entries));
    }

    /// An exported call by rule 1, by rule 2, where no byte may differ, and by no rule, which is refused behind a last number.
    fn copied(&mut self, file: &[u8], what: &str, wanted: &Result<Vec<u8>, u8>, last_before: u8, call: Call) {
        copied(file, what, wanted, |file, copy| call(file, copy, rules::AWAY));
        copied(file, &format!("{what} by rule 2"), wanted, |file, copy| call(file, copy, rules::TO_EVEN));
        let (none, without) = (self.ruled.no_rule(), rules::without(wanted, last_before));
        copied(file, &format!("{what} by rule {none}"), &without, |file, copy| call(file, copy, none));
        self.ruled.copies += wanted.is_ok() as u64;
        self.ruled.refused += (without == Err(rules::NO_SUCH_RULE)) as u64;
    }

    fn resaved(&mut self, file: &[u8]) {
        let wanted = answers::resaved(file);
        if wanted.is_ok() {
            self.resaved += 1;
            self.with_metrics += skim::metrics(file).is_some_and(|m| file[0] == 4 && m.count > 0) as u64;
            self.without_metrics += skim::metrics(file).is_some_and(|m| file[0] == 4 && m.count == 0) as u64;
        }
        self.copied(file, "evf_resave", &wanted, LAST_OF_READING, port::resave);
        if self.metered.once_in(BY_PROGRAM) {
            let room = Room { enough: true, bytes: self.metered.below(4) as i64 - 1 };
            self.add(answers::resaving(file, &room));
        }
    }

    /// A game in both versions, into just enough bytes, one less, or others.
    pub fn game(&mut self, r: &mut Rng) {
        let mut lent = games::any(r);
        self.metered.game(&mut lent);
        for version in [3, 4] {
            let room = match r.below(8) {
                0 => Room { enough: true, bytes: -1 },
                1 => Room { enough: false, bytes: r.below(300) as i64 },
                _ => Room { enough: true, bytes: r.below(4) as i64 },
            };
            let case = answers::writing(&lent, version, &room);
            self.games_with_metrics += (case.class == (answers::WRITING, 4, 0) && lent.game.metrics.count > 0) as u64;
            self.game_by_rules(&lent, version, &room, &case.answer);
            self.add(case);
        }
    }

    /// The same game by rule 2, and now and then by no rule.
    fn game_by_rules(&mut self, lent: &Lent, version: u8, room: &Room, by_rule_1: &str) {
        let case = answers::writing_by(rules::TO_EVEN, lent, version, room);
        let none = self.ruled.game(&lent.game, &case, by_rule_1);
        self.add(case);
        if let Some(none) = none {
            self.add(answers::writing_by(none, lent, version, room));
        }
    }
}

/// An exported call that makes a copy by a rule.
type Call = fn(&[u8], &mut [u8], u8) -> usize;

/// The last numbers that come before 26: of an upgrade, and of a re-save.
const ALREADY_VERSION_4: u8 = 13;
const LAST_OF_READING: u8 = 10;

pub fn must_be(file: &[u8], what: &str, wanted: usize, got: usize) {
    if wanted != got {
        println!("MISMATCH {what}: the reference {wanted}, the port {got}\nfile {}", hex(file));
        std::process::exit(1);
    }
}

pub fn hex(bytes: &[u8]) -> String {
    bytes.iter().map(|b| format!("{b:02x}")).collect()
}

/// An exported call into more bytes than it needs, into one less than it needs, and what it leaves of the rest.
fn copied(file: &[u8], what: &str, wanted: &Result<Vec<u8>, u8>, call: impl Fn(&[u8], &mut [u8]) -> usize) {
    let length = wanted.as_ref().map_or(40, |bytes| bytes.len());
    let mut copy = vec![0xAA; length + 3];
    let got = call(file, &mut copy);
    let mut left = wanted.as_ref().map_or(vec![], |bytes| bytes.clone());
    left.resize(length + 3, 0xAA);
    must_be(file, what, wanted.as_ref().map_or_else(|n| *n as usize, |bytes| bytes.len()), got);
    if copy != left {
        println!("MISMATCH of the copy by {what}\nfile {}\nreference {}\nport {}", hex(file), hex(&left), hex(&copy));
        std::process::exit(1);
    }
    if wanted.is_ok() {
        let mut short = vec![0xAA; length - 1];
        must_be(file, &format!("{what} without room"), length, call(file, &mut short));
        must_be(file, &format!("bytes changed by {what} without room"), 0, short.iter().filter(|b| **b != 0xAA).count());
    }
}

/// The calls that hold a row: the number, every cell of a board that is long enough or not, and every byte of the copy, by both rules and by none.
fn with_row(file: &[u8], r: &mut Rng, no_rule: u8) {
    let row = port::Held::Small;
    let cells = if r.once_in(8) { r.below(200) as usize } else { 65025 };
    let read = reference::read(file);
    let number = match &read {
        Err(n) => *n,
        Ok((_, g)) if cells < g.cells.len() => 11,
        Ok((_, g)) if row.entries() < g.events.len() => 12,
        Ok(_) => 0,
    };
    let mut left = vec![77i8; cells];
    if let (0, Ok((_, g))) = (number, &read) {
        left[..g.cells.len()].copy_from_slice(&g.cells);
    }
    let mut board = vec![77i8; cells];
    must_be(file, "parse into a row", number as usize, port::read(&row, file, &mut board) as usize);
    must_be(file, "cells of parse", 0, (board != left) as usize);
    let copied = if number == 0 { answers::copy_of(file) } else { Err(number) };
    for rule in [rules::AWAY, rules::TO_EVEN] {
        upgraded_with_row(&row, file, rule, &copied, &left);
    }
    upgraded_with_row(&row, file, no_rule, &rules::without(&copied, ALREADY_VERSION_4), &left);
}

/// The upgrade that holds a row, with a board that is to be left as it is given.
fn upgraded_with_row(row: &port::Held, file: &[u8], rule: u8, copied: &Result<Vec<u8>, u8>, left: &[i8]) {
    let mut copy = vec![0xAA; copied.as_ref().map_or(40, |bytes| bytes.len() + 3)];
    let mut wanted = copied.as_ref().map_or(vec![], |bytes| bytes.clone());
    wanted.resize(copy.len(), 0xAA);
    let mut board = vec![77i8; left.len()];
    let got = port::upgrade_with_row(row, file, &mut board, &mut copy, rule);
    must_be(file, &format!("upgrade with a row by rule {rule}"), copied.as_ref().map_or_else(|n| *n as usize, |bytes| bytes.len()), got);
    must_be(file, "cells of upgrade", 0, (board != left) as usize);
    must_be(file, "bytes of upgrade", 0, (copy != wanted) as usize);
}

/// The first case whose lines differ, on its own.
fn report(cases: &[Case], printed: &str) {
    let mut rest = printed;
    for (i, case) in cases.iter().enumerate() {
        let wanted = case.answer.replacen('#', &i.to_string(), 1);
        match rest.strip_prefix(&wanted[..]) {
            Some(after) => rest = after,
            None => {
                let shown: String = rest.chars().take(wanted.len() + 200).collect();
                println!("MISMATCH in case {i}, tag {}\ninput {}\nreference:\n{wanted}\nport:\n{shown}", case.tag, hex(&case.input));
                std::process::exit(1);
            }
        }
    }
    println!("MISMATCH behind the last case: {rest}");
    std::process::exit(1);
}

/// Every truncation and every change of one byte of a file.
pub fn neighbours(c: &mut Comparison, file: &[u8], r: &mut Rng) -> u64 {
    for n in 0..file.len() {
        c.file(&file[..n], r);
    }
    let mut changed = file.to_vec();
    for at in 0..file.len() {
        for by in 1..=255 {
            changed[at] = file[at] ^ by;
            c.file(&changed, r);
        }
        changed[at] = file[at];
    }
    file.len() as u64 * 256
}

/// Small files of each version that are accepted and hold a bit of everything.
pub fn small_files(seed: u64, each: usize) -> Vec<Vec<u8>> {
    let mut r = Rng::new(seed);
    let mut chosen: Vec<Vec<u8>> = vec![];
    for version in 0..5 {
        while chosen.iter().filter(|f| f[0] == version).count() < each {
            let file = files::whole(&mut r);
            let fits = file[0] == version && (70..170).contains(&file.len());
            if fits && reference::read(&file).is_ok_and(|(_, g)| g.events.len() > 3 && g.height * g.width > 8) {
                chosen.push(file);
            }
        }
    }
    chosen
}
