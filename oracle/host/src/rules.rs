//! Rounding by a rule (note 5 of document 02). Rule 1 is the reference's own. By rule 2 the reference's writer is fed with seconds of whole milliseconds, those that `round_ties_even` gives: its own
//! rounding gives them back, so that its bytes are those of rule 2. Any other number is no rule.
use crate::answers::{self, Case};
use crate::compare::Comparison;
use crate::game::{Game, What};
use crate::judge::Lent;
use crate::rng::Rng;
use ms_toollib::miscellaneous::s_to_ms;

pub const AWAY: u8 = 1;
pub const TO_EVEN: u8 = 2;
pub const NO_SUCH_RULE: u8 = 26;

/// Numbers that are no rule.
const NONE: [u8; 3] = [0, 3, 255];

/// Milliseconds by rule 2.
pub fn to_even(seconds: f64) -> u32 {
    (seconds * 1000.0).round_ties_even() as u32
}

/// What the reference's writer is fed with by rule 2.
pub fn fed(lent: &Lent) -> Lent {
    let mut fed = lent.clone();
    for event in &mut fed.game.events {
        let ms = to_even(event.seconds);
        event.seconds = ms as f64 / 1000.0;
        assert_eq!(s_to_ms(event.seconds), ms, "a whole millisecond that does not come back");
    }
    fed
}

/// What a call with no rule comes to: numbers up to one come before 26, all else gives way to it.
pub fn without<T: Clone>(wanted: &Result<T, u8>, last_before: u8) -> Result<T, u8> {
    match wanted {
        Err(n) if *n <= last_before => wanted.clone(),
        _ => Err(NO_SUCH_RULE),
    }
}

/// Whether a mouse event's seconds are a half behind a whole number of milliseconds.
fn has_half(g: &Game) -> bool {
    g.events.iter().any(|e| matches!(e.what, What::Mouse { .. }) && (e.seconds * 1000.0).fract() == 0.5)
}

/// What was compared by rule 2 and by no rule. Which number that is comes from numbers of its own, so that the files and games of a seed do not depend on it.
pub struct Ruled {
    r: Rng,
    /// Games written in a version by rule 2, those with a half, and those that come to another answer than by rule 1.
    pub games: u64,
    pub halves: u64,
    pub differ: u64,
    /// Copies by rule 2, and calls refused with 26.
    pub copies: u64,
    pub refused: u64,
}

/// One game in so many is written by no rule.
const BY_NO_RULE: u64 = 8;

impl Ruled {
    pub fn new() -> Ruled {
        Ruled { r: Rng::new(5), games: 0, halves: 0, differ: 0, copies: 0, refused: 0 }
    }

    pub fn no_rule(&mut self) -> u8 {
        *self.r.pick(&NONE)
    }

    /// Counts a game that is written by rule 2, and by rule 1 comes to an answer. Tells a number that is no rule, where the game is to be written by that too.
    pub fn game(&mut self, g: &Game, by_rule_2: &Case, by_rule_1: &str) -> Option<u8> {
        self.games += 1;
        self.halves += has_half(g) as u64;
        self.differ += (by_rule_2.answer != by_rule_1) as u64;
        let none = self.r.once_in(BY_NO_RULE);
        self.refused += none as u64;
        none.then(|| self.no_rule())
    }
}

/// Seconds whose milliseconds are a half or up to three steps of the last bit from one, near a whole number, or any at all.
fn seconds(r: &mut Rng) -> f64 {
    let bits = 1 + r.below(33);
    let ms = r.below(1 << bits) as f64;
    let step = |x: f64, n: u64| f64::from_bits((x.to_bits() + n).saturating_sub(3));
    match r.below(8) {
        0..=3 => step((ms + 0.5) / 1000.0, r.below(7)),
        4 => step(ms / 1000.0, r.below(7)),
        5 => (ms + r.below(1000) as f64 / 1000.0) / 1000.0,
        6 => -(ms + 0.5) / 1000.0,
        _ => f64::from_bits(r.next()),
    }
}

/// Seconds turned into milliseconds by both rules and by none, each held against the Rust's own rounding.
pub fn turn(c: &mut Comparison, seed: u64, count: u64) {
    let mut r = Rng::new(seed);
    let (mut halves, mut differ) = (0, 0);
    for _ in 0..count {
        let s = seconds(&mut r);
        let exact = s > 0.0 && (s * 1000.0).fract() == 0.5;
        halves += exact as u64;
        differ += (s_to_ms(s) != to_even(s)) as u64;
        [AWAY, TO_EVEN, *r.pick(&NONE)].into_iter().for_each(|rule| c.add(answers::turning(rule, s)));
    }
    c.flush();
    println!("{count} seconds turned into milliseconds by both rules and by none, {halves} of them halves, {differ} not the same by both; no mismatch");
}
