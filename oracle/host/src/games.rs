//! Games for the writers, made from a seed: most can be written, the others break one bound or more.
use crate::files::{number, text};
use crate::game::*;
use crate::judge::Lent;
use crate::rng::Rng;

/// Seconds near a whole millisecond or a half, or any float at all.
fn seconds(r: &mut Rng, ms: u64) -> f64 {
    let exact = ms as f64 / 1000.0;
    match r.below(24) {
        0 => f64::from_bits(exact.to_bits() + 1),
        1 if ms > 0 => f64::from_bits(exact.to_bits() - 1),
        2 => (ms as f64 + 0.5) / 1000.0,
        3 => (ms as f64 + 0.4999) / 1000.0,
        4 => exact + r.below(1000) as f64 / 1_000_000.0,
        5 if r.once_in(30) => *r.pick(&[f64::NAN, f64::INFINITY, f64::NEG_INFINITY, -0.0, -1.5, 4294967.295, 4294967.2955, 4294967.296, 1e300, 16777.215, 16777.2155, 16777.216]),
        6 if r.once_in(30) => f64::from_bits(r.next()),
        7 if r.once_in(10) => r.next() as f64 / 1e15,
        _ => exact,
    }
}

fn event(r: &mut Rng, first: bool, ms: u64) -> Event {
    let what = match r.below(60) {
        0 => What::Mouse { kind: 0, x: r.next() as u16, y: r.next() as u16 },
        1..=4 if !first => What::State(*r.pick(&[81, 82, 83, 99])),
        5 => What::State(82),
        6 => What::Mouse { kind: 1 + r.below(12) as u8, x: r.next() as u16, y: r.next() as u16 },
        _ if first => What::Mouse { kind: *r.pick(&[1, 2, 4, 8]), x: number(r, 2) as u16, y: number(r, 2) as u16 },
        _ => What::Mouse { kind: 1 + r.below(12) as u8, x: number(r, 2) as u16, y: number(r, 2) as u16 },
    };
    Event { seconds: seconds(r, ms), what }
}

fn events(r: &mut Rng) -> Vec<Event> {
    let count = match r.below(12) {
        0 => 0,
        1 => 1,
        2 => r.below(80),
        _ => r.below(14),
    };
    let latest = if r.once_in(10) { 300 } else { 255 };
    let mut ms = r.below(latest);
    let mut row = vec![];
    for i in 0..count {
        row.push(event(r, i == 0, ms));
        ms += match r.below(80) {
            0 => r.below(20_000_000),
            1 if ms > 4 => 0u64.wrapping_sub(r.below(3)),
            _ => *r.pick(&[0, 1, 2, 16, 254, 255, 256, 257, 65535, 65536, 65790, 65791, 70000]),
        };
    }
    row
}

fn cells(r: &mut Rng, n: u64) -> Vec<i8> {
    let odd = r.once_in(4);
    (0..n).map(|_| if odd { r.byte() as i8 } else { r.below(10) as i8 - 1 }).collect()
}

/// Mostly below 12, at a bound now and then.
fn size(r: &mut Rng) -> u64 {
    match r.below(60) {
        0 => 0,
        1 => 255,
        2 => 256,
        3 => number(r, 8),
        4 => r.below(256),
        _ => 1 + r.below(12),
    }
}

fn count(r: &mut Rng) -> u64 {
    match r.below(60) {
        0 => 65535,
        1 => 65536,
        2 => number(r, 8),
        _ => r.below(400),
    }
}

fn time(r: &mut Rng) -> u32 {
    match r.below(20) {
        0 => number(r, 4) as u32,
        1 => 16777215,
        2 => 16777216,
        _ => r.below(16777216) as u32,
    }
}

/// A text that can be written most of the time.
fn word(r: &mut Rng) -> Vec<u8> {
    let mut bytes = text(r);
    if std::str::from_utf8(&bytes).is_err() && !r.once_in(12) {
        bytes = b"ok".to_vec();
    }
    if !r.once_in(200) {
        bytes.retain(|b| *b != 0);
    }
    bytes
}

fn checksum(r: &mut Rng) -> Vec<u8> {
    let n = match r.below(12) {
        0..=4 => 0,
        5..=9 => 32,
        10 => 31 + r.below(3),
        _ => r.below(80),
    };
    r.bytes(n)
}

fn texts(r: &mut Rng) -> [Vec<u8>; 9] {
    let letters = r.pick(&["CN", "us", "é", "", "xxx", "c1"]).as_bytes().to_vec();
    let country = if r.once_in(2) { letters } else { word(r) };
    let n = r.below(40);
    let mut device = r.bytes(n);
    if !r.once_in(8) {
        device.retain(|b| *b != 0);
    }
    let mut all = [word(r), word(r), word(r), word(r), word(r), word(r), country, device, checksum(r)];
    if r.once_in(4000) {
        all[*r.pick(&[DEVICE_ID, CHECKSUM])] = vec![7; 65535 + r.below(2) as usize];
    }
    all
}

/// The texts in lent bytes, one behind the other with gaps, or now and then at any place.
fn lent(r: &mut Rng, game: Game) -> Lent {
    let mut bytes = vec![];
    let mut places = [(0, 0); 9];
    for (text, place) in game.texts.iter().zip(&mut places) {
        let gap = r.below(3);
        bytes.extend(r.bytes(gap));
        *place = (bytes.len() as u64, text.len() as u64);
        bytes.extend(text);
    }
    let mut lent = Lent { game, bytes, places };
    if r.once_in(40) {
        let i = r.below(9) as usize;
        let n = lent.bytes.len() as u64;
        lent.places[i] = *r.pick(&[(n, 0), (n + 1, 0), (n, 1), (0, n), (u64::MAX, 0), (u64::MAX, 1), (1, u64::MAX), (n / 2, n - n / 2)]);
        let (start, len) = lent.places[i];
        let there = start.checked_add(len).is_some_and(|end| end <= n);
        lent.game.texts[i] = if there { lent.bytes[start as usize..(start + len) as usize].to_vec() } else { vec![] };
    }
    lent
}

pub fn any(r: &mut Rng) -> Lent {
    let (height, width) = (size(r), size(r));
    let area = height.saturating_mul(width).min(65025);
    let n = if r.once_in(40) { area.saturating_sub(r.below(2)) } else { area + r.below(3) * r.below(2) };
    let game = Game {
        version: r.byte(),
        flags: [0; 8].map(|_: u8| r.once_in(2)),
        height,
        width,
        mines: count(r),
        pixels: if r.once_in(6) { r.byte() } else { 16 },
        mode: r.next() as u16,
        bbbv: count(r),
        time: time(r),
        start: number(r, 8),
        end: number(r, 8),
        level: r.byte(),
        texts: texts(r),
        metrics: Metrics::default(),
        cells: cells(r, n),
        events: events(r),
    };
    lent(r, game)
}
