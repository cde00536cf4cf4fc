//! A game as both sides are asked about it: plain values, the nine texts by their bytes.
pub const SOFTWARE: usize = 0;
pub const TRANSLATED_SOFTWARE: usize = 1;
pub const ORIGINAL_ENCODING: usize = 2;
pub const PLAYER: usize = 3;
pub const RACE: usize = 4;
pub const UNIQUE_ID: usize = 5;
pub const COUNTRY: usize = 6;
pub const DEVICE_ID: usize = 7;
pub const CHECKSUM: usize = 8;

pub const KINDS: [&str; 13] = ["ub", "mv", "lc", "lr", "rc", "rr", "mc", "mr", "pf", "cc", "l", "r", "m"];

#[derive(Clone, Copy)]
pub enum What {
    /// The kind's code, 0 for ub.
    Mouse { kind: u8, x: u16, y: u16 },
    /// 81, 82, 83 or 99.
    State(u8),
}

#[derive(Clone, Copy)]
pub struct Event {
    pub seconds: f64,
    pub what: What,
}

/// In the order: completed, official, fair, nf, translated, question marks, cursor limit, auto replay.
pub type Flags = [bool; 8];
pub const NF: usize = 3;
pub const TRANSLATED: usize = 4;

/// Custom metrics: the place of their block, how many texts they are said to be, and the bytes at the place, none where it passes what is lent.
#[derive(Clone, Default)]
pub struct Metrics {
    pub start: u64,
    pub len: u64,
    pub count: u16,
    pub block: Vec<u8>,
}

#[derive(Clone)]
pub struct Game {
    pub version: u8,
    pub flags: Flags,
    pub height: u64,
    pub width: u64,
    pub mines: u64,
    pub pixels: u8,
    pub mode: u16,
    pub bbbv: u64,
    pub time: u32,
    pub start: u64,
    pub end: u64,
    pub level: u8,
    pub texts: [Vec<u8>; 9],
    pub metrics: Metrics,
    pub cells: Vec<i8>,
    pub events: Vec<Event>,
}

impl Game {
    pub fn found(&self) -> usize {
        self.cells.iter().filter(|c| **c == -1).count()
    }
}

pub fn state_name(code: u8) -> &'static str {
    match code {
        81 => "replay",
        82 => "win",
        83 => "fail",
        _ => "error",
    }
}

pub fn kind_code(name: &str) -> u8 {
    KINDS.iter().position(|k| *k == name).unwrap_or(0) as u8
}
