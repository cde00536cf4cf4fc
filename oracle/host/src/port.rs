//! The port: its exported functions, linked in, and the proved program that answers framed cases.
use crate::answers::Case;
use std::io::{Read, Write};
use std::process::{Command, Stdio};

// The five of `held` and `evf_s_to_ms` are no calls for hosts, and no header file has them: they stand for `parse` and `upgrade`, whose row a host cannot lend, for a pass of the event cursor,
// and for the conversion of seconds, whose answer a host cannot take.
extern "C" {
    #[link_name = "evf_check"]
    fn check_at(file: *const u8, length: usize) -> u8;
    #[link_name = "evf_upgrade"]
    fn upgrade_at(file: *const u8, length: usize, copy: *mut u8, room: usize, rule: u8) -> usize;
    #[link_name = "evf_resave"]
    fn resave_at(file: *const u8, length: usize, copy: *mut u8, room: usize, rule: u8) -> usize;
    #[link_name = "evf_recount"]
    fn recount_at(height: usize, width: usize, board: *const i8, cells: usize, work: *mut u16, entries: usize) -> usize;
    #[link_name = "evf_play"]
    fn play_at(file: *const u8, length: usize, events: usize, board: *mut i8, cells: usize, work: *mut u16, entries: usize) -> u8;
    #[link_name = "evf_badge"]
    fn badge_at(file: *const u8, length: usize, wish: u8, board: *mut i8, cells: usize, work: *mut u16, entries: usize) -> u8;
    #[link_name = "evf_cursor_pass"]
    fn cursor_pass_at(file: *const u8, length: usize) -> usize;
    fn evf_read_held_2000(file: *const u8, length: usize, board: *mut i8, cells: usize) -> u8;
    fn evf_read_held_200000(file: *const u8, length: usize, board: *mut i8, cells: usize) -> u8;
    fn evf_upgrade_held_2000(file: *const u8, length: usize, board: *mut i8, cells: usize, copy: *mut u8, room: usize, rule: u8) -> usize;
    fn evf_upgrade_held_200000(file: *const u8, length: usize, board: *mut i8, cells: usize, copy: *mut u8, room: usize, rule: u8) -> usize;
    fn evf_s_to_ms(seconds: f64, rule: u8) -> u64;
}

pub fn check(file: &[u8]) -> u8 {
    unsafe { check_at(file.as_ptr(), file.len()) }
}

pub fn upgrade(file: &[u8], copy: &mut [u8], rule: u8) -> usize {
    unsafe { upgrade_at(file.as_ptr(), file.len(), copy.as_mut_ptr(), copy.len(), rule) }
}

/// Below 51 the number of a refusal, else the length of the copy, as for the upgrade.
pub fn resave(file: &[u8], copy: &mut [u8], rule: u8) -> usize {
    unsafe { resave_at(file.as_ptr(), file.len(), copy.as_mut_ptr(), copy.len(), rule) }
}

/// Below 65536 the number of a refusal, else the openings and one more times 65536, and the 3BV.
pub fn recount(height: usize, width: usize, board: &[i8], work: &mut [u16]) -> usize {
    unsafe { recount_at(height, width, board.as_ptr(), board.len(), work.as_mut_ptr(), work.len()) }
}

/// The first events of a file played: 64 undecided, 65 won, 66 lost, below the number of a refusal.
pub fn play(file: &[u8], events: usize, board: &mut [i8], cells: &mut [u16]) -> u8 {
    unsafe { play_at(file.as_ptr(), file.len(), events, board.as_mut_ptr(), board.len(), cells.as_mut_ptr(), cells.len()) }
}

/// The wishes of `badge`: the rule of the file's version, the older, the newer.
pub const BY_VERSION: u8 = 0;
pub const BY_OLDER: u8 = 1;
pub const BY_NEWER: u8 = 2;

/// A file's badge judged: 64, 1 more where it is earned and 2 more where the file claims it; 255 for a number that is no wish; below 64 the number of a refusal.
pub fn badge(file: &[u8], wish: u8, board: &mut [i8], cells: &mut [u16]) -> u8 {
    unsafe { badge_at(file.as_ptr(), file.len(), wish, board.as_mut_ptr(), board.len(), cells.as_mut_ptr(), cells.len()) }
}

/// The events of a file, stepped over by the cursor and counted.
pub fn cursor_pass(file: &[u8]) -> usize {
    unsafe { cursor_pass_at(file.as_ptr(), file.len()) }
}

/// The entries of the row that the calls below hold.
pub enum Held {
    Small,
    Large,
}

impl Held {
    pub fn entries(&self) -> usize {
        match self {
            Held::Small => 2000,
            Held::Large => 200_000,
        }
    }
}

/// The file read into a board and a row.
pub fn read(row: &Held, file: &[u8], board: &mut [i8]) -> u8 {
    let call = match row {
        Held::Small => evf_read_held_2000,
        Held::Large => evf_read_held_200000,
    };
    unsafe { call(file.as_ptr(), file.len(), board.as_mut_ptr(), board.len()) }
}

/// The file upgraded with a board and a row.
pub fn upgrade_with_row(row: &Held, file: &[u8], board: &mut [i8], copy: &mut [u8], rule: u8) -> usize {
    let call = match row {
        Held::Small => evf_upgrade_held_2000,
        Held::Large => evf_upgrade_held_200000,
    };
    unsafe { call(file.as_ptr(), file.len(), board.as_mut_ptr(), board.len(), copy.as_mut_ptr(), copy.len(), rule) }
}

/// The conversion of seconds by a rule: milliseconds, or 2^32 and 26. It is safe for all seconds and rules.
pub type Turn = unsafe extern "C" fn(f64, u8) -> u64;
pub const S_TO_MS: Turn = evf_s_to_ms;

/// The program reads blocks of this many bytes; a case lies in one block.
pub const BLOCK: usize = 262144;

/// Cases as blocks, each filled with 0 behind its last case.
pub fn blocks(cases: &[Case]) -> Vec<u8> {
    let mut out = vec![];
    for case in cases {
        let length = case.input.len() + 1;
        assert!(length <= BLOCK, "a case longer than a block");
        if out.len() % BLOCK + length > BLOCK {
            out.resize(out.len().next_multiple_of(BLOCK), 0);
        }
        out.push(case.tag);
        out.extend(&case.input);
    }
    out
}

/// What the program prints for an input.
pub fn answers(program: &str, input: Vec<u8>) -> String {
    let mut child = Command::new(program).stdin(Stdio::piped()).stdout(Stdio::piped()).spawn().expect("the port's program");
    let mut stdin = child.stdin.take().unwrap();
    let feed = std::thread::spawn(move || stdin.write_all(&input));
    let mut out = String::new();
    child.stdout.take().unwrap().read_to_string(&mut out).unwrap();
    feed.join().unwrap().expect("the program stopped reading");
    assert!(child.wait().unwrap().success(), "the program failed");
    out
}

/// The lines that it is to print for the cases, numbered from 0.
pub fn expected(cases: &[Case]) -> String {
    let lines: String = cases.iter().enumerate().map(|(i, c)| c.answer.replacen('#', &i.to_string(), 1)).collect();
    format!("{lines}cases {}\n", cases.len())
}
