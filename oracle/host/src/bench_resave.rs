//! Times of re-saving: against the reference's reading and writing on the same files, and of a large block of custom metrics against the check of the same file.
use crate::bench::{best, heading, line, old_file};
use crate::rules::AWAY;
use crate::{port, reference, skim};
use std::hint::black_box;

/// The same game as version 4.
pub fn new_file(events: u32) -> Vec<u8> {
    let old = old_file(events);
    let mut copy = vec![0u8; old.len() + 65536];
    let n = port::upgrade(&old, &mut copy, AWAY);
    copy.truncate(n);
    copy
}

fn files_of(events: u32) {
    let file = new_file(events);
    let mut copy = vec![0u8; file.len()];
    assert_eq!(port::resave(&file, &mut copy, AWAY), file.len());
    assert_eq!(reference::script(&file), copy, "the copies differ");
    let times = best(vec![Box::new(|| drop(black_box(reference::script(black_box(&file))))), Box::new(|| assert_eq!(port::resave(black_box(&file), &mut copy, AWAY), file.len()))]);
    line(events, "version 4: parse and write / re-save", file.len(), times[0], times[1]);
}

/// A block of a million bytes, more or less: a text so often.
fn block(text: &str, count: usize) -> Vec<u8> {
    [text.as_bytes(), b"\0"].concat().repeat(count)
}

/// A file of 100 events with a block of so many texts.
fn metered(count: u16, block: &[u8]) -> Vec<u8> {
    let file = new_file(100);
    let at = skim::count_at(&file).expect("a file of version 4");
    [&file[..at], &count.to_be_bytes(), block, &file[at + 2..]].concat()
}

fn block_of(what: &str, text: &str, count: u16) {
    let file = metered(count, &block(text, count as usize));
    let mut copy = vec![0u8; file.len()];
    assert_eq!(port::resave(&file, &mut copy, AWAY), file.len());
    assert!(copy == file, "the copy differs");
    let times = best(vec![Box::new(|| assert_eq!(port::check(black_box(&file)), 0)), Box::new(|| assert_eq!(port::resave(black_box(&file), &mut copy, AWAY), file.len()))]);
    println!("{count}\t{what}\t{}\t{:.1}\t{:.1}\t{:.2}", file.len(), times[0] * 1e6, times[1] * 1e6, times[1] / times[0]);
}

pub fn run() {
    heading();
    [100, 1000, 10_000].into_iter().for_each(files_of);
    println!("texts\tof\tbytes\tcheck, us\tre-save, us\tre-save / check");
    block_of("15 letters of one byte", "fifteen letters", 65535);
    block_of("5 letters of three bytes", "赵大锤元元", 65535);
    block_of("1,048,575 letters of one byte", &"x".repeat(1_048_575), 1);
    block_of("349,525 letters of three bytes", &"元".repeat(349_525), 1);
    block_of("none", "", 65535);
}
