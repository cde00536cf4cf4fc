//! Times of the reference and the port on the same files, in one run.
use crate::port::{self, Held};
use crate::rules::AWAY;
use crate::{bench_resave, reference};
use ms_toollib::videos::evf_video::EvfVideo;
use ms_toollib::videos::NewSomeVideo2;
use std::hint::black_box;
use std::time::Instant;

/// Seconds of one call of each: the best of many short rounds, taken in turns, so that a slow moment of the machine falls on all alike.
pub fn best(mut calls: Vec<Box<dyn FnMut() + '_>>) -> Vec<f64> {
    let mut found = vec![f64::INFINITY; calls.len()];
    for _ in 0..ROUNDS {
        for (call, best) in calls.iter_mut().zip(&mut found) {
            *best = best.min(round(call));
        }
    }
    found
}

/// The same, but the medians of the rounds.
pub fn medians(mut calls: Vec<Box<dyn FnMut() + '_>>) -> Vec<f64> {
    let mut found = vec![vec![]; calls.len()];
    for _ in 0..ROUNDS {
        calls.iter_mut().zip(&mut found).for_each(|(call, times)| times.push(round(call)));
    }
    found.iter_mut().for_each(|times| times.sort_by(f64::total_cmp));
    found.iter().map(|times| times[ROUNDS / 2]).collect()
}

const ROUNDS: usize = 25;

/// Seconds of one call, over a fiftieth of a second or more.
fn round(call: &mut dyn FnMut()) -> f64 {
    let mut calls = 0;
    let start = Instant::now();
    while start.elapsed().as_secs_f64() < 0.02 {
        call();
        calls += 1;
    }
    start.elapsed().as_secs_f64() / calls as f64
}

/// A version 3 file of an expert game with so many events, most of them moves of the mouse some milliseconds apart.
pub fn old_file(events: u32) -> Vec<u8> {
    old_file_of("元3.2", "Player", events)
}

/// The same of a software and a player.
pub fn old_file_of(software: &str, player: &str, events: u32) -> Vec<u8> {
    let mut out = b"\x03\x90\0\x10\x1E\0\x63\x10\0\0\0\xA0\x01\x86\xA0".to_vec();
    out.extend([software.as_bytes(), b"\0", player.as_bytes(), b"\0"].concat());
    out.extend(b"\0id\0001700000000000000\x001700000100000000\0cn\0");
    out.extend(b"0123456789abcdef0123456789abcdef\0");
    (0..60u32).for_each(|i| out.push((i * 37 % 256) as u8 & 0x55));
    for i in 0..events {
        out.push(match i % 16 {
            3 => 2,
            4 => 3,
            _ => 1,
        });
        out.extend(&(i * 8).to_be_bytes()[1..]);
        out.extend((240 + i as u16 % 37).to_be_bytes());
        out.extend((120 + i as u16 % 23).to_be_bytes());
    }
    out.push(0);
    out.extend([0x5A; 32]);
    out
}

pub fn line(events: u32, what: &str, bytes: usize, theirs: f64, ours: f64) {
    let rate = |s: f64| bytes as f64 / s / 1e6;
    println!("{events}\t{what}\t{bytes}\t{:.1}\t{:.0}\t{:.0}\t{:.1}\t{:.2}", theirs * 1e6, rate(theirs), rate(ours), theirs / ours, ours * 1e9 / events as f64);
}

fn parse(file: &[u8]) -> EvfVideo {
    let mut video = EvfVideo::new(file.to_vec(), "");
    video.parse().expect("a file that is read");
    video
}

fn files_of(events: u32) {
    let old = old_file(events);
    let row = if events < 2000 { Held::Small } else { Held::Large };
    let mut copy = vec![0u8; old.len() + 65536];
    let n = port::upgrade(&old, &mut copy, AWAY);
    assert_eq!(reference::script(&old), copy[..n], "the copies differ");
    let new = copy[..n].to_vec();
    let (mut video, mut copy_2) = (parse(&old), copy.clone());
    let mut boards = vec![vec![0i8; 480]; 4];
    let [board_1, board_2, board_3, board_4] = &mut boards[..] else { unreachable!() };
    let times = best(vec![
        Box::new(|| drop(black_box(parse(black_box(&old))))),
        Box::new(|| assert_eq!(port::check(black_box(&old)), 0)),
        Box::new(|| assert_eq!(port::read(&row, black_box(&old), board_1), 0)),
        Box::new(|| drop(black_box(parse(black_box(&new))))),
        Box::new(|| assert_eq!(port::check(black_box(&new)), 0)),
        Box::new(|| assert_eq!(port::read(&row, black_box(&new), board_2), 0)),
        Box::new(|| drop(black_box(reference::script(black_box(&old))))),
        Box::new(|| assert_eq!(port::upgrade(black_box(&old), &mut copy, AWAY), n)),
        Box::new(|| assert_eq!(port::upgrade_with_row(&row, black_box(&old), board_3, &mut copy_2, AWAY), n)),
        Box::new(|| reference::generate(black_box(&mut video.data), 4, true)),
        // a refused file costs the row and no more
        Box::new(|| assert_eq!(port::read(&row, black_box(&[]), board_4), 1)),
    ]);
    tell(events, row.entries(), old.len(), new.len(), &times);
}

fn tell(events: u32, entries: usize, old: usize, new: usize, times: &[f64]) {
    let making = times[10];
    println!("{events}\tmaking a row of {entries} entries\t-\t-\t-\t-\t-\t{:.2}", making * 1e9 / events as f64);
    for (version, bytes, i) in [(3, old, 0), (4, new, 3)] {
        line(events, &format!("version {version}: parse / check"), bytes, times[i], times[i + 1]);
        line(events, &format!("version {version}: parse / parse into a row"), bytes, times[i], times[i + 2]);
        line(events, &format!("version {version}: the same, less making the row"), bytes, times[i], times[i + 2] - making);
    }
    line(events, "version 3: parse and write / upgrade without a row", old, times[6], times[7]);
    line(events, "version 3: parse and write / upgrade with a row", old, times[6], times[8]);
    line(events, "version 3: the same, less making the row", old, times[6], times[8] - making);
    line(events, "version 3: write alone / upgrade with a row", old, times[9], times[8]);
}

/// One thing so often on one file, for a counter of instructions: the difference of two runs, by the difference of the times or of the events, is what one takes.
pub fn once(what: &str, events: u32, times: u32) {
    let old = old_file(events);
    let row = if events < 2000 { Held::Small } else { Held::Large };
    let mut board = vec![0i8; 480];
    let mut copy = vec![0u8; old.len() + 65536];
    let new = bench_resave::new_file(events);
    for _ in 0..times {
        match what {
            "rust-parse" => drop(black_box(parse(&old))),
            "rust-script" => drop(black_box(reference::script(&old))),
            "check" => drop(black_box(port::check(&old))),
            "read" => drop(black_box(port::read(&row, &old, &mut board))),
            "upgrade" => drop(black_box(port::upgrade(&old, &mut copy, AWAY))),
            "rust-script-4" => drop(black_box(reference::script(&new))),
            "check-4" => drop(black_box(port::check(&new))),
            "resave" => drop(black_box(port::resave(&new, &mut copy, AWAY))),
            "upgrade-row" => drop(black_box(port::upgrade_with_row(&row, &old, &mut board, &mut copy, AWAY))),
            _ => panic!("nothing is called {what}"),
        }
    }
}

pub fn heading() {
    println!("events\twhat: reference / port\tbytes\treference, us\treference, MB/s\tport, MB/s\tratio\tport, ns an event");
}

pub fn run() {
    heading();
    [100, 1000, 10_000, 50_000, 200_000].into_iter().for_each(files_of);
}
