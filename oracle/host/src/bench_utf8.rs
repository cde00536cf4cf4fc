//! The check of UTF-8 alone. The port has no such call for hosts: it is what `evf_check` takes for a file with a long software, which must be UTF-8, beyond what it takes for the same file
//! with that text as its player, which is raw bytes. The reference is the `std::str::from_utf8` that the Rust reads texts by, on the same bytes.
use crate::bench::{best, old_file_of};
use crate::port;
use std::hint::black_box;

/// The texts by name, each a letter so often.
const TEXTS: [(&str, &str); 4] = [("one", "x"), ("two", "é"), ("three", "元"), ("four", "𠜎")];

/// A text of so many bytes, or fewer by less than a letter.
fn text_of(name: &str, bytes: usize) -> String {
    let (_, letter) = TEXTS.into_iter().find(|(n, _)| *n == name).expect("one, two, three or four");
    letter.repeat(bytes / letter.len())
}

/// One thing so often on one text, for a counter of instructions.
pub fn once(what: &str, name: &str, bytes: usize, times: u32) {
    let text = text_of(name, bytes);
    let (judged, passed) = (old_file_of(&text, "", 1), old_file_of("", &text, 1));
    for _ in 0..times {
        match what {
            "rust" => drop(black_box(std::str::from_utf8(black_box(text.as_bytes())))),
            "judged" => drop(black_box(port::check(&judged))),
            "passed" => drop(black_box(port::check(&passed))),
            _ => panic!("nothing is called {what}"),
        }
    }
}

fn letters_of(name: &str, bytes: usize) {
    let text = text_of(name, bytes);
    let (judged, passed) = (old_file_of(&text, "", 1), old_file_of("", &text, 1));
    let times = best(vec![
        Box::new(|| drop(black_box(std::str::from_utf8(black_box(text.as_bytes()))))),
        Box::new(|| assert_eq!(port::check(black_box(&judged)), 0)),
        Box::new(|| assert_eq!(port::check(black_box(&passed)), 0)),
    ]);
    let (theirs, ours) = (times[0], times[1] - times[2]);
    let each = |s: f64| s * 1e9 / text.len() as f64;
    println!("{name}\t{}\t{:.3}\t{:.3}\t{:.2}", text.len(), each(theirs), each(ours), theirs / ours);
}

pub fn run() {
    println!("bytes a letter\tbytes\treference, ns a byte\tport, ns a byte\tratio");
    for (name, _) in TEXTS {
        [120, 12_000, 1_200_000].into_iter().for_each(|bytes| letters_of(name, bytes));
    }
}
