//! Times of the no-flag badge: under the newer rule beside playing the same file, under the older beside one
//! pass of the event cursor over it, in one run.
use crate::bench::medians;
use crate::bench_play::{us, Game, Lent, Rights, GAMES};
use crate::port::{self, BY_NEWER, BY_OLDER};
use std::hint::black_box;

/// Files of one version and length.
struct Files {
    version: u8,
    events: usize,
    files: Vec<Vec<u8>>,
}

impl Files {
    /// So many games of so many events as files of versions 3 and 4; each is won by its last event, or not
    /// ended.
    fn of(games: u64, events: usize, ends: bool, rights: Rights) -> [Files; 2] {
        let games: Vec<Game> = (0..games).map(|seed| Game::expert(seed, events, ends, rights)).collect();
        let files = |version: u8, file: fn(&Game) -> &Vec<u8>| Files {
            version,
            events,
            files: games.iter().map(|game| file(game).clone()).collect(),
        };
        [files(3, |game| &game.old), files(4, |game| &game.new)]
    }

    fn each(&self, mut call: impl FnMut(&[u8])) {
        self.files.iter().for_each(|file| call(black_box(file)));
    }
}

fn badge(lent: &mut Lent, file: &[u8], wish: u8) -> bool {
    let answer = port::badge(file, wish, &mut lent.board, &mut lent.cells);
    assert!(answer >= 64, "a file that is judged");
    answer % 2 == 1
}

/// What is timed of some files: evf_play, the badge under the newer rule, a pass of the cursor, the badge
/// under the older rule, and the check, which reads the file and no more.
fn calls(files: &Files, is_earned: bool) -> Vec<Box<dyn FnMut() + '_>> {
    let [mut lent_1, mut lent_2, mut lent_3] = [(); 3].map(|_| Lent::new());
    vec![
        Box::new(move || files.each(|file| assert!(lent_1.play(file, usize::MAX) >= 64))),
        Box::new(move || files.each(|file| assert_eq!(badge(&mut lent_2, file, BY_NEWER), is_earned))),
        Box::new(move || files.each(|file| assert_eq!(port::cursor_pass(file), files.events))),
        Box::new(move || files.each(|file| assert!(!badge(&mut lent_3, file, BY_OLDER)))),
        Box::new(move || files.each(|file| assert_eq!(port::check(file), 0))),
    ]
}

/// One version in one run: medians of all calls, taken in turns.
fn lines(sizes: &[&Files], rights: Rights) {
    let found = medians(sizes.iter().flat_map(|files| calls(files, rights == Rights::Uncovered)).collect());
    let all: Vec<&[f64]> = found.chunks(5).collect();
    for (files, t) in sizes.iter().zip(&all) {
        let us = |i: usize| us(t[i] / files.files.len() as f64);
        let (newer, older) = (t[1] / t[0], t[3] / t[2]);
        print!("{}\t{}\t{}\t{}\t{newer:.3}", files.version, files.events, us(0), us(1));
        println!("\t{}\t{}\t{older:.3}\t{}", us(2), us(3), us(4));
    }
    let (newer, older) = (all[2][1] / all[1][1], all[2][3] / all[1][3]);
    println!("200,000 events are {newer:.2} times 20,000 under the newer rule, {older:.2} under the older");
}

fn table(name: &str, rights: Rights) {
    println!("{name}");
    print!("version\tevents\tplay, us\tnewer, us\tnewer / play\tcursor, us\tolder, us\tolder / cursor");
    println!("\tcheck, us");
    let sizes = [(GAMES, 3000), (1, 20_000), (1, 200_000)];
    let all = sizes.map(|(games, events)| Files::of(games, events, games > 1, rights));
    lines(&all.each_ref().map(|[old, _]| old), rights);
    lines(&all.each_ref().map(|[_, new]| new), rights);
}

pub fn run() {
    table("right clicks on mines: not earned, from the first on", Rights::Mines);
    table("right clicks on uncovered cells: earned, and each is looked at", Rights::Uncovered);
}

/// One thing so often, for a counter of instructions, on an expert game of so many events that does not end
/// and that earns the badge under the newer rule.
pub fn once(what: &str, events: usize, times: u32) {
    let [old, new] = Files::of(1, events, false, Rights::Uncovered);
    let mut lent = Lent::new();
    let file = if what.ends_with("-4") { &new.files[0] } else { &old.files[0] };
    for _ in 0..times {
        match what.trim_end_matches("-4") {
            "badge" => _ = black_box(badge(&mut lent, file, BY_NEWER)),
            "badge-older" => _ = black_box(badge(&mut lent, file, BY_OLDER)),
            "badge-play" => _ = black_box(lent.play(file, usize::MAX)),
            "cursor" => _ = black_box(port::cursor_pass(file)),
            _ => panic!("nothing is called {what}"),
        }
    }
}
