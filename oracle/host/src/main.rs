//! Holds the port against the Rust it replaces. Usage:
//!   oracle compare PROGRAM SEED FILES GAMES    files and games made from a seed
//!   oracle neighbours PROGRAM SEED EACH        every truncation and one-byte change of EACH files of each version
//!   oracle findings PROGRAM                    the smallest input of each intended difference, with what both do
//!   oracle freeze FOLDER SEED MOST TRIES       a sample of answers as FOLDER/stdin and FOLDER/stdout
//!   oracle milliseconds PROGRAM                all 2^32 of them through the port's code
//!   oracle seconds PROGRAM SEED COUNT          so many seconds made from a seed, by both rules and by none
//!   oracle plays SEED GAMES                    games played through, compared after every event
//!   oracle badges SEED GAMES                   games judged for their badge, compared with what evf_play gives before each event
//!   oracle bench [recount|resave|utf8|rules|play|badge]   times of both, same inputs; of recounting, re-saving, the check of UTF-8, the conversion of seconds, playing or badges alone
//!   oracle once WHAT EVENTS TIMES              one call on one game so often, for valgrind --tool=callgrind
//!   oracle once-utf8 WHAT TEXT BYTES TIMES     the same on a text of so many bytes
//!   oracle once-rules WHAT SECONDS TIMES       the same on 1,000 seconds
//! PROGRAM is the port's program of framed cases.
mod answers;
mod badge_findings;
mod badges;
mod bench;
mod bench_badge;
mod bench_play;
mod bench_recount;
mod bench_resave;
mod bench_rules;
mod bench_utf8;
mod compare;
mod files;
mod findings;
mod freeze;
mod game;
mod games;
mod judge;
mod metrics;
mod play_findings;
mod play_games;
mod plays;
mod port;
mod recounts;
mod reference;
mod rng;
mod rules;
mod skim;

use compare::Comparison;
use rng::Rng;

fn tell(c: &Comparison) {
    for ((tag, version, number), times) in &c.seen {
        println!("{}\tversion {version}\tnumber {number}\t{times}", answers::sort_of(*tag));
    }
    println!("{} answers of the program compared, no mismatch", c.compared);
    println!("{} boards recounted, {} of them without columns, no mismatch", c.recounts.boards, c.recounts.without_columns);
    println!("{} files re-saved, of version 4 {} with custom metrics and {} without, no mismatch", c.resaved, c.with_metrics, c.without_metrics);
    let plays = &c.plays;
    println!(
        "{} files played, {} of them through as the reference does; {} refused with 27 or 28, {} as they are read, no mismatch",
        plays.played, plays.agreed, plays.refused, plays.unread
    );
    let ruled = &c.ruled;
    println!("{} times a game written by rule 2, {} with a half, {} with another answer than by rule 1, no mismatch", ruled.games, ruled.halves, ruled.differ);
    println!("{} copies by rule 2 the same as by rule 1, {} calls by no rule refused with 26, no mismatch", ruled.copies, ruled.refused);
    println!("{} files and {} games were given custom metrics; {} games written with them", c.metered.files, c.metered.games, c.games_with_metrics);
}

fn compare_many(program: &str, seed: u64, files: u64, games: u64) {
    let mut c = Comparison::new(program);
    let mut r = Rng::new(seed);
    (0..files).for_each(|_| {
        let file = c.metered.file(files::any(&mut r));
        c.file(&file, &mut r)
    });
    (0..games).for_each(|_| c.game(&mut r));
    c.flush();
    tell(&c);
    println!("{files} files checked, upgraded, re-saved and read; {games} games written in two versions; no mismatch");
}

fn compare_neighbours(program: &str, seed: u64, each: usize) {
    let mut c = Comparison::new(program);
    let mut r = Rng::new(seed);
    let files: Vec<Vec<u8>> = compare::small_files(seed, each).into_iter().map(metrics::with_three).collect();
    let count: u64 = files.iter().map(|f| compare::neighbours(&mut c, f, &mut r)).sum();
    c.flush();
    tell(&c);
    println!("{count} truncations and changes of one byte of {} files; no mismatch", files.len());
}

fn milliseconds(program: &str) {
    let all = [&[4][..], &0u32.to_be_bytes(), &u32::MAX.to_be_bytes()].concat();
    print!("{}", port::answers(program, all));
}

/// Seconds turned into milliseconds, so many from a seed.
fn seconds(program: &str, seed: u64, count: u64) {
    rules::turn(&mut Comparison::new(program), seed, count);
}

fn bench() {
    bench::run();
    bench_recount::run();
    bench_resave::run();
    bench_utf8::run();
    bench_rules::run();
    bench_play::run();
    bench_badge::run();
}

/// The bytes of the stack: the reference recounts a board by a call within a call for each cell of an opening, of which there are up to 65,025.
const STACK: usize = 1 << 28;

fn main() {
    reference::watch_panics();
    let run = std::thread::Builder::new().stack_size(STACK).spawn(run).expect("a thread");
    if run.join().is_err() {
        std::process::exit(101);
    }
}

fn run() {
    let args: Vec<String> = std::env::args().collect();
    let words: Vec<&str> = args.iter().map(|a| a.as_str()).collect();
    let number = |i: usize| words[i].parse::<u64>().expect("a number");
    match words[1..] {
        ["compare", program, _, _, _] => compare_many(program, number(3), number(4), number(5)),
        ["neighbours", program, _, _] => compare_neighbours(program, number(3), number(4) as usize),
        ["findings", program] => findings::show(program),
        ["freeze", folder, _, _, _] => freeze::freeze(number(3), number(4) as usize, number(5), folder),
        ["milliseconds", program] => milliseconds(program),
        ["seconds", program, _, _] => seconds(program, number(3), number(4)),
        ["plays", _, _] => play_games::play(number(2), number(3)),
        ["badges", _, _] => badges::judge(number(2), number(3)),
        ["bench"] => bench(),
        ["bench", "recount"] => bench_recount::run(),
        ["bench", "resave"] => bench_resave::run(),
        ["bench", "utf8"] => bench_utf8::run(),
        ["bench", "rules"] => bench_rules::run(),
        ["bench", "play"] => bench_play::run(),
        ["bench", "badge"] => bench_badge::run(),
        ["once-rules", what, of, _] => bench_rules::once(what, of, number(4) as u32),
        ["once-utf8", what, text, _, _] => bench_utf8::once(what, text, number(4) as usize, number(5) as u32),
        ["once", what, _, _] if what.starts_with("play") || what.starts_with("rust-step") => bench_play::once(what, number(3) as usize, number(4) as u32),
        ["once", what, _, _] if what.starts_with("badge") || what.starts_with("cursor") => bench_badge::once(what, number(3) as usize, number(4) as u32),
        ["once", what, _, _] => bench::once(what, number(3) as u32, number(4) as u32),
        _ => println!("usage: oracle compare|neighbours|findings|freeze|milliseconds|seconds|plays|badges|bench|once|once-utf8|once-rules .., see src/main.rs"),
    }
}
