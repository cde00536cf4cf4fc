//! Each intended difference from the reference, by its smallest input: what the reference does with it, and document 01's number.
use crate::answers::{self, Case, Room};
use crate::game::*;
use crate::judge::Lent;
use crate::{badge_findings, play_findings, port, reference};
use std::sync::mpsc;
use std::time::Duration;

enum Input {
    Read { file: Vec<u8>, cells: u16, entries: u16 },
    Upgrade(Vec<u8>),
    Resave(Vec<u8>),
    Write { lent: Box<Lent>, version: u8 },
}

#[derive(PartialEq, Debug, Clone, Copy)]
enum Theirs {
    Panics,
    /// Answers an error.
    Refuses,
    /// Reads the file, or writes the game.
    Takes,
    /// Not done after two seconds.
    Busy,
    /// There is no such thing to ask it.
    Nothing,
}

pub struct Finding {
    what: &'static str,
    input: Input,
    theirs: Theirs,
    ours: u8,
}

fn read(what: &'static str, file: Vec<u8>, theirs: Theirs, ours: u8) -> Finding {
    Finding { what, input: Input::Read { file, cells: 65025, entries: 2000 }, theirs, ours }
}

fn upgrade(what: &'static str, file: Vec<u8>, theirs: Theirs, ours: u8) -> Finding {
    Finding { what, input: Input::Upgrade(file), theirs, ours }
}

fn write(what: &'static str, version: u8, lent: Lent, theirs: Theirs, ours: u8) -> Finding {
    Finding { what, input: Input::Write { lent: Box::new(lent), version }, theirs, ours }
}

/// The numbers of a version 0 file of height 1 and width 0.
const OLD: [u8; 14] = [0, 0, 1, 0, 0, 0, 0, 0, 0, 0, 0, 0, 0, 0];

/// A version 4 file of height 1 and width 0 up to its records.
fn new(tail: &[&[u8]]) -> Vec<u8> {
    let mut out = vec![4, 0, 0, 1];
    out.resize(16, 0);
    out.extend(b"AA");
    out.resize(out.len() + 16 + 4 + 2 + 2, 0);
    out.extend(tail.concat());
    out
}

fn old(tail: &[&[u8]]) -> Vec<u8> {
    [&OLD[..], &tail.concat()].concat()
}

/// A version 0 file with texts given, and records.
fn old_file(player: &[u8], country: &[u8], records: &[u8]) -> Vec<u8> {
    old(&[b"\0", player, b"\0\0\0\0\0", country, b"\0", records, b"\xFF"])
}

const FIRST: [u8; 6] = [1, 0, 0, 0, 0, 0];
const MOVE: [u8; 8] = [1, 0, 0, 0, 0, 0, 0, 0];

fn readings() -> Vec<Finding> {
    let mut high = OLD.to_vec();
    high[2] = 0;
    let pauses = [255u8; 3].repeat(65537);
    let mut later = FIRST;
    later[1] = 1;
    let marked = *b"\x03\x90\0\x01\x02\0\x01\x10\0\0\0\x01\0\x03\xE8\xE5\x85\x83\0P\0\0\0001\x002\0cn\0\0\x80\x02\0\0\x05\0\x08\0\x08\x03\0\x01\x2C\0\x07\0\x08\xFF";
    vec![
        read("an empty file", vec![], Theirs::Panics, 1),
        read("software begins Arbiter, no dates", old(&[b"Arbiter\0\0\0\0\0\0"]), Theirs::Refuses, 4),
        read("software begins Arbiter, a day and a month alone", old(&[b"Arbiter\0\0\0\x001.1\0\0"]), Theirs::Panics, 4),
        read("software begins Arbiter, a year of 20 digits", old(&[b"Arbiter\0\0\0\x001.1.18446744073709551615.0:0:0:00\0\0"]), Theirs::Busy, 4),
        read("Viennasweeper's start wraps", old(&[b"Viennasweeper\0\0\0\x0018446744073710\0\0\0\xFF"]), Theirs::Takes, 6),
        read("height 0", [&high[..], &[0; 7]].concat(), Theirs::Panics, 7),
        read("a first code that is none", new(&[&[3]]), Theirs::Panics, 8),
        read("a later code that is none", new(&[&FIRST, &[13]]), Theirs::Panics, 9),
        read("pauses past u32 and the end", new(&[&FIRST, &pauses, &[255, 0, 1], &[0, 0, 0]]), Theirs::Takes, 10),
        read("an event past u32", new(&[&later, &pauses, &[1, 0, 0, 0, 0, 0], &[0, 0, 0]]), Theirs::Takes, 10),
        Finding { what: "a board of one cell for two", input: Input::Read { file: marked.to_vec(), cells: 1, entries: 2 }, theirs: Theirs::Takes, ours: 11 },
        Finding { what: "a row of one entry for two", input: Input::Read { file: marked.to_vec(), cells: 2, entries: 1 }, theirs: Theirs::Takes, ours: 12 },
    ]
}

fn upgrades() -> Vec<Finding> {
    let mut late = MOVE;
    late[2] = 1;
    let mut ub = MOVE;
    ub[0] = 13;
    let falls = [1, 0, 0, 1, 0, 0, 0, 0, 1, 0, 0, 0, 0, 0, 0, 0];
    vec![
        upgrade("a country of two bytes and one letter goes out as XX", old_file(b"", "é".as_bytes(), &MOVE), Theirs::Panics, 0),
        upgrade("a raw country that decodes to one letter of two bytes", old_file(b"", b"\xA1\xE8", &MOVE), Theirs::Panics, 0),
        upgrade("a player that is not UTF-8 is transcoded", old_file(b"\xFF", b"", &MOVE), Theirs::Takes, 19),
        upgrade("a first event at 256 ms goes out at 0", old_file(b"", b"", &late), Theirs::Takes, 21),
        upgrade("no event", old_file(b"", b"", b""), Theirs::Panics, 21),
        upgrade("an event without a name is dropped", old_file(b"", b"", &[MOVE, ub].concat()), Theirs::Takes, 22),
        upgrade("time that falls by 1 ms makes 65537 pauses", old_file(b"", b"", &falls), Theirs::Takes, 22),
    ]
}

/// A game of height 1 and width 0, every value 0, no texts, one event: mv at 0 seconds, at 0, 0.
fn plain() -> Game {
    Game {
        version: 0,
        flags: [false; 8],
        height: 1,
        width: 0,
        mines: 0,
        pixels: 0,
        mode: 0,
        bbbv: 0,
        time: 0,
        start: 0,
        end: 0,
        level: 0,
        texts: Default::default(),
        metrics: Metrics::default(),
        cells: vec![],
        events: vec![moved(1, 0.0)],
    }
}

fn moved(kind: u8, seconds: f64) -> Event {
    Event { seconds, what: What::Mouse { kind, x: 0, y: 0 } }
}

/// The plain game with a change, its one text in the lent bytes.
fn with(change: impl FnOnce(&mut Game)) -> Lent {
    let mut game = plain();
    change(&mut game);
    let mut bytes = vec![];
    let places = std::array::from_fn(|i| {
        let start = bytes.len();
        bytes.extend(&game.texts[i]);
        (start as u64, game.texts[i].len() as u64)
    });
    Lent { game, bytes, places }
}

fn writings() -> Vec<Finding> {
    let mut outside = with(|_| {});
    outside.places[0] = (1, 0);
    vec![
        write("a place behind the lent bytes", 3, outside, Theirs::Nothing, 14),
        write("height 256 goes out as 0 in version 3", 3, with(|g| g.height = 256), Theirs::Takes, 15),
        write("height 256 in version 4", 4, with(|g| g.height = 256), Theirs::Panics, 15),
        write("height 0, which no reader takes", 4, with(|g| g.height = 0), Theirs::Takes, 15),
        write("more than 32767 pixels", 4, with(|g| (g.height, g.pixels) = (255, 129)), Theirs::Panics, 16),
        write("a board without its cell", 4, with(|g| g.width = 1), Theirs::Panics, 17),
        write("65536 mines", 4, with(|g| g.mines = 65536), Theirs::Panics, 18),
        write("a version 3 time of 16777216 ms", 3, with(|g| g.time = 16777216), Theirs::Panics, 18),
        write("a player with a 00 reads back shorter", 4, with(|g| g.texts[PLAYER] = vec![0]), Theirs::Takes, 19),
        write("a player that is not UTF-8", 4, with(|g| g.texts[PLAYER] = vec![255]), Theirs::Nothing, 19),
        write("a device id of 65536 bytes has the length 0", 4, with(|g| g.texts[DEVICE_ID] = vec![7; 65536]), Theirs::Takes, 20),
        write("a checksum of 65536 bytes has the length 0", 4, with(|g| g.texts[CHECKSUM] = vec![7; 65536]), Theirs::Takes, 20),
        write("a version 3 checksum of one byte", 3, with(|g| g.texts[CHECKSUM] = vec![7]), Theirs::Takes, 20),
        write("no entry", 4, with(|g| g.events.clear()), Theirs::Panics, 21),
        write("a first entry that is released", 4, with(|g| g.events[0] = moved(3, 0.0)), Theirs::Panics, 21),
        write("a first entry at 256 ms goes out at 0", 4, with(|g| g.events[0] = moved(1, 0.256)), Theirs::Takes, 21),
        write("an entry without a name is dropped", 4, with(|g| g.events.push(moved(0, 0.0))), Theirs::Takes, 22),
        write("time that falls by 1 ms makes 65537 pauses", 4, with(|g| g.events = vec![moved(1, 0.001), moved(1, 0.0)]), Theirs::Takes, 22),
        write("a version 3 entry at 16777216 ms", 3, with(|g| g.events[0] = moved(1, 16777.216)), Theirs::Panics, 22),
    ]
}

/// The differences of the base.
pub fn of_the_base() -> Vec<Finding> {
    [readings(), upgrades(), writings()].into_iter().flatten().collect()
}

/// The difference of document 02's note 1, row 36: a kind that version 3 writes by its code.
pub fn of_note_1() -> Vec<Finding> {
    vec![
        write("an l goes out as 99 in version 3, here as 10", 3, with_kind(10), Theirs::Takes, 0),
        write("an r goes out as 99 in version 3, here as 11", 3, with_kind(11), Theirs::Takes, 0),
        write("an m goes out as 99 in version 3, here as 12", 3, with_kind(12), Theirs::Takes, 0),
    ]
}

/// The differences of document 02's note 3: custom metrics that are kept, and a block that is not what the count says.
pub fn of_note_3() -> Vec<Finding> {
    let metered = new(&[&FIRST, &[0, 0, 0]]);
    let at = metered.len() - FIRST.len() - 3;
    let metered = [&metered[..at - 2], &[0, 1, b'm', 0], &metered[at..]].concat();
    let resave = Finding { what: "custom metrics are lost, here they are written again", input: Input::Resave(metered), theirs: Theirs::Takes, ours: 0 };
    vec![resave, write("no custom metrics where the count is 1", 4, with(|g| g.metrics.count = 1), Theirs::Nothing, 25)]
}

/// The plain game with its one event of another kind.
fn with_kind(kind: u8) -> Lent {
    with(|g| g.events[0] = moved(kind, 0.0))
}

/// Where the code of its event lies in version 3: behind 15 bytes of numbers and 10 of texts.
const CODE_AT: usize = 25;

/// Note 1's kinds, by bytes: the reference has 99 there, we have the code, and no other byte differs.
fn codes_differ() {
    for code in 10..=12 {
        let game = with_kind(code).game;
        let mut bytes = reference::write(&game, 3).unwrap();
        assert_eq!(bytes[CODE_AT], 99);
        bytes[CODE_AT] = code;
        assert_eq!(bytes, reference::write_accepted(&game, 3));
    }
}

/// Note 3's file, by bytes: the reference loses the block and writes a count of 0, we write both as they are.
fn metrics_differ() {
    let Input::Resave(file) = &of_note_3()[0].input else { unreachable!() };
    let lost = reference::script(file);
    let kept = answers::resaved(file).unwrap();
    let at = lost.len() - FIRST.len() - 3;
    assert_eq!((&kept[..at - 2], &kept[at - 2..at + 2], &kept[at + 2..]), (&lost[..at - 2], &[0, 1, b'm', 0][..], &lost[at..]));
    assert_eq!(lost[at - 2..at], [0, 0]);
}

/// The finding as cases of the program: a file that is read is upgraded too.
pub fn cases(finding: &Finding) -> Vec<Case> {
    let mut all = vec![case(finding)];
    if let Input::Read { file, .. } = &finding.input {
        all.push(answers::upgrading(file, &Room { enough: true, bytes: 0 }));
    }
    all
}

fn case(finding: &Finding) -> Case {
    let room = Room { enough: true, bytes: 1 };
    match &finding.input {
        Input::Read { file, cells, entries } => answers::reading(file, *cells, *entries),
        Input::Upgrade(file) => answers::upgrading(file, &room),
        Input::Resave(file) => answers::resaving(file, &room),
        Input::Write { lent, version } => answers::writing(lent, *version, &room),
    }
}

/// No answer is a panic, an answer of nothing an error.
fn told(answer: Option<Option<usize>>) -> (Theirs, usize) {
    match answer {
        None => (Theirs::Panics, 0),
        Some(None) => (Theirs::Refuses, 0),
        Some(Some(n)) => (Theirs::Takes, n),
    }
}

/// What the reference does, given two seconds; with the events that it reads, or the bytes that it writes.
fn asked(finding: &Finding) -> (Theirs, usize) {
    let run: Box<dyn FnOnce() -> (Theirs, usize) + Send> = match &finding.input {
        Input::Read { file, .. } => {
            let file = file.clone();
            Box::new(move || told(reference::guarded(|| reference::just_parse(&file))))
        }
        Input::Upgrade(file) | Input::Resave(file) => {
            let file = file.clone();
            Box::new(move || told(reference::guarded(|| Some(reference::script(&file).len()))))
        }
        Input::Write { lent, version } => {
            let (game, version) = (lent.game.clone(), *version);
            Box::new(move || told(reference::write(&game, version).map(|bytes| Some(bytes.len()))))
        }
    };
    let (done, wait) = mpsc::channel();
    std::thread::spawn(move || done.send(run()));
    wait.recv_timeout(Duration::from_secs(2)).unwrap_or((Theirs::Busy, 0))
}

pub fn show(program: &str) {
    let findings: Vec<Finding> = of_the_base().into_iter().chain(of_note_1()).chain(of_note_3()).collect();
    for finding in &findings {
        let (theirs, n) = if finding.theirs == Theirs::Nothing { (Theirs::Nothing, 0) } else { asked(finding) };
        assert_eq!(theirs, finding.theirs, "{}", finding.what);
        assert_eq!(case(finding).class.2, finding.ours, "{}", finding.what);
        println!("the reference: {theirs:?} ({n})\there: {}\t{}", finding.ours, finding.what);
    }
    codes_differ();
    metrics_differ();
    let cases: Vec<Case> = findings.iter().map(case).collect();
    assert_eq!(port::answers(program, port::blocks(&cases)), port::expected(&cases), "the port answers otherwise");
    println!("{} differences, each as listed", findings.len() + play_findings::show() + badge_findings::show());
    std::process::exit(0);
}
