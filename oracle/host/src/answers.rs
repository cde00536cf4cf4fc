//! The answers that the framed program is to print, made from the reference's, and the cases as the program reads them.
use crate::game::*;
use crate::judge::{self, Lent};
use crate::{reference, rules};
use ms_toollib::miscellaneous::s_to_ms;
use ms_toollib::videos::evf_video::EvfVideo;
use std::fmt::Write;

/// One case: the bytes behind its tag, and the lines to be printed for it, `#` standing for its number.
pub struct Case {
    pub tag: u8,
    pub input: Vec<u8>,
    pub answer: String,
    /// What it shows: sort, version and number, for a sample of every sort.
    pub class: (u8, u8, u8),
}

pub const READING: u8 = 1;
pub const WRITING: u8 = 2;
pub const UPGRADING: u8 = 3;
pub const LEAF: u8 = 5;
pub const RESAVING: u8 = 8;
/// A rule, and another case with its tag.
pub const RULED: u8 = 10;

/// What becomes of a case, by its tag.
pub fn sort_of(tag: u8) -> &'static str {
    match tag {
        READING => "read",
        WRITING => "written",
        UPGRADING => "upgraded",
        LEAF => "turned into milliseconds",
        RULED => "written by rule 2 or by none",
        _ => "re-saved",
    }
}

const NOT_WRITTEN: u32 = u32::MAX;

/// Bytes as they are, in the framing of a first part, a repeated unit and a last part.
fn framed(bytes: &[u8], out: &mut Vec<u8>) {
    out.extend((bytes.len() as u32).to_be_bytes());
    out.extend([0; 9]);
    out.extend(bytes);
}

/// A unit so often, between two parts.
fn framed_long(first: &[u8], unit: &[u8], times: u32, last: &[u8], out: &mut Vec<u8>) {
    out.extend((first.len() as u32).to_be_bytes());
    out.push(unit.len() as u8);
    out.extend(times.to_be_bytes());
    out.extend((last.len() as u32).to_be_bytes());
    out.extend(first);
    out.extend(unit);
    out.extend(last);
}

/// Framed, a long run of equal bytes as one.
fn framed_runs(bytes: &[u8], out: &mut Vec<u8>) {
    let Some((at, n)) = longest_run(bytes).filter(|(_, n)| *n > 200) else { return framed(bytes, out) };
    framed_long(&bytes[..at], &bytes[at..at + 1], n as u32, &bytes[at + n..], out);
}

fn longest_run(bytes: &[u8]) -> Option<(usize, usize)> {
    let mut best = None;
    let mut from = 0;
    for i in 0..bytes.len() {
        if bytes[i] != bytes[from] {
            from = i;
        }
        if best.is_none_or(|(_, n)| i + 1 - from > n) {
            best = Some((from, i + 1 - from));
        }
    }
    best
}

fn hex(bytes: &[u8]) -> String {
    if bytes.is_empty() {
        return "-".to_string();
    }
    bytes.iter().map(|b| format!("{b:02x}")).collect()
}

fn event_line(e: &Event, out: &mut String) {
    let bits = e.seconds.to_bits();
    match e.what {
        What::Mouse { kind, x, y } => writeln!(out, "{} {bits:016x} {x} {y}", KINDS[kind as usize]).unwrap(),
        What::State(code) => writeln!(out, "{} {bits:016x}", state_name(code)).unwrap(),
    }
}

fn game_lines(g: &Game) -> String {
    let mut out = format!("game {} {}", g.version, g.flags.map(|b| if b { '1' } else { '0' }).iter().collect::<String>());
    let numbers = [g.height, g.width, g.mines, g.pixels as u64, g.mode as u64, g.bbbv, g.time as u64, g.start, g.end, g.level as u64, g.found() as u64, g.events.len() as u64];
    numbers.iter().for_each(|n| write!(out, " {n}").unwrap());
    out.push_str("\ntexts");
    g.texts.iter().for_each(|t| write!(out, " {}", hex(t)).unwrap());
    let m = &g.metrics;
    write!(out, "\nmetrics {} {} {}{}", m.start, m.len, m.count, runs(&m.block)).unwrap();
    out.push_str("\ncells ");
    g.cells.iter().for_each(|c| out.push(if *c == -1 { '*' } else { (b'0' + *c as u8) as char }));
    out.push('\n');
    g.events.iter().for_each(|e| event_line(e, &mut out));
    out
}

/// A file read into so many cells and entries.
pub fn reading(file: &[u8], cells: u16, entries: u16) -> Case {
    let read = reference::read(file);
    let (answer, number) = match &read {
        Err(n) => (format!("refused {n}\n"), *n),
        Ok((_, g)) if (cells as u64) < g.height * g.width => ("refused 11\n".to_string(), 11),
        Ok((_, g)) if (entries as usize) < g.events.len() => ("refused 12\n".to_string(), 12),
        Ok((_, g)) => (game_lines(g), 0),
    };
    let mut input = [cells.to_be_bytes(), entries.to_be_bytes()].concat();
    framed_runs(file, &mut input);
    Case { tag: READING, input, answer: format!("case #\n{answer}"), class: (READING, file.first().map_or(9, |v| (*v).min(5)), number) }
}

/// Bytes by runs, as the program prints them.
fn runs(bytes: &[u8]) -> String {
    let mut out = String::new();
    for run in bytes.chunk_by(|a, b| a == b) {
        write!(out, " {:02x}", run[0]).unwrap();
        if run.len() > 1 {
            write!(out, "*{}", run.len()).unwrap();
        }
    }
    out
}

/// A lent buffer of so many bytes after the call.
fn buffer(written: Option<&[u8]>, room: usize) -> String {
    let mut out = written.unwrap_or(&[]).to_vec();
    out.resize(room, 0xAA);
    runs(&out)
}

/// The room asked for, relative to the length: true for just enough, else that many bytes.
pub struct Room {
    pub enough: bool,
    pub bytes: i64,
}

/// The answer of one writer that refuses, the room and the number.
fn refused(n: u8, room: &Room) -> (String, u32, u8) {
    let room = room.bytes.clamp(0, 300) as usize;
    (format!("size refused {n}\nrefused {n}\nfile{}\n", buffer(None, room)), room as u32, n)
}

/// The same of any answer: its number is 0, 14 to 22, 25, or 23.
fn written(lent: &Lent, version: u8, room: &Room) -> (String, u32, u8) {
    if let Some(n) = judge::refusal(lent, version) {
        // these two are the reference's own refusals
        assert!(n != 16 && n != 18 || reference::write(&lent.game, version).is_none(), "the reference writes what is refused with {n}");
        return refused(n, room);
    }
    let bytes = reference::write_accepted(&lent.game, version);
    let n = bytes.len();
    let room = if room.enough { n as i64 + room.bytes } else { room.bytes }.clamp(0, 262144) as usize;
    if room < n {
        return (format!("size {n}\nshort {n}\nfile{}\n", buffer(None, room)), room as u32, 23);
    }
    (format!("size {n}\nwrote {n}\nfile{}\n", buffer(Some(&bytes), room)), room as u32, 0)
}

fn header_bytes(lent: &Lent, out: &mut Vec<u8>) {
    let g = &lent.game;
    out.push(g.flags.iter().fold(0, |n, b| n * 2 + *b as u8));
    [g.height, g.width, g.mines, g.bbbv].iter().for_each(|n| out.extend(n.to_be_bytes()));
    out.push(g.pixels);
    out.extend(g.mode.to_be_bytes());
    out.extend(g.time.to_be_bytes());
    out.extend(g.start.to_be_bytes());
    out.extend(g.end.to_be_bytes());
    out.extend([g.version, g.level]);
    out.extend(7u64.to_be_bytes());
    for (start, len) in lent.places {
        out.extend(start.to_be_bytes());
        out.extend(len.to_be_bytes());
    }
    out.extend(g.metrics.start.to_be_bytes());
    out.extend(g.metrics.len.to_be_bytes());
    out.extend(g.metrics.count.to_be_bytes());
}

fn entry_bytes(e: &Event, out: &mut Vec<u8>) {
    let (code, x, y) = match e.what {
        What::Mouse { kind, x, y } => (kind, x, y),
        What::State(code) => (code, 0, 0),
    };
    out.push(code);
    out.extend(e.seconds.to_bits().to_be_bytes());
    out.extend(x.to_be_bytes());
    out.extend(y.to_be_bytes());
}

/// A game written in one version, by rule 1, which is the reference's.
pub fn writing(lent: &Lent, version: u8, room: &Room) -> Case {
    writing_case(lent, version, written(lent, version, room))
}

/// The same by rule 2, for which the reference is fed with whole milliseconds, or by no rule.
pub fn writing_by(rule: u8, lent: &Lent, version: u8, room: &Room) -> Case {
    let answer = match rule {
        rules::TO_EVEN => written(&rules::fed(lent), version, room),
        _ => refused(rules::NO_SUCH_RULE, room),
    };
    ruled(rule, writing_case(lent, version, answer))
}

/// A case by a rule.
fn ruled(rule: u8, case: Case) -> Case {
    let (_, version, number) = case.class;
    Case { tag: RULED, input: [&[rule, case.tag], &case.input[..]].concat(), class: (RULED, version, number), ..case }
}

/// Seconds turned into milliseconds by a rule.
pub fn turning(rule: u8, seconds: f64) -> Case {
    let (told, number) = match rule {
        rules::AWAY => (s_to_ms(seconds).to_string(), 0),
        rules::TO_EVEN => (rules::to_even(seconds).to_string(), 0),
        _ => (format!("refused {}", rules::NO_SUCH_RULE), rules::NO_SUCH_RULE),
    };
    let input = [&[rule, LEAF, 4, 0, 8], &seconds.to_bits().to_be_bytes()[..]].concat();
    Case { tag: RULED, input, answer: format!("ms {told}\n"), class: (LEAF, rule, number) }
}

fn writing_case(lent: &Lent, version: u8, (answer, room, number): (String, u32, u8)) -> Case {
    let rooms = if version == 3 { [room, NOT_WRITTEN] } else { [NOT_WRITTEN, room] };
    let mut input: Vec<u8> = rooms.iter().flat_map(|r| r.to_be_bytes()).collect();
    header_bytes(lent, &mut input);
    framed_runs(&lent.bytes, &mut input);
    framed(&lent.game.cells.iter().map(|c| *c as u8).collect::<Vec<u8>>(), &mut input);
    input.extend(0u64.to_be_bytes());
    input.extend((lent.game.events.len() as u32).to_be_bytes());
    lent.game.events.iter().for_each(|e| entry_bytes(e, &mut input));
    Case { tag: WRITING, input, answer: format!("game # version {version}\n{answer}"), class: (WRITING, version, number) }
}

/// The copy of a file by the reference, or document 01's number.
pub fn copy_of(file: &[u8]) -> Result<Vec<u8>, u8> {
    let (video, game) = reference::read(file)?;
    if game.version == 4 {
        return Err(13);
    }
    written_again(video, &game)
}

/// A file of any version read and written by the reference, its custom metrics put in; or the number.
pub fn resaved(file: &[u8]) -> Result<Vec<u8>, u8> {
    let (video, game) = reference::read(file)?;
    let mut bytes = written_again(video, &game)?;
    reference::put_metrics(&game.metrics, &mut bytes);
    Ok(bytes)
}

/// What the reference has read, written by it as version 4.
fn written_again(video: EvfVideo, game: &Game) -> Result<Vec<u8>, u8> {
    if let Some(n) = judge::refusal_of_game(game, 4) {
        return Err(n);
    }
    let mut data = video.data;
    let country = data.country.clone();
    let copied = reference::guarded(|| {
        reference::generate(&mut data, 4, game.flags[NF]);
        data.raw_data.clone()
    });
    Ok(copied.unwrap_or_else(|| {
        assert!(country.len() == 2 && country.chars().count() == 1, "the reference panics at a game that is to be written");
        data.country.clear();
        reference::generate(&mut data, 4, game.flags[NF]);
        data.raw_data.clone()
    }))
}

/// A file upgraded; a refused one into 20 bytes.
pub fn upgrading(file: &[u8], room: &Room) -> Case {
    copying(UPGRADING, "upgraded", file, &copy_of(file), room, |_| String::new())
}

/// A file re-saved, and what the reference reads from the copy.
pub fn resaving(file: &[u8], room: &Room) -> Case {
    let back = |bytes: &[u8]| game_lines(&reference::read(bytes).expect("a copy that is read").1);
    copying(RESAVING, "resaved", file, &resaved(file), room, back)
}

fn copying(tag: u8, word: &str, file: &[u8], copied: &Result<Vec<u8>, u8>, room: &Room, back: impl Fn(&[u8]) -> String) -> Case {
    let (answer, room, number) = match copied {
        Err(n) => (format!("case # refused {n}\ncopy{}\n", buffer(None, 20)), 20, *n),
        Ok(bytes) => {
            let n = bytes.len();
            let room = if room.enough { n as i64 + room.bytes } else { room.bytes }.clamp(0, 262144) as usize;
            if room < n {
                (format!("case # short {n}\ncopy{}\n", buffer(None, room)), room, 23)
            } else {
                (format!("case # {word} {n}\ncopy{}\n{}", buffer(Some(bytes), room), back(bytes)), room, 0)
            }
        }
    };
    let mut input = (room as u32).to_be_bytes().to_vec();
    framed_runs(file, &mut input);
    Case { tag, input, answer, class: (tag, file.first().map_or(9, |v| (*v).min(5)), number) }
}
