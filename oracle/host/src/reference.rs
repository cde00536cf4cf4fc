//! The Rust of the reference, asked about one file or one game, and its answer in document 01's numbers.
use crate::game::*;
use crate::skim;
use ms_toollib::videos::evf_video::EvfVideo;
use ms_toollib::videos::types::{ErrReadVideoReason, Event as TheirEvent, MouseEvent, VideoActionStateRecorder};
use ms_toollib::videos::{BaseVideo, NewSomeVideo2};
use ms_toollib::{GameBoardState, GameStateEvent};
use std::cell::Cell;
use std::panic::{catch_unwind, AssertUnwindSafe};

pub type Video = BaseVideo<Vec<Vec<i32>>>;

thread_local! {
    static PANIC: Cell<(bool, u32)> = const { Cell::new((false, 0)) };
}

/// Keeps where a panic of the reference came from, instead of printing it; any other panic is printed.
pub fn watch_panics() {
    let usual = std::panic::take_hook();
    std::panic::set_hook(Box::new(move |info| {
        let place = info.location().unwrap();
        let theirs = place.file().contains("ms_toollib") || place.file().contains("/library/") || place.file().starts_with("src/videos") || place.file() == "src/utils.rs";
        if !theirs {
            usual(info);
        }
        PANIC.set((place.file().ends_with("evf_video.rs"), place.line()));
    }));
}

/// Runs the reference; None where it panics.
pub fn guarded<T>(run: impl FnOnce() -> T) -> Option<T> {
    catch_unwind(AssertUnwindSafe(run)).ok()
}

/// The lines of evf_video.rs that panic: the first code of version 4, then its later codes.
fn panic_lines() -> Vec<u32> {
    let source = include_str!("../../ms_toollib/src/videos/evf_video.rs");
    source.lines().zip(1..).filter(|(line, _)| line.contains("panic!()")).map(|(_, n)| n).collect()
}

/// The number for a panic of the reader.
fn number_of_panic(file: &[u8]) -> u8 {
    if file.is_empty() {
        return 1;
    }
    let (in_reader, line) = PANIC.get();
    let lines = panic_lines();
    match (in_reader, lines.iter().position(|n| *n == line)) {
        (true, Some(0)) => 8,
        (true, Some(_)) => 9,
        (true, None) => panic!("the reader panicked at line {line}, where none is known"),
        (false, _) => 7,
    }
}

fn number_of_error(why: ErrReadVideoReason) -> u8 {
    match why {
        ErrReadVideoReason::FileIsTooShort => 1,
        ErrReadVideoReason::VersionBackward => 2,
        ErrReadVideoReason::Utf8Error => 3,
        ErrReadVideoReason::InvalidParams => 5,
        other => panic!("an error that reading EVF does not give: {other:?}"),
    }
}

/// What the reference makes of the bytes, by itself.
pub fn plain_parse(file: &[u8]) -> Result<EvfVideo, u8> {
    let parsed = guarded(|| {
        let mut video = EvfVideo::new(file.to_vec(), "");
        let result = video.parse();
        (video, result)
    });
    match parsed {
        None => Err(number_of_panic(file)),
        Some((_, Err(why))) => Err(number_of_error(why)),
        Some((video, Ok(()))) => Ok(video),
    }
}

/// How many events the reference reads from the bytes, if it takes them; it may panic.
pub fn just_parse(file: &[u8]) -> Option<usize> {
    let mut video = EvfVideo::new(file.to_vec(), "");
    video.parse().ok().map(|_| video.data.video_action_state_recorder.len())
}

/// What the script of today does: reads by the reference and writes version 4 by it.
pub fn script(file: &[u8]) -> Vec<u8> {
    let mut video = EvfVideo::new(file.to_vec(), "");
    video.parse().expect("a file that is read");
    let nf = video.data.nf;
    generate(&mut video.data, 4, nf);
    video.data.raw_data
}

/// 4 and 6, which the reference does not have, where the texts up to the end text are there and UTF-8.
fn judged_times(file: &[u8]) -> Option<u8> {
    let seen = skim::old_texts(file)?;
    if seen.texts.len() < 6 {
        return None;
    }
    let text = |i: usize| std::str::from_utf8(seen.texts[i]).ok();
    let (software, start, _end) = (text(0)?, text(4)?, text(5)?);
    if software.starts_with("Arbiter") {
        return Some(4);
    }
    if software.starts_with("Viennasweeper") {
        let start = start.parse::<u64>().ok()? as u128 * 1_000_000;
        if start + seen.time as u128 * 1000 > u64::MAX as u128 {
            return Some(6);
        }
    }
    None
}

/// Whether the reference is asked at all: not where Arbiter dates could keep it busy.
fn judged_first(file: &[u8]) -> Option<u8> {
    judged_times(file).or_else(|| skim::passes_u32(file).then_some(10))
}

/// The video and the game of a file, or document 01's number: the reference's own answer, but for 4, 6 and 10, which it does not have. A file with pauses past u32 that is wrong before its
/// records is still the reference's.
pub fn read(file: &[u8]) -> Result<(EvfVideo, Game), u8> {
    match judged_first(file) {
        Some(10) => match plain_parse(&file[..file.len()]) {
            Err(n) if n == 3 || n == 7 => Err(n),
            _ => Err(10),
        },
        Some(n) => Err(n),
        None => plain_parse(file).map(|video| {
            let game = game_of(&video, file);
            (video, game)
        }),
    }
}

fn event_of(record: &VideoActionStateRecorder) -> Event {
    let what = match record.event.as_ref().unwrap() {
        TheirEvent::Mouse(m) => What::Mouse { kind: kind_code(&m.mouse), x: m.x, y: m.y },
        TheirEvent::GameState(s) => What::State([81, 82, 83, 99].into_iter().find(|c| state_name(*c) == s.game_state).unwrap()),
        _ => panic!("an event that reading EVF does not give"),
    };
    Event { seconds: record.time, what }
}

/// A text of the reference, or the raw bytes of the file where they are not UTF-8 and were decoded by another code.
fn text_of(theirs: &str, raw: Option<&[u8]>) -> Vec<u8> {
    match raw {
        Some(raw) if std::str::from_utf8(raw).is_err() => raw.to_vec(),
        _ => theirs.as_bytes().to_vec(),
    }
}

fn texts_of(v: &Video, file: &[u8]) -> [Vec<u8>; 9] {
    let raw = skim::old_texts(file);
    let raw = |i: usize| raw.as_ref().map(|t| t.texts[i]);
    [
        v.software.as_bytes().to_vec(),
        v.translate_software.as_bytes().to_vec(),
        v.original_encoding.as_bytes().to_vec(),
        text_of(&v.player_identifier, raw(1)),
        text_of(&v.race_identifier, raw(2)),
        text_of(&v.unique_identifier, raw(3)),
        text_of(&v.country, raw(6)),
        v.device_uuid.clone(),
        v.checksum.clone(),
    ]
}

fn game_of(video: &EvfVideo, file: &[u8]) -> Game {
    let v = &video.data;
    Game {
        version: video.version,
        flags: [v.is_completed, v.is_official, v.is_fair, v.nf, v.translated, v.use_question, v.use_cursor_pos_lim, v.use_auto_replay],
        height: v.height as u64,
        width: v.width as u64,
        mines: v.mine_num as u64,
        pixels: v.cell_pixel_size,
        mode: v.mode,
        bbbv: v.static_params.bbbv as u64,
        time: v.game_dynamic_params.rtime_ms,
        start: v.start_time,
        end: v.end_time,
        level: v.level,
        texts: texts_of(v, file),
        metrics: if video.version == 4 { skim::metrics(file).expect("custom metrics of a file that is read") } else { Metrics::default() },
        cells: v.board.iter().flatten().map(|c| *c as i8).collect(),
        events: v.video_action_state_recorder.iter().map(event_of).collect(),
    }
}

/// A record of a row for the writers; what nf is told from stands in it.
fn record_of(event: &Event, nf: bool) -> VideoActionStateRecorder {
    let theirs = match event.what {
        What::Mouse { kind, x, y } => TheirEvent::Mouse(MouseEvent { mouse: KINDS[kind as usize].to_string(), x, y }),
        What::State(code) => TheirEvent::GameState(GameStateEvent { game_state: state_name(code).to_string() }),
    };
    let mut record = VideoActionStateRecorder { time: event.seconds, event: Some(theirs), ..VideoActionStateRecorder::default() };
    record.key_dynamic_params.rce = !nf as usize;
    record
}

/// A row of the board; what the cells lack is left out.
fn row_of(cells: &[i8], from: usize, width: usize) -> Vec<i32> {
    cells.iter().skip(from).take(width).map(|c| *c as i32).collect()
}

/// The game for the writers. Every text that they write as a string is UTF-8 here.
pub fn video_of(game: &Game) -> Video {
    let text = |i: usize| String::from_utf8_lossy(&game.texts[i]).into_owned();
    let (height, width) = (game.height as usize, game.width as usize);
    let mut v = Video::default();
    v.height = height;
    v.width = width;
    v.mine_num = game.mines as usize;
    [v.is_completed, v.is_official, v.is_fair, v.nf, v.translated, v.use_question, v.use_cursor_pos_lim, v.use_auto_replay] = game.flags;
    v.cell_pixel_size = game.pixels;
    v.mode = game.mode;
    v.static_params.bbbv = game.bbbv as usize;
    v.game_dynamic_params.rtime_ms = game.time;
    v.start_time = game.start;
    v.end_time = game.end;
    v.software = text(SOFTWARE);
    v.translate_software = text(TRANSLATED_SOFTWARE);
    v.original_encoding = text(ORIGINAL_ENCODING);
    v.player_identifier = text(PLAYER);
    v.race_identifier = text(RACE);
    v.unique_identifier = text(UNIQUE_ID);
    v.country = text(COUNTRY);
    v.device_uuid = game.texts[DEVICE_ID].clone();
    v.checksum = game.texts[CHECKSUM].clone();
    v.board = (0..height).map(|i| row_of(&game.cells, i * width, width)).collect();
    v.video_action_state_recorder = game.events.iter().map(|e| record_of(e, game.flags[NF])).collect();
    v
}

/// The nf flag is steered: by the right clicks of a board that is ready in version 3, by the first record's right click efficiency in version 4.
pub fn generate(v: &mut Video, version: u8, nf: bool) {
    if version == 3 {
        v.game_board_state = GameBoardState::Ready;
        v.minesweeper_board.right = !nf as usize;
        v.generate_evf_v3_raw_data();
    } else {
        v.game_board_state = GameBoardState::Display;
        v.current_event_id = 0;
        if let Some(first) = v.video_action_state_recorder.first_mut() {
            first.key_dynamic_params.rce = !nf as usize;
        }
        v.generate_evf_v4_raw_data();
    }
}

/// The bytes that the reference writes, None where it panics.
pub fn write(game: &Game, version: u8) -> Option<Vec<u8>> {
    guarded(|| {
        let mut v = video_of(game);
        generate(&mut v, version, game.flags[NF]);
        v.raw_data
    })
}

/// Row 36 of docs/DIFFERENCES.md: version 3 has the codes 10, 11 and 12 for l, r and m, where the reference writes 99. Nothing else is changed. A record has 8 bytes, its code first; the
/// last one ends before the end code, which the checksum follows.
fn put_codes(game: &Game, bytes: &mut [u8]) {
    let mouse = |e: &Event| if let What::Mouse { kind, .. } = e.what { Some(kind) } else { None };
    let kinds: Vec<u8> = game.events.iter().filter_map(mouse).collect();
    let records = bytes.len() - game.texts[CHECKSUM].len() - 1 - 8 * kinds.len();
    for (kind, record) in kinds.iter().zip(bytes[records..].chunks_mut(8)) {
        if let 10..=12 = kind {
            assert_eq!(record[0], 99, "the reference writes an l, r or m by another code");
            record[0] = *kind;
        }
    }
}

/// Note 3 of document 02: the custom metrics, where the reference writes a count of 0. Nothing else is changed, and nothing at all where there are none.
pub fn put_metrics(metrics: &Metrics, bytes: &mut Vec<u8>) {
    if metrics.count == 0 {
        return;
    }
    let at = skim::count_at(bytes).expect("a file of version 4");
    assert_eq!(bytes[at..at + 2], [0, 0], "the reference writes custom metrics");
    bytes.splice(at..at + 2, [&metrics.count.to_be_bytes()[..], &metrics.block].concat());
}

/// The same for a game that document 01 lets be written, as we write it: l, r and m by their codes in version 3; a country of two bytes and one character panics the version 4 writer, and
/// goes out as one that is no country; version 4 with its custom metrics.
pub fn write_accepted(game: &Game, version: u8) -> Vec<u8> {
    let mut bytes = write(game, version).unwrap_or_else(|| write_without_country(game, version));
    if version == 3 {
        put_codes(game, &mut bytes);
    } else {
        put_metrics(&game.metrics, &mut bytes);
    }
    bytes
}

fn write_without_country(game: &Game, version: u8) -> Vec<u8> {
    let mut other = game.clone();
    assert!(version == 4 && String::from_utf8_lossy(&game.texts[COUNTRY]).chars().count() < 2, "the reference panics at a game that is to be written");
    other.texts[COUNTRY].clear();
    write(&other, version).expect("the reference panics at a game that is to be written")
}
