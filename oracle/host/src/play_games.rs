//! Games to be played, made from a seed on rows at which the reference goes by document 02's note 6, and compared after every event.
use crate::compare::hex;
use crate::files::put;
use crate::game::*;
use crate::plays::*;
use crate::rng::Rng;
use crate::{port, reference};
use ms_toollib::utils::cal_board_numbers;

/// A game that is made: its board by its mines, and its row.
pub struct Made {
    pub height: usize,
    pub width: usize,
    pub pixels: u8,
    pub mines: Vec<bool>,
    pub events: Vec<Event>,
}

fn packed(mines: &[bool]) -> Vec<u8> {
    mines.chunks(8).map(|cells| cells.iter().zip(0..).fold(0, |byte, (mine, i)| byte | (*mine as u8) << (7 - i))).collect()
}

/// An event of version 0 to 3; a ub has a code without a meaning.
fn old_record(out: &mut Vec<u8>, event: &Event) {
    if let What::Mouse { kind, x, y } = event.what {
        out.push(if kind == UB { 99 } else { kind });
        put(out, 0, 3);
        put(out, x as u64, 2);
        put(out, y as u64, 2);
    }
}

/// An event of version 4, moved on from a place.
fn new_record(out: &mut Vec<u8>, event: &Event, from: (u16, u16)) -> (u16, u16) {
    match event.what {
        What::Mouse { kind, x, y } => {
            out.extend([kind, 0]);
            put(out, x.wrapping_sub(from.0) as u64, 2);
            put(out, y.wrapping_sub(from.1) as u64, 2);
            (x, y)
        }
        What::State(code) => {
            out.extend([code, 0]);
            from
        }
    }
}

impl Made {
    pub fn file(&self, version: u8) -> Vec<u8> {
        if version == 4 {
            self.new_file()
        } else {
            self.old_file(version)
        }
    }

    /// The game as a file of version 0 to 3, where it has no game states.
    fn old_file(&self, version: u8) -> Vec<u8> {
        let mut out = vec![version, 0];
        out.extend(&[0][..(version == 3) as usize]);
        out.extend([self.height as u8, self.width as u8, 0, 0, self.pixels, 0, 0, 0, 0, 0, 0, 0]);
        out.extend(b"M\0P\0\0\x001\x002\0cn\0");
        out.extend(&[0][..(version >= 2) as usize]);
        out.extend(packed(&self.mines));
        self.events.iter().for_each(|event| old_record(&mut out, event));
        out.push(255);
        out
    }

    /// The game as a file of version 4, where it has no ub and begins by mv, lc, rc or pf.
    fn new_file(&self) -> Vec<u8> {
        let mut out = vec![4, 0, 0, self.height as u8, self.width as u8, 0, 0, self.pixels];
        out.resize(16, 0);
        out.extend(b"XX");
        out.resize(out.len() + 16 + 4 + 2, 0);
        out.extend(packed(&self.mines));
        out.extend([0, 0]);
        let mut from = (0, 0);
        self.events.iter().for_each(|event| from = new_record(&mut out, event, from));
        out.extend([0, 0, 0]);
        out
    }
}

/// Height and width: mostly small, some of a player's boards, now and then the largest, and none at all in a row.
fn sides(r: &mut Rng) -> (usize, usize) {
    let side = |r: &mut Rng, most: u64| 1 + r.below(most) as usize;
    match r.below(2000) {
        0 => (255, 255),
        1..=20 => *r.pick(&[(8, 8), (16, 16), (16, 30)]),
        21..=40 => (side(r, 9), 0),
        41..=900 => (side(r, 3), side(r, 3)),
        _ => (side(r, 9), side(r, 9)),
    }
}

fn mines(r: &mut Rng, n: usize) -> Vec<bool> {
    let percent = *r.pick(&[0, 5, 10, 15, 20, 35, 60, 100]);
    (0..n).map(|_| r.below(100) < percent).collect()
}

/// The cells of a board by their mines, with the reference's numbers.
pub fn numbered(height: usize, width: usize, mines: &[bool]) -> Vec<i8> {
    let mut rows: Vec<Vec<i32>> = (0..height).map(|i| mines[i * width..(i + 1) * width].iter().map(|m| -(*m as i32)).collect()).collect();
    cal_board_numbers(&mut rows);
    rows.into_iter().flatten().map(|cell| cell as i8).collect()
}

/// A player who makes a row, knowing what the reference's board shows.
struct Player<'a> {
    r: &'a mut Rng,
    theirs: Theirs,
    version: u8,
    /// One left click in so many goes anywhere, the others where a covered cell is without a mine.
    careless: u64,
    events: Vec<Event>,
}

impl Player<'_> {
    /// An event where the reference goes by note 6; else nothing.
    fn does(&mut self, what: What) {
        let event = Event { seconds: 0.0, what };
        if agreed_step(&mut self.theirs, &event) {
            self.events.push(event);
        }
    }

    fn mouse(&mut self, kind: u8, (x, y): (u16, u16)) {
        self.does(What::Mouse { kind, x, y });
    }

    /// A pixel of a cell, its edges among them.
    fn pixel(&mut self, (row, column): (usize, usize)) -> (u16, u16) {
        let pixels = self.theirs.pixels as u64;
        let mut within = |side: usize| (side as u64 * pixels + *self.r.pick(&[0, pixels / 2, pixels - 1])).min(65535) as u16;
        (within(column), within(row))
    }

    /// Any place: on the board, just behind its edges, or anywhere.
    fn anywhere(&mut self) -> (u16, u16) {
        if self.r.once_in(20) {
            return (self.r.next() as u16, self.r.next() as u16);
        }
        let behind = self.r.once_in(10) as u64;
        let (height, width) = (self.theirs.board.row as u64, self.theirs.board.column as u64);
        let cell = (self.r.below(height + behind) as usize, self.r.below(width + behind) as usize);
        self.pixel(cell)
    }

    /// A covered cell, with a mine or without; any place where none is found soon.
    fn covered(&mut self, mine: bool) -> (u16, u16) {
        let board = &self.theirs.board;
        for _ in 0..if board.column == 0 { 0 } else { 20 } {
            let (i, j) = (self.r.below(board.row as u64) as usize, self.r.below(board.column as u64) as usize);
            if board.game_board[i][j] == 10 && (board.board[i][j] == -1) == mine {
                return self.pixel((i, j));
            }
        }
        self.anywhere()
    }

    /// Any event at all.
    fn anything(&mut self) {
        let place = self.anywhere();
        match self.r.below(16) {
            0..=2 if self.version == 4 => {
                let state = *self.r.pick(&[81, 82, 83, 99]);
                self.does(What::State(state));
            }
            0 => self.mouse(UB, place),
            1..=12 => {
                let kind = 1 + self.r.below(12) as u8;
                self.mouse(kind, place);
            }
            _ => self.mouse(MV, place),
        }
    }

    /// A button pressed and let go, at times elsewhere, at times with something in between.
    fn clicks(&mut self, press: u8, release: u8, place: (u16, u16)) {
        self.mouse(press, place);
        if self.r.once_in(4) {
            self.anything();
        }
        let end = if self.r.once_in(12) { self.anywhere() } else { place };
        self.mouse(release, end);
    }

    fn turn(&mut self) {
        match self.r.below(12) {
            0 => self.anything(),
            1 => {
                let place = self.anywhere();
                self.mouse(PF, place);
            }
            2 | 3 => {
                let mine = self.r.once_in(2);
                let place = self.covered(mine);
                self.clicks(RC, RR, place);
            }
            4 => {
                let place = self.anywhere();
                self.clicks(RC, RR, place);
            }
            _ => {
                let place = if self.r.once_in(self.careless) { self.anywhere() } else { self.covered(false) };
                self.clicks(LC, LR, place);
            }
        }
    }
}

/// A game of a version, as far as the reference goes by note 6.
pub fn made(r: &mut Rng, version: u8) -> Made {
    let (height, width) = sides(r);
    let pixels = *r.pick(&[1, 2, 7, 16, 16, 16, 24, 255]);
    let mines = mines(r, height * width);
    let theirs = Theirs::new(height, width, &numbered(height, width, &mines), pixels);
    let (careless, turns) = (*r.pick(&[2, 6, 60]), r.below(40));
    let mut player = Player { r, theirs, version, careless, events: vec![] };
    player.mouse(MV, (0, 0));
    (0..turns).for_each(|_| player.turn());
    let events = player.events;
    Made { height, width, pixels, mines, events }
}

/// Counts of `oracle plays`.
#[derive(Default)]
struct Counts {
    prefixes: u64,
    undecided: u64,
    won: u64,
    lost: u64,
    refused: u64,
    chords: u64,
}

impl Counts {
    /// A game after each of its events, as the reference reads them from its file; then more events than there are, and what is refused.
    fn game(&mut self, made: &Made, version: u8, r: &mut Rng) {
        let file = made.file(version);
        let (_, game) = reference::read(&file).expect("a file that is read");
        assert_eq!(game.events.len(), made.events.len(), "a file with other events");
        let mut theirs = Theirs::new(made.height, made.width, &game.cells, game.pixels);
        let n = game.cells.len();
        let lent = (n + r.below(4) as usize, n + r.below(4) as usize);
        let wanted = |theirs: &Theirs| Wanted { answer: theirs.stands(), board: game.cells.clone(), cells: theirs.cells() };
        held(&file, 0, lent, &wanted(&theirs));
        for (event, after) in game.events.iter().zip(1..) {
            assert!(agreed_step(&mut theirs, event), "a row that is not compared");
            held(&file, after, lent, &wanted(&theirs));
        }
        held(&file, game.events.len() + 1 + r.below(3) as usize, lent, &wanted(&theirs));
        self.prefixes += game.events.len() as u64 + 2;
        match theirs.stands() {
            WON => self.won += 1,
            LOST => self.lost += 1,
            _ => self.undecided += 1,
        }
        short(&file, n, lent, r);
        self.refusals(made, version, lent, r);
    }

    /// Pixels of 0; and an event more at any place, by which the row may hold a chord from there on.
    fn refusals(&mut self, made: &Made, version: u8, lent: (usize, usize), r: &mut Rng) {
        let mut events = made.events.clone();
        let kind = *r.pick(&[CC, LC, RC]);
        events.insert(1 + r.below(events.len() as u64) as usize, Event { seconds: 0.0, what: What::Mouse { kind, x: 0, y: 0 } });
        let (file, kinds) = (Made { events: events.clone(), mines: made.mines.clone(), ..*made }.file(version), kinds_of_prefixes(&events));
        for (n, kinds) in kinds.iter().enumerate() {
            if has_chord(kinds) {
                refused(&file, n, lent, BUTTONS_TOGETHER);
                self.chords += 1;
            } else {
                assert!(port::play(&file, n, &mut vec![0; lent.0], &mut vec![0; lent.1]) >= UNDECIDED, "a row without a chord is refused: {}", hex(&file));
            }
        }
        refused(&Made { events, mines: made.mines.clone(), pixels: 0, ..*made }.file(version), r.below(99) as usize, lent, PIXELS_ZERO);
        self.refused += 1;
    }
}

/// The kinds of the first n events, for every n.
fn kinds_of_prefixes(events: &[Event]) -> Vec<Vec<u8>> {
    (0..=events.len()).map(|n| kinds_of(&events[..n])).collect()
}

/// So many games from a seed.
pub fn play(seed: u64, games: u64) {
    let mut r = Rng::new(seed);
    let mut counts = Counts::default();
    for _ in 0..games {
        let version = r.below(5) as u8;
        counts.game(&made(&mut r, version), version, &mut r);
    }
    println!(
        "{games} games, {} won, {} lost and {} undecided, compared after each event and before the first: {} boards",
        counts.won, counts.lost, counts.undecided, counts.prefixes
    );
    println!("{} rows with a chord refused with 28, {} games with pixels of 0 refused with 27; no mismatch", counts.chords, counts.refused);
}
