//! Playing, held against the reference's `MinesweeperBoard::step` on rows at which it goes by document 02's note 6 (oracle/README.md says which).
use crate::compare::hex;
use crate::game::*;
use crate::port;
use crate::rng::Rng;
use ms_toollib::{GameBoardState, MinesweeperBoard};

pub const UNDECIDED: u8 = 64;
pub const WON: u8 = 65;
pub const LOST: u8 = 66;
const BOARD_SHORT: u8 = 11;
const WORK_SHORT: u8 = 24;
pub const PIXELS_ZERO: u8 = 27;
pub const BUTTONS_TOGETHER: u8 = 28;

/// Every lent cell of a board, and every lent entry, before a call.
pub const BOARD_BEFORE: i8 = 77;
pub const BEFORE: u16 = 9;

pub const UB: u8 = 0;
pub const MV: u8 = 1;
pub const LC: u8 = 2;
pub const LR: u8 = 3;
pub const RC: u8 = 4;
pub const RR: u8 = 5;
pub const MC: u8 = 6;
pub const MR: u8 = 7;
pub const PF: u8 = 8;
pub const CC: u8 = 9;

/// The reference's board, with what tells whether it goes by note 6 at an event.
pub struct Theirs {
    pub board: MinesweeperBoard<Vec<Vec<i32>>>,
    pub pixels: usize,
    /// Where the first lc since the last lr was: on the board or not.
    left: Option<bool>,
    /// An rc with no rr since.
    right: bool,
}

impl Theirs {
    /// All covered: a board by its mines and numbers, and the pixels of a cell, which are not 0.
    pub fn new(height: usize, width: usize, cells: &[i8], pixels: u8) -> Theirs {
        let rows = (0..height).map(|i| cells[i * width..(i + 1) * width].iter().map(|c| *c as i32).collect()).collect();
        Theirs { board: MinesweeperBoard::<Vec<Vec<i32>>>::new(rows), pixels: pixels as usize, left: None, right: false }
    }

    /// Row and column of a pixel; off the board those behind the last, as the reference has it.
    pub fn place(&self, x: u16, y: u16) -> (usize, usize) {
        let (row, column) = (y as usize / self.pixels, x as usize / self.pixels);
        if row < self.board.row && column < self.board.column {
            (row, column)
        } else {
            (self.board.row, self.board.column)
        }
    }

    fn is_over(&self) -> bool {
        matches!(self.board.game_board_state, GameBoardState::Win | GameBoardState::Loss)
    }

    /// Whether the reference goes by note 6 at an event, and the row is not refused there.
    pub fn agrees(&self, event: &Event) -> bool {
        let What::Mouse { kind, x, y } = event.what else { return true };
        let (row, column) = self.place(x, y);
        let on = row < self.board.row;
        let untouched = self.board.game_board_state != GameBoardState::Playing;
        match kind {
            CC => false,
            LC => !self.right,
            RC => self.left.is_none() && (!self.right || self.is_over()),
            LR => !on || self.left == Some(true) || self.is_over(),
            PF => on && untouched && self.board.game_board[row][column] == 10 || self.is_over(),
            MR => !on || untouched,
            UB | MV | RR | MC => true,
            _ => self.is_over(),
        }
    }

    /// The event stepped over by the reference, which is given no game state, and refuses a ub and no other.
    pub fn step(&mut self, event: &Event) {
        let What::Mouse { kind, x, y } = event.what else { return };
        let place = self.place(x, y);
        let refused = self.board.step(KINDS[kind as usize], place).is_err();
        assert!(!refused || kind == UB, "the reference refuses {}", KINDS[kind as usize]);
        match kind {
            LC => self.left = self.left.or(Some(place.0 < self.board.row)),
            LR => self.left = None,
            RC => self.right = true,
            RR => self.right = false,
            _ => {}
        }
    }

    pub fn stands(&self) -> u8 {
        match self.board.game_board_state {
            GameBoardState::Win => WON,
            GameBoardState::Loss => LOST,
            _ => UNDECIDED,
        }
    }

    /// Each cell as note 6 has it. A number must be the board's; 15 is the mine that was hit, and 14 a flag that was wrong, once a game is lost.
    pub fn cells(&self) -> Vec<u16> {
        let lost = self.stands() == LOST;
        let seen = self.board.game_board.iter().flatten().zip(self.board.board.iter().flatten());
        seen.map(|(seen, is)| match seen {
            10 => 0,
            11 => 1,
            14 if lost && *is != -1 => 1,
            15 if lost && *is == -1 => 2,
            n if n == is && *n >= 0 => 2,
            n => panic!("the reference shows {n} for {is}"),
        })
        .collect()
    }
}

/// What a call is to leave: its answer, and the cells of an accepted one.
pub struct Wanted {
    pub answer: u8,
    pub board: Vec<i8>,
    pub cells: Vec<u16>,
}

/// A call lent so many cells and entries, held to what it is to leave; where nothing is wanted of the cells it is refused.
pub fn held(file: &[u8], events: usize, lent: (usize, usize), wanted: &Wanted) {
    let (mut board, mut cells) = (vec![BOARD_BEFORE; lent.0], vec![BEFORE; lent.1]);
    let (mut board_left, mut cells_left) = (board.clone(), cells.clone());
    board_left[..wanted.board.len()].copy_from_slice(&wanted.board);
    cells_left[..wanted.cells.len()].copy_from_slice(&wanted.cells);
    let answer = port::play(file, events, &mut board, &mut cells);
    if (answer, &board, &cells) != (wanted.answer, &board_left, &cells_left) {
        println!("MISMATCH of evf_play after {events} events: the reference {}, the port {answer}\nfile {}", wanted.answer, hex(file));
        println!("board\nreference {board_left:?}\nport {board:?}\ncells\nreference {cells_left:?}\nport {cells:?}");
        std::process::exit(1);
    }
}

/// A refused call, which changes nothing.
pub fn refused(file: &[u8], events: usize, lent: (usize, usize), why: u8) {
    held(file, events, lent, &Wanted { answer: why, board: vec![], cells: vec![] });
}

/// Whether a row holds a chord, by places: cc, or an lc or rc while the last event of the other button that there is pressed it.
pub fn has_chord(kinds: &[u8]) -> bool {
    let last = |kind: u8, j: usize| kinds[..j].iter().rposition(|k| *k == kind);
    let down = |press: u8, release: u8, j: usize| last(press, j) > last(release, j);
    (0..kinds.len()).any(|j| match kinds[j] {
        CC => true,
        LC => down(RC, RR, j),
        RC => down(LC, LR, j),
        _ => false,
    })
}

pub fn kinds_of(events: &[Event]) -> Vec<u8> {
    let kind = |e: &Event| if let What::Mouse { kind, .. } = e.what { Some(kind) } else { None };
    events.iter().filter_map(kind).collect()
}

/// What was compared. Whatever is lent is made from numbers of its own.
pub struct Plays {
    r: Rng,
    /// Files of `compare`: refused as they are read, refused with 27 or 28, and played.
    pub unread: u64,
    pub refused: u64,
    pub played: u64,
    /// Of those, such that the reference goes by note 6 at every event.
    pub agreed: u64,
}

impl Plays {
    pub fn new() -> Plays {
        Plays { r: Rng::new(6), unread: 0, refused: 0, played: 0, agreed: 0 }
    }

    /// A file of `compare`, its whole row: the refusal, or the game as far as the reference goes by note 6.
    pub fn file(&mut self, file: &[u8], read: &Result<Game, u8>) {
        let some = (self.r.below(4) as usize, self.r.below(4) as usize);
        let game = match read {
            Ok(game) => game,
            Err(why) => {
                self.unread += 1;
                return refused(file, usize::MAX, some, *why);
            }
        };
        let n = game.cells.len();
        let lent = (n + some.0, n + some.1);
        short(file, n, lent, &mut self.r);
        if game.pixels == 0 || has_chord(&kinds_of(&game.events)) {
            self.refused += 1;
            return refused(file, usize::MAX, lent, if game.pixels == 0 { PIXELS_ZERO } else { BUTTONS_TOGETHER });
        }
        let mut theirs = Theirs::new(game.height as usize, game.width as usize, &game.cells, game.pixels);
        let agreed = game.events.iter().take_while(|event| agreed_step(&mut theirs, event)).count();
        held(file, agreed, lent, &Wanted { answer: theirs.stands(), board: game.cells.clone(), cells: theirs.cells() });
        self.played += 1;
        self.agreed += (agreed == game.events.len()) as u64;
    }
}

/// Steps over an event where the reference goes by note 6, and tells whether it does.
pub fn agreed_step(theirs: &mut Theirs, event: &Event) -> bool {
    let agrees = theirs.agrees(event);
    if agrees {
        theirs.step(event);
    }
    agrees
}

/// Too few cells of a board of n are refused with 11, too few entries with 24, whatever the row holds.
pub fn short(file: &[u8], n: usize, lent: (usize, usize), r: &mut Rng) {
    if n > 0 {
        let (cells, entries) = (r.below(n as u64) as usize, r.below(n as u64) as usize);
        refused(file, usize::MAX, (cells, lent.1), BOARD_SHORT);
        refused(file, usize::MAX, (cells, entries), BOARD_SHORT);
        refused(file, usize::MAX, (lent.0, entries), WORK_SHORT);
    }
}
