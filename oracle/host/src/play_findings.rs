//! Where the reference's board does not go by document 02's note 6: each by its smallest row, with what is seen after it there and here.
use crate::game::*;
use crate::play_games::{numbered, Made};
use crate::plays::*;
use crate::{port, reference};
use ms_toollib::{GameBoardState, MinesweeperBoard};

/// How the reference is asked.
#[derive(Clone, Copy, PartialEq)]
enum Asked {
    /// A place off the board is the one behind its last row and column, which it wants.
    Plainly,
    /// A place off the board is handed over as it is, as by its own analysis.
    AnyPlace,
    /// With question marks switched on.
    Questions,
}

/// A board of one row, * a mine; events of its row: the code of a kind or a game state, and a column, the row being 0 for each column on the board.
struct Finding {
    what: &'static str,
    board: &'static str,
    row: &'static [(u8, u16)],
    asked: Asked,
    theirs: &'static str,
    ours: &'static str,
}

const L: u8 = 10;
const R: u8 = 11;
const FAIL: u8 = 83;

const fn plain(what: &'static str, board: &'static str, row: &'static [(u8, u16)], theirs: &'static str, ours: &'static str) -> Finding {
    Finding { what, board, row, asked: Asked::Plainly, theirs, ours }
}

/// What is seen: # a covered cell, F a flagged one, ? a question mark, o one that is uncovered.
const FINDINGS: [Finding; 18] = [
    plain("lr without an lc", ".", &[(LR, 0)], "undecided #", "won o"),
    plain("lc off the board, lr on it", ".", &[(LC, 1), (LR, 0)], "undecided #", "won o"),
    plain("lc off the board, then on it", ".", &[(LC, 1), (LC, 0), (LR, 0)], "undecided #", "won o"),
    plain("a second lr", ".*.", &[(LC, 0), (LR, 0), (LR, 2)], "undecided o##", "won o#o"),
    plain("a second rc", ".", &[(RC, 0), (RC, 0)], "refuses F", "undecided #"),
    plain("rc off the board, then on it", ".", &[(RC, 1), (RC, 0)], "undecided #", "undecided F"),
    plain("pf on a flag", ".", &[(PF, 0), (PF, 0)], "panics", "undecided #"),
    plain("pf off the board", ".", &[(PF, 1)], "panics", "undecided #"),
    plain("pf once a cell is uncovered", ".*.", &[(LC, 0), (LR, 0), (PF, 1)], "refuses o##", "undecided oF#"),
    plain("mr on a number", "*..", &[(RC, 0), (RR, 0), (LC, 1), (LR, 1), (MR, 1)], "won Foo", "undecided Fo#"),
    plain("l twice", ".", &[(L, 0), (L, 0)], "won o", "undecided #"),
    plain("r", ".", &[(R, 0)], "undecided F", "undecided #"),
    plain("ub", ".", &[(UB, 0)], "refuses #", "undecided #"),
    plain("the game state fail", ".", &[(MV, 0), (FAIL, 0)], "lost #", "undecided #"),
    plain("cc", ".", &[(CC, 0)], "undecided #", "28"),
    plain("lc, then rc", ".", &[(LC, 0), (RC, 0)], "undecided #", "28"),
    Finding { what: "a place off the board as it is", board: ".", row: &[(LC, 2)], asked: Asked::AnyPlace, theirs: "panics", ours: "undecided #" },
    Finding { what: "rc on a flag with question marks", board: ".", row: &[(RC, 0), (RR, 0), (RC, 0)], asked: Asked::Questions, theirs: "undecided ?", ours: "undecided #" },
];

/// The events, in cells of one pixel.
fn event(width: usize, (code, x): (u8, u16)) -> Event {
    let y = (x as usize >= width) as u16;
    Event { seconds: 0.0, what: if code > 12 { What::State(code) } else { What::Mouse { kind: code, x, y } } }
}

fn told(stands: &str, cells: impl Iterator<Item = char>) -> String {
    format!("{stands} {}", cells.collect::<String>())
}

impl Finding {
    fn made(&self) -> Made {
        let mines: Vec<bool> = self.board.bytes().map(|b| b == b'*').collect();
        let events = self.row.iter().map(|e| event(mines.len(), *e)).collect();
        Made { height: 1, width: mines.len(), pixels: 1, mines, events }
    }

    fn theirs(&self) -> String {
        let made = self.made();
        let theirs = Theirs::new(1, made.width, &numbered(1, made.width, &made.mines), 1);
        let mut board = theirs.board.clone();
        board.use_question = self.asked == Asked::Questions;
        let mut taken = true;
        let panicked = reference::guarded(|| taken = made.events.iter().all(|e| self.step(&mut board, &theirs, e).is_ok())).is_none();
        if panicked {
            return "panics".to_string();
        }
        let stands = match board.game_board_state {
            _ if !taken => "refuses",
            GameBoardState::Win => "won",
            GameBoardState::Loss => "lost",
            _ => "undecided",
        };
        told(
            stands,
            board.game_board[0].iter().map(|seen| match seen {
                10 => '#',
                11 => 'F',
                17 => '?',
                _ => 'o',
            }),
        )
    }

    fn step(&self, board: &mut MinesweeperBoard<Vec<Vec<i32>>>, theirs: &Theirs, event: &Event) -> Result<u8, ()> {
        match event.what {
            What::Mouse { kind, x, y } if self.asked == Asked::AnyPlace => board.step(KINDS[kind as usize], (y as usize, x as usize)),
            What::Mouse { kind, x, y } => board.step(KINDS[kind as usize], theirs.place(x, y)),
            What::State(code) => board.step_game_state(state_name(code)),
        }
    }

    fn ours(&self) -> String {
        let made = self.made();
        let has_state = made.events.iter().any(|e| matches!(e.what, What::State(_)));
        let (mut board, mut cells) = (vec![0; made.width], vec![0; made.width]);
        let seen = |cells: &[u16]| cells.iter().map(|entry| ['#', 'F', 'o'][*entry as usize]).collect::<Vec<char>>().into_iter();
        match port::play(&made.file(if has_state { 4 } else { 3 }), usize::MAX, &mut board, &mut cells) {
            64 => told("undecided", seen(&cells)),
            65 => told("won", seen(&cells)),
            66 => told("lost", seen(&cells)),
            number => number.to_string(),
        }
    }
}

/// Each as listed, else it stops; how many they are.
pub fn show() -> usize {
    for finding in &FINDINGS {
        let (theirs, ours) = (finding.theirs(), finding.ours());
        assert_eq!((&theirs[..], &ours[..]), (finding.theirs, finding.ours), "{}", finding.what);
        println!("the reference: {theirs}\there: {ours}\t{}", finding.what);
    }
    FINDINGS.len()
}
