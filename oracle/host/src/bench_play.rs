//! Times of playing by the port, which reads the file too, and of the reference's board stepping, on the same games, in one run.
use crate::bench::medians;
use crate::game::{Event, What, KINDS};
use crate::play_games::{numbered, Made};
use crate::plays::{Theirs, UNDECIDED, WON};
use crate::port;
use crate::rng::Rng;
use ms_toollib::videos::evf_video::EvfVideo;
use ms_toollib::videos::types::Event as TheirEvent;
use ms_toollib::videos::NewSomeVideo2;
use ms_toollib::{GameBoardState, MinesweeperBoard};
use std::hint::black_box;

const HEIGHT: usize = 16;
const WIDTH: usize = 30;
const MINES: usize = 99;
const PIXELS: u8 = 16;

/// One board again and again would mislead: the processor learns its branches by heart.
pub const GAMES: u64 = 16;

type Rows = Vec<Vec<i32>>;
type Step = (&'static str, (usize, usize));

/// A game as a file of version 3 and of version 4, and as the reference's board and its steps.
pub struct Game {
    pub old: Vec<u8>,
    pub new: Vec<u8>,
    rows: Rows,
    steps: Vec<Step>,
}

/// A click: the codes of a press and a release, and a cell.
type Click = (u8, u8, (usize, usize));

fn left((row, column): (usize, usize)) -> Click {
    (2, 3, (row, column))
}

fn right((row, column): (usize, usize)) -> Click {
    (4, 5, (row, column))
}

/// The reference's board with its cells so, of which one is told by some numbers.
fn a_cell(theirs: &Theirs, r: &mut Rng, is: impl Fn(i32, i32) -> bool) -> Option<(usize, usize)> {
    let board = &theirs.board;
    let all = (0..board.row).flat_map(|i| (0..board.column).map(move |j| (i, j)));
    let cells: Vec<(usize, usize)> = all.filter(|(i, j)| is(board.game_board[*i][*j], board.board[*i][*j])).collect();
    (!cells.is_empty()).then(|| *r.pick(&cells))
}

fn event(kind: u8, x: u16, y: u16) -> Event {
    Event { seconds: 0.0, what: What::Mouse { kind, x, y } }
}

fn step(theirs: &mut Theirs, (press, release, (row, column)): Click) {
    for kind in [press, release] {
        theirs.step(&event(kind, (column * PIXELS as usize) as u16, (row * PIXELS as usize) as u16));
    }
}

/// Where right clicks go.
#[derive(Clone, Copy, PartialEq)]
pub enum Rights {
    /// On mines, which they flag: no badge is earned.
    Mines,
    /// On cells that are uncovered: the badge is earned under the newer rule, and each of them is looked at.
    Uncovered,
}

impl Rights {
    fn on(self, seen: i32, is: i32) -> bool {
        match self {
            Rights::Mines => seen == 10 && is == -1,
            Rights::Uncovered => seen < 10,
        }
    }
}

/// The clicks that open a board, a zero first, a right click for every fourth of them: all of it, or all but one cell.
fn opening(theirs: &mut Theirs, whole: bool, rights: Rights, r: &mut Rng) -> Vec<Click> {
    let mut clicks = vec![];
    let mut next = a_cell(theirs, r, |_, is| is == 0);
    while let Some(cell) = next {
        clicks.push(left(cell));
        step(theirs, left(cell));
        if let (true, Some(cell)) = (clicks.len() % 5 == 4, a_cell(theirs, r, |seen, is| rights.on(seen, is))) {
            clicks.push(right(cell));
            step(theirs, right(cell));
        }
        let left = theirs.board.game_board.iter().flatten().zip(theirs.board.board.iter().flatten());
        let left = left.filter(|(seen, is)| **seen == 10 && **is != -1).count();
        next = if left == 1 && !whole { None } else { a_cell(theirs, r, |seen, is| seen == 10 && is != -1) };
    }
    clicks
}

/// The events of some clicks, moves of the mouse between them from one to the next, so many in all.
fn row(clicks: &[Click], events: usize) -> Vec<Event> {
    let (mut out, mut at) = (vec![], (0i32, 0i32));
    for (i, (press, release, (row, column))) in clicks.iter().enumerate() {
        let to = (*column as i32 * PIXELS as i32 + 7, *row as i32 * PIXELS as i32 + 9);
        let moves = (events - 2 * clicks.len()) * (i + 1) / clicks.len() - (events - 2 * clicks.len()) * i / clicks.len();
        for m in 1..=moves as i32 {
            let between = |from: i32, to: i32| (from + (to - from) * m / (moves as i32 + 1)) as u16;
            out.push(event(1, between(at.0, to.0), between(at.1, to.1)));
        }
        out.extend([press, release].map(|kind| event(*kind, to.0 as u16, to.1 as u16)));
        at = to;
    }
    out
}

impl Game {
    fn new(height: usize, width: usize, mines: Vec<bool>, events: Vec<Event>) -> Game {
        let cells = numbered(height, width, &mines);
        let theirs = Theirs::new(height, width, &cells, PIXELS);
        let step = |e: &Event| if let What::Mouse { kind, x, y } = e.what { (KINDS[kind as usize], theirs.place(x, y)) } else { unreachable!() };
        let steps = events.iter().map(step).collect();
        let made = Made { height, width, pixels: PIXELS, mines, events };
        Game { old: made.file(3), new: made.file(4), rows: theirs.board.board.clone(), steps }
    }

    /// An expert game. One that ends is won by its last click; another is left one cell before its end, and goes on with clicks that change nothing but flags.
    pub fn expert(seed: u64, events: usize, ends: bool, rights: Rights) -> Game {
        let mut r = Rng::new(seed);
        let mut mines = vec![false; HEIGHT * WIDTH];
        while mines.iter().filter(|mine| **mine).count() < MINES {
            mines[r.below((HEIGHT * WIDTH) as u64) as usize] = true;
        }
        let mut theirs = Theirs::new(HEIGHT, WIDTH, &numbered(HEIGHT, WIDTH, &mines), PIXELS);
        let mut clicks = opening(&mut theirs, ends, rights, &mut r);
        while !ends && clicks.len() < events / 12 {
            let by_right = clicks.len() % 5 == 4;
            let cell = a_cell(&theirs, &mut r, |seen, is| if by_right && rights == Rights::Mines { is == -1 } else { seen < 10 }).unwrap();
            clicks.push(if by_right { right(cell) } else { left(cell) });
        }
        clicks.truncate(events / 2);
        Game::new(HEIGHT, WIDTH, mines, row(&clicks, events))
    }

    /// A board without a mine, opened by one click.
    fn open(height: usize, width: usize) -> Game {
        Game::new(height, width, vec![false; height * width], row(&[left((height / 2, width / 2))], 2))
    }

    /// The reference's board, stepped through; with its moves or, as its own analysis does, without.
    fn stepped(&self, moves: bool) -> GameBoardState {
        let mut board = MinesweeperBoard::<Rows>::new(self.rows.clone());
        for (kind, place) in self.steps.iter().filter(|(kind, _)| moves || *kind != "mv") {
            board.step(black_box(kind), *place).expect("a step that is taken");
        }
        black_box(&board.game_board);
        board.game_board_state
    }

    fn parsed(&self) -> EvfVideo {
        let mut video = EvfVideo::new(self.old.clone(), "");
        video.parse().expect("a file that is read");
        video
    }

    /// The same from the file: read by the reference, then stepped through.
    fn parsed_and_stepped(&self) -> GameBoardState {
        let video = self.parsed();
        let data = &video.data;
        let mut board = MinesweeperBoard::<Rows>::new(data.board.clone());
        for record in &data.video_action_state_recorder {
            if let Some(TheirEvent::Mouse(m)) = &record.event {
                let pixels = data.cell_pixel_size as u16;
                board.step(&m.mouse, ((m.y / pixels) as usize, (m.x / pixels) as usize)).expect("a step that is taken");
            }
        }
        board.game_board_state
    }
}

/// What is lent for a board of 255 x 255 or less.
pub struct Lent {
    pub board: Vec<i8>,
    pub cells: Vec<u16>,
}

impl Lent {
    pub fn new() -> Lent {
        Lent { board: vec![0; 65025], cells: vec![0; 65025] }
    }

    pub fn play(&mut self, file: &[u8], events: usize) -> u8 {
        port::play(black_box(file), events, &mut self.board, &mut self.cells)
    }
}

pub fn us(seconds: f64) -> String {
    format!("{:.2}", seconds * 1e6)
}

fn expert_games() {
    let games: Vec<Game> = (0..GAMES).map(|seed| Game::expert(seed, 3000, true, Rights::Mines)).collect();
    let clicks = games.iter().flat_map(|g| &g.steps).filter(|(kind, _)| *kind != "mv").count();
    println!("an expert game of 3,000 events that is won by its last, {} of them no moves: a game of {GAMES}", clicks / GAMES as usize);
    let mut lent = [(); 3].map(|_| Lent::new());
    let [lent_1, lent_2, lent_3] = &mut lent;
    let times = medians(vec![
        Box::new(|| games.iter().for_each(|g| assert!(g.stepped(true) == GameBoardState::Win))),
        Box::new(|| games.iter().for_each(|g| assert!(g.stepped(false) == GameBoardState::Win))),
        Box::new(|| games.iter().for_each(|g| drop(black_box(g.parsed())))),
        Box::new(|| games.iter().for_each(|g| assert!(g.parsed_and_stepped() == GameBoardState::Win))),
        Box::new(|| games.iter().for_each(|g| assert_eq!(lent_1.play(&g.old, usize::MAX), WON))),
        Box::new(|| games.iter().for_each(|g| assert_eq!(lent_2.play(&g.new, usize::MAX), WON))),
        Box::new(|| games.iter().for_each(|g| assert_eq!(lent_3.play(&g.old, 0), UNDECIDED))),
        Box::new(|| games.iter().for_each(|g| assert_eq!(port::check(black_box(&g.old)), 0))),
    ]);
    let times: Vec<f64> = times.iter().map(|t| t / GAMES as f64).collect();
    let names = [
        "reference: step",
        "reference: step without moves",
        "reference: parse",
        "reference: parse and step",
        "port: play version 3",
        "port: play version 4",
        "port: play 0 events",
        "port: check",
    ];
    println!("what\tus a game\ttimes the port's play of version 3");
    names.iter().zip(&times).for_each(|(name, t)| println!("{name}\t{}\t{:.2}", us(*t), t / times[4]));
}

fn growth() {
    let (few, many) = (Game::expert(1, 20_000, false, Rights::Mines), Game::expert(1, 200_000, false, Rights::Mines));
    let mut lent = [(); 4].map(|_| Lent::new());
    let [lent_1, lent_2, lent_3, lent_4] = &mut lent;
    let times = medians(vec![
        Box::new(|| assert_eq!(lent_1.play(&few.old, usize::MAX), UNDECIDED)),
        Box::new(|| assert_eq!(lent_2.play(&many.old, usize::MAX), UNDECIDED)),
        Box::new(|| assert_eq!(lent_3.play(&few.new, usize::MAX), UNDECIDED)),
        Box::new(|| assert_eq!(lent_4.play(&many.new, usize::MAX), UNDECIDED)),
        Box::new(|| assert!(few.stepped(true) == GameBoardState::Playing)),
        Box::new(|| assert!(many.stepped(true) == GameBoardState::Playing)),
    ]);
    println!("what\t20,000 events, us\t200,000 events, us\tgrowth\tns an event");
    for (name, t) in ["port: play version 3", "port: play version 4", "reference: step"].iter().zip(times.chunks(2)) {
        println!("{name}\t{}\t{}\t{:.2}\t{:.2}", us(t[0]), us(t[1]), t[1] / t[0], t[1] * 1e9 / 200_000.0);
    }
}

fn open_boards() {
    let (small, large) = (Game::open(HEIGHT, WIDTH), Game::open(255, 255));
    let mut lent = [(); 4].map(|_| Lent::new());
    let [lent_1, lent_2, lent_3, lent_4] = &mut lent;
    let times = medians(vec![
        Box::new(|| assert_eq!(lent_1.play(&small.old, 2), WON)),
        Box::new(|| assert_eq!(lent_2.play(&large.old, 2), WON)),
        Box::new(|| assert_eq!(lent_3.play(&small.old, 0), UNDECIDED)),
        Box::new(|| assert_eq!(lent_4.play(&large.old, 0), UNDECIDED)),
        Box::new(|| assert!(small.stepped(true) == GameBoardState::Win)),
        Box::new(|| assert!(large.stepped(true) == GameBoardState::Win)),
    ]);
    println!("a board without mines opened by one click\t16 x 30, ns a cell\t255 x 255, ns a cell\tgrowth");
    for (name, t) in ["port: play", "port: play 0 events", "reference: step"].iter().zip(times.chunks(2)) {
        let (small, large) = (t[0] * 1e9 / (HEIGHT * WIDTH) as f64, t[1] * 1e9 / 65025.0);
        println!("{name}\t{small:.2}\t{large:.2}\t{:.2}", large / small);
    }
}

pub fn run() {
    expert_games();
    growth();
    open_boards();
}

/// One thing so often, for a counter of instructions: on an expert game of so many events that does not end, or on an open board of so many rows and columns.
pub fn once(what: &str, size: usize, times: u32) {
    let open = what.strip_suffix("-open");
    let game = if open.is_some() { Game::open(size, size) } else { Game::expert(1, size, false, Rights::Mines) };
    let mut lent = Lent::new();
    for _ in 0..times {
        match open.unwrap_or(what) {
            "rust-step" => drop(black_box(game.stepped(true))),
            "play-none" => drop(black_box(lent.play(&game.old, 0))),
            "play-4" => drop(black_box(lent.play(&game.new, usize::MAX))),
            _ => drop(black_box(lent.play(&game.old, usize::MAX))),
        }
    }
}
