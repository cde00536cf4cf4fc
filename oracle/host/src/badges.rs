//! The no-flag badge, held to a verdict by prefixes: for each place in the row the game before that event is
//! what evf_play leaves of the events before it. The reference counts otherwise, and is not asked.
use crate::compare::hex;
use crate::game::{Event, What};
use crate::play_games::{made, Made};
use crate::plays::{has_chord, kinds_of, BEFORE, BOARD_BEFORE, LC, LR, PF, RC, RR, UNDECIDED};
use crate::port::{self, BY_NEWER, BY_OLDER, BY_VERSION};
use crate::rng::Rng;
use std::collections::BTreeMap;

/// The wishes that are asked for: the three, and two numbers that are none.
const WISHES: [u8; 5] = [BY_VERSION, BY_OLDER, BY_NEWER, 3, 255];
const NO_WISH: u8 = 255;
const FIRST_VERDICT: u8 = 64;

/// The bit of a file's second byte that claims the badge.
const CLAIM: u8 = 16;

/// The last version that has the older rule.
const LAST_OLDER: u8 = 3;

/// An uncovered cell in the lent entries.
const UNCOVERED: u16 = 2;

/// What a call answers and leaves in the lent board and cells.
#[derive(Clone, PartialEq)]
struct Left {
    answer: u8,
    board: Vec<i8>,
    cells: Vec<u16>,
}

impl Left {
    /// A call lent so many cells and entries.
    fn by(lent: (usize, usize), call: impl Fn(&mut [i8], &mut [u16]) -> u8) -> Left {
        let (mut board, mut cells) = (vec![BOARD_BEFORE; lent.0], vec![BEFORE; lent.1]);
        let answer = call(&mut board, &mut cells);
        Left { answer, board, cells }
    }

    fn untouched(lent: (usize, usize), answer: u8) -> Left {
        Left::by(lent, |_, _| answer)
    }

    /// The same cells with another answer.
    fn answering(self, answer: u8) -> Left {
        Left { answer, ..self }
    }
}

/// A file that is judged, and its row.
struct Judged<'a> {
    file: &'a [u8],
    made: &'a Made,
    claimed: bool,
}

impl Judged<'_> {
    fn play(&self, events: usize, lent: (usize, usize)) -> Left {
        Left::by(lent, |board, cells| port::play(self.file, events, board, cells))
    }

    /// The cell under the event at a place of the row, where that is an rc on the board.
    fn right_clicked(&self, i: usize) -> Option<usize> {
        let What::Mouse { kind: RC, x, y } = self.made.events[i].what else { return None };
        let pixels = self.made.pixels as usize;
        let (row, column) = (y as usize / pixels, x as usize / pixels);
        (row < self.made.height && column < self.made.width).then(|| row * self.made.width + column)
    }

    /// Whether the event at a place falls by rc on a cell that is not uncovered, in a game that is undecided.
    fn spoils(&self, i: usize, lent: (usize, usize)) -> bool {
        self.right_clicked(i).is_some_and(|cell| {
            let before = self.play(i, lent);
            before.answer == UNDECIDED && before.cells[cell] != UNCOVERED
        })
    }

    fn verdict(&self, earned: bool) -> u8 {
        FIRST_VERDICT + earned as u8 + 2 * self.claimed as u8
    }

    fn older(&self, lent: (usize, usize)) -> Left {
        let earned = kinds_of(&self.made.events).iter().all(|kind| *kind != RC);
        Left::untouched(lent, self.verdict(earned))
    }

    fn newer(&self, lent: (usize, usize)) -> Left {
        let played = self.play(usize::MAX, lent);
        if played.answer < FIRST_VERDICT {
            return played;
        }
        let earned = (0..self.made.events.len()).all(|i| !self.spoils(i, lent));
        played.answering(self.verdict(earned))
    }
}

/// Counts of `oracle badges`: how often each answer came up by version and wish.
#[derive(Default)]
struct Counts {
    answers: BTreeMap<(u8, u8, u8), u64>,
    unread: u64,
    differ: u64,
}

impl Counts {
    /// A call under a wish, held to what it is to answer and leave.
    fn held(&mut self, file: &[u8], wish: u8, wanted: &Left) {
        let lent = (wanted.board.len(), wanted.cells.len());
        let got = Left::by(lent, |board, cells| port::badge(file, wish, board, cells));
        if got != *wanted {
            println!("MISMATCH of evf_badge, wish {wish}: wanted {}, the port {}", wanted.answer, got.answer);
            println!("file {}\nboard\nwanted {:?}\nport {:?}", hex(file), wanted.board, got.board);
            println!("cells\nwanted {:?}\nport {:?}", wanted.cells, got.cells);
            std::process::exit(1);
        }
        *self.answers.entry((file[0], wish, got.answer)).or_default() += 1;
    }

    /// A file under every wish, with so many cells and entries lent.
    fn file(&mut self, judged: &Judged, lent: (usize, usize)) {
        let (older, newer) = (judged.older(lent), judged.newer(lent));
        let implied = older.answer % 2 == 0 || newer.answer < FIRST_VERDICT || newer.answer == older.answer;
        assert!(implied, "earned under the older rule alone: {}", hex(judged.file));
        self.differ += (newer.answer >= FIRST_VERDICT && newer.answer != older.answer) as u64;
        for wish in WISHES {
            let is_older = wish == BY_OLDER || wish == BY_VERSION && judged.file[0] <= LAST_OLDER;
            let wanted = match wish {
                3.. => &Left::untouched(lent, NO_WISH),
                _ if is_older => &older,
                _ => &newer,
            };
            self.held(judged.file, wish, wanted);
        }
    }

    /// A file that ends too soon: refused under every wish as it is read.
    fn cut(&mut self, file: &[u8], r: &mut Rng) {
        let cut = &file[..1 + r.below(file.len() as u64 - 1) as usize];
        let why = port::check(cut);
        assert!(why != 0, "a file cut off that is read: {}", hex(cut));
        for wish in WISHES {
            self.held(cut, wish, &Left::untouched((3, 3), if wish > BY_NEWER { NO_WISH } else { why }));
        }
        self.unread += 1;
    }

    /// A game with enough lent, with too few cells, with too few entries and with nothing.
    fn game(&mut self, made: &Made, version: u8, r: &mut Rng) {
        let mut file = made.file(version);
        let claimed = r.once_in(2);
        file[1] |= CLAIM * claimed as u8;
        let n = made.mines.len();
        let judged = Judged { file: &file, made, claimed };
        self.file(&judged, (n + r.below(4) as usize, n + r.below(4) as usize));
        if n > 0 {
            let (cells, entries) = (r.below(n as u64) as usize, r.below(n as u64) as usize);
            for lent in [(cells, n), (n, entries), (cells, entries), (0, 0)] {
                self.file(&judged, lent);
            }
        }
        self.cut(&file, r);
    }

    fn tell(&self) {
        for ((version, wish, answer), times) in &self.answers {
            println!("version {version}\twish {wish}\tanswer {answer}\t{times}");
        }
    }
}

/// More events in a row, anywhere behind its first: right clicks and flags for the most part, on the board
/// and just behind it. They may make a chord.
fn more(events: &mut Vec<Event>, made: &Made, r: &mut Rng) {
    for _ in 0..r.below(7) {
        let kind = *r.pick(&[RC, RC, RC, RR, RR, PF, LR, LR, LC]);
        let mut place = |cells: usize| (r.below(cells as u64 + 1) * made.pixels as u64).min(65535) as u16;
        let what = What::Mouse { kind, x: place(made.width), y: place(made.height) };
        events.insert(1 + r.below(events.len() as u64) as usize, Event { seconds: 0.0, what });
    }
}

/// So many games from a seed: each as a player of sorts made it, then with more events that make no chord,
/// then with any more; one in eight with pixels of 0.
pub fn judge(seed: u64, games: u64) {
    let mut r = Rng::new(seed);
    let mut counts = Counts::default();
    for _ in 0..games {
        let version = r.below(5) as u8;
        let mut game = made(&mut r, version);
        counts.game(&game, version, &mut r);
        for may_chord in [false, true] {
            let mut events = game.events.clone();
            more(&mut events, &game, &mut r);
            if may_chord || !has_chord(&kinds_of(&events)) {
                game.events = events;
                counts.game(&game, version, &mut r);
            }
        }
        if r.once_in(8) {
            game.pixels = 0;
            counts.game(&game, version, &mut r);
        }
    }
    counts.tell();
    let calls: u64 = counts.answers.values().sum();
    println!("{games} games from the seed judged under every wish: {calls} calls, no mismatch");
    println!("{} times the rules differ; {} files cut off", counts.differ, counts.unread);
}
