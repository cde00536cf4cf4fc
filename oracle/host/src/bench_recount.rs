//! Times of recounting by the reference and the port, on the same boards, in one run.
use crate::port;
use crate::rng::Rng;
use ms_toollib::utils::{cal_bbbv, cal_board_numbers, cal_op};
use std::hint::black_box;
use std::time::Instant;

/// The reference changes a board as it works out its numbers, so each round has copies, which are made before the clock starts.
type Theirs = Vec<Vec<i32>>;

/// How mines lie on a board.
#[derive(Clone, Copy)]
enum Mines {
    None,
    All,
    /// Walls four rows apart with a gap at one end in turn: one long corridor between them.
    Zigzag,
    Percent(u64),
}

const SORTS: [(&str, Mines); 5] = [("empty", Mines::None), ("full", Mines::All), ("zigzag", Mines::Zigzag), ("3 % mines", Mines::Percent(3)), ("20 % mines", Mines::Percent(20))];

const ROUNDS: usize = 40;

/// Boards of one size and sort, -1 or 0 in each cell.
struct Boards {
    height: usize,
    width: usize,
    ours: Vec<Vec<i8>>,
    theirs: Vec<Theirs>,
}

fn is_mine(mines: Mines, row: usize, column: usize, width: usize, r: &mut Rng) -> bool {
    match mines {
        Mines::None => false,
        Mines::All => true,
        Mines::Zigzag if row % 8 == 3 => column > 2,
        Mines::Zigzag => row % 4 == 3 && column + 3 < width,
        Mines::Percent(n) => r.below(100) < n,
    }
}

impl Boards {
    fn new(mines: Mines, height: usize, width: usize, count: usize) -> Boards {
        let mut r = Rng::new(1);
        let mut cell = |k: usize| -(is_mine(mines, k / width, k % width, width, &mut r) as i8);
        let ours: Vec<Vec<i8>> = (0..count).map(|_| (0..height * width).map(&mut cell).collect()).collect();
        let rows = |board: &Vec<i8>| board.chunks(width).map(|row| row.iter().map(|cell| *cell as i32).collect()).collect();
        let theirs = ours.iter().map(rows).collect();
        Boards { height, width, ours, theirs }
    }

    fn cells(&self) -> usize {
        self.height * self.width * self.ours.len()
    }

    /// Both give the same counts for each board.
    fn agree(&self, work: &mut [u16]) {
        for (ours, theirs) in self.ours.iter().zip(&self.theirs) {
            let mut board = theirs.clone();
            cal_board_numbers(&mut board);
            let wanted = (cal_op(&board) + 1) * 65536 + cal_bbbv(&board);
            assert_eq!(port::recount(self.height, self.width, ours, work), wanted, "the counts differ");
        }
    }

    /// Seconds of the reference for all boards, their numbers and then their counts.
    fn reference(&self) -> f64 {
        let mut boards = self.theirs.clone();
        let start = Instant::now();
        for board in &mut boards {
            cal_board_numbers(board);
            black_box(cal_bbbv(board));
        }
        start.elapsed().as_secs_f64()
    }

    /// Seconds of the port for all boards.
    fn port(&self, work: &mut [u16]) -> f64 {
        let start = Instant::now();
        for board in &self.ours {
            black_box(port::recount(self.height, self.width, black_box(board), work));
        }
        start.elapsed().as_secs_f64()
    }

    /// Nanoseconds a cell of the reference and the port: the best of many rounds, taken in turns.
    fn best(&self) -> (f64, f64) {
        let mut work = vec![0u16; self.height * self.width];
        self.agree(&mut work);
        let mut best = (f64::INFINITY, f64::INFINITY);
        for _ in 0..ROUNDS {
            best = (best.0.min(self.reference()), best.1.min(self.port(&mut work)));
        }
        (best.0 * 1e9 / self.cells() as f64, best.1 * 1e9 / self.cells() as f64)
    }
}

fn line(boards: &Boards, sort: &str, (theirs, ours): (f64, f64)) {
    println!("{} x {}\t{sort}\t{}\t{theirs:.1}\t{ours:.1}\t{:.2}", boards.height, boards.width, boards.ours.len(), theirs / ours);
}

/// A sort of boards at both sizes, and how the port's time a cell grows from one to the other.
fn sort(name: &str, mines: Mines) {
    let (small, large) = (Boards::new(mines, 16, 30, 400), Boards::new(mines, 255, 255, 8));
    let (small_times, large_times) = (small.best(), large.best());
    line(&small, name, small_times);
    line(&large, name, large_times);
    println!("255 x 255 / 16 x 30, a cell\t{name}\t-\t{:.2}\t{:.2}\t-", large_times.0 / small_times.0, large_times.1 / small_times.1);
}

pub fn run() {
    println!("board\tmines\tboards\treference, ns a cell\tport, ns a cell\tratio");
    SORTS.into_iter().for_each(|(name, mines)| sort(name, mines));
}
