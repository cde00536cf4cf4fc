//! The recount, held against the reference's `cal_op` and `cal_bbbv` on the board of every file that is read.
use crate::compare::must_be;
use crate::port;
use crate::rng::Rng;
use ms_toollib::utils::{cal_bbbv, cal_op};

/// Every entry of the working buffer before a call.
const BEFORE: u16 = 0xAAAA;
const BOARD_SHORT: usize = 17;
const WORK_SHORT: usize = 24;

/// What is lent is made from numbers of its own, so that the files and games of a seed do not depend on it.
pub struct Recounts {
    r: Rng,
    pub boards: u64,
    pub without_columns: u64,
}

impl Recounts {
    pub fn new() -> Recounts {
        Recounts { r: Rng::new(2), boards: 0, without_columns: 0 }
    }

    /// The board that the reference has read from a file: both counts from its mines, and what is left of the working buffer.
    pub fn file(&mut self, file: &[u8], board: &Vec<Vec<i32>>) {
        let (height, width) = (board.len(), board[0].len());
        let n = height * width;
        let cells = self.lent(board);
        let mut work = vec![BEFORE; n + self.r.below(4) as usize];
        let wanted = (cal_op(board) + 1) * 65536 + cal_bbbv(board);
        must_be(file, "evf_recount", wanted, port::recount(height, width, &cells, &mut work));
        must_be(file, "entries changed behind the board", 0, changed(&work[n..]));
        if n > 0 {
            refused(file, (height, width), &cells[..n - 1], n, BOARD_SHORT);
            refused(file, (height, width), &cells, n - 1, WORK_SHORT);
        }
        self.boards += 1;
        self.without_columns += (width == 0) as u64;
    }

    /// The cells of a board, every other time with any numbers in those that are no mines, and up to three cells behind them.
    fn lent(&mut self, board: &[Vec<i32>]) -> Vec<i8> {
        let any = self.r.once_in(2);
        let mut cells: Vec<i8> = board.iter().flatten().map(|cell| if *cell == -1 || !any { *cell as i8 } else { no_mine(&mut self.r) }).collect();
        cells.extend((0..self.r.below(4)).map(|_| self.r.byte() as i8));
        cells
    }
}

/// Any number but -1.
fn no_mine(r: &mut Rng) -> i8 {
    match r.byte() as i8 {
        -1 => 0,
        cell => cell,
    }
}

fn changed(entries: &[u16]) -> usize {
    entries.iter().filter(|entry| **entry != BEFORE).count()
}

/// A call with too few cells or entries is refused and changes no entry.
fn refused(file: &[u8], (height, width): (usize, usize), cells: &[i8], entries: usize, why: usize) {
    let mut work = vec![BEFORE; entries];
    must_be(file, "evf_recount with too little", why, port::recount(height, width, cells, &mut work));
    must_be(file, "entries changed by a refused recount", 0, changed(&work));
}
