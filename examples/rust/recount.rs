//! Counts openings and 3BV of each board that is drawn, its rows parted by /, * a mine: recount ROW/ROW..
//! It prints what examples/c/recount.c prints of boards of up to 65025 cells.

#[link(name = "openings", kind = "static")]
extern "C" {
    fn evf_recount(height: usize, width: usize, board: *const i8, cells: usize, work: *mut u16, entries: usize) -> usize;
}

/// Openings and 3BV of a board, or the number of the refusal.
fn recount(height: usize, width: usize, board: &[i8]) -> Result<(usize, usize), usize> {
    let mut work = vec![0u16; board.len()];
    // Safe: each pointer and its length are those of one slice, and the two do not overlap.
    let answer = unsafe { evf_recount(height, width, board.as_ptr(), board.len(), work.as_mut_ptr(), work.len()) };
    if answer < 65536 {
        return Err(answer);
    }
    Ok((answer / 65536 - 1, answer % 65536))
}

fn main() {
    for drawing in std::env::args().skip(1) {
        let board: Vec<i8> = drawing.bytes().filter(|&b| b != b'/').map(|b| if b == b'*' { -1 } else { 0 }).collect();
        let width = drawing.split('/').next().unwrap_or("").len();
        let height = board.len().checked_div(width).unwrap_or(0);
        match recount(height, width, &board) {
            Ok((openings, bbbv)) => println!("{drawing}: {openings} openings, 3BV {bbbv}"),
            Err(number) => println!("{drawing}: refused {number}"),
        }
    }
}
