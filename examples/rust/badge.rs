//! Tells of each replay that is named whether it earned the no-flag badge, and whether it claims it: by the
//! rule of its version, by either rule, with nothing lent, and with its claim turned: badge FILE..
//! It prints what examples/c/badge.c prints.

#[link(name = "file_badge", kind = "static")]
extern "C" {
    fn evf_badge(
        file: *const u8,
        length: usize,
        wish: u8,
        board: *mut i8,
        cells: usize,
        work: *mut u16,
        entries: usize,
    ) -> u8;
}

/// The most cells that a board has.
const CELLS: usize = 255 * 255;

/// The wishes: the rule of the file's version, the older rule, the newer.
const BY_VERSION: u8 = 0;
const BY_OLDER: u8 = 1;
const BY_NEWER: u8 = 2;

/// Whether a game earned the badge, and whether its file claims it.
struct Award {
    earned: bool,
    claimed: bool,
}

/// Why there is none.
enum Refusal {
    NoSuchWish,
    Number(u8),
}

/// Judges the badge of a file in a board and cells that are lent.
fn badge(file: &[u8], wish: u8, board: &mut [i8], cells: &mut [u16]) -> Result<Award, Refusal> {
    // Safe: each pointer and its length are those of one slice, and the borrows keep them apart.
    let (work, entries) = (cells.as_mut_ptr(), cells.len());
    let answer = unsafe {
        evf_badge(file.as_ptr(), file.len(), wish, board.as_mut_ptr(), board.len(), work, entries)
    };
    match answer {
        255 => Err(Refusal::NoSuchWish),
        64.. => Ok(Award { earned: answer & 1 != 0, claimed: answer & 2 != 0 }),
        number => Err(Refusal::Number(number)),
    }
}

fn told(answer: Result<Award, Refusal>) -> String {
    let not = |is| if is { "" } else { "not " };
    match answer {
        Ok(Award { earned, claimed }) => format!("{}earned, {}claimed", not(earned), not(claimed)),
        Err(Refusal::NoSuchWish) => "no such wish".to_string(),
        Err(Refusal::Number(number)) => format!("refused {number}"),
    }
}

fn main() -> std::io::Result<()> {
    let (mut board, mut cells) = (vec![0i8; CELLS], vec![0u16; CELLS]);
    for name in std::env::args().skip(1) {
        let mut file = std::fs::read(&name)?;
        println!("{name}");
        let mut judge = |how, file: &[u8], wish, lent| {
            println!("  {how}: {}", told(badge(file, wish, &mut board[..lent], &mut cells[..lent])));
        };
        judge("by its version", &file, BY_VERSION, CELLS);
        judge("by the older rule, with nothing lent", &file, BY_OLDER, 0);
        judge("by the newer rule", &file, BY_NEWER, CELLS);
        judge("by the newer rule, with nothing lent", &file, BY_NEWER, 0);
        judge("by another number", &file, 3, CELLS);
        file[1] ^= 16; // the claim is a bit of the second byte, in every version
        judge("with its claim turned", &file, BY_VERSION, CELLS);
    }
    Ok(())
}
