//! Plays the first EVENTS events of each replay that is named, draws what the player saw of the board then,
//! and tells how the game ends: play EVENTS FILE..
//! It prints what examples/c/play.c prints.

#[link(name = "file_play", kind = "static")]
extern "C" {
    fn evf_play(
        file: *const u8,
        length: usize,
        events: usize,
        board: *mut i8,
        cells: usize,
        work: *mut u16,
        entries: usize,
    ) -> u8;
}

/// The most cells that a board has.
const CELLS: usize = 255 * 255;

/// A cell in the lent entries; 0 is a covered one.
const FLAGGED: u16 = 1;
const UNCOVERED: u16 = 2;

/// How a game stands after some events.
#[derive(Debug)]
enum Stands {
    Undecided,
    Won,
    Lost,
}

/// Plays events of a file into a board, and what the player sees of it; or the number of the refusal.
fn play(file: &[u8], events: usize, board: &mut [i8], cells: &mut [u16]) -> Result<Stands, u8> {
    // Safe: each pointer and its length are those of one slice, and the borrows keep them apart.
    let (work, entries) = (cells.as_mut_ptr(), cells.len());
    let answer = unsafe {
        evf_play(file.as_ptr(), file.len(), events, board.as_mut_ptr(), board.len(), work, entries)
    };
    match answer {
        64 => Ok(Stands::Undecided),
        65 => Ok(Stands::Won),
        66 => Ok(Stands::Lost),
        number => Err(number),
    }
}

fn told(answer: &Result<Stands, u8>) -> String {
    match answer {
        Ok(stands) => format!("{stands:?}").to_lowercase(),
        Err(number) => format!("refused {number}"),
    }
}

/// What a player sees of a cell: # covered, F flagged, a mine that was hit, or the number of mines around.
fn seen(cell: i8, entry: u16) -> char {
    match (entry, cell) {
        (UNCOVERED, -1) => '*',
        (UNCOVERED, 0) => '.',
        (UNCOVERED, number) => (b'0' + number as u8) as char,
        (FLAGGED, _) => 'F',
        _ => '#',
    }
}

fn main() -> std::io::Result<()> {
    let mut words = std::env::args().skip(1);
    let events = words.next().and_then(|word| word.parse().ok()).unwrap_or(0);
    let (mut board, mut cells) = (vec![0i8; CELLS], vec![0u16; CELLS]);
    for name in words {
        let file = std::fs::read(&name)?;
        let end = told(&play(&file, usize::MAX, &mut board, &mut cells));
        let without = told(&play(&file, events, &mut [], &mut cells));
        let answer = play(&file, events, &mut board, &mut cells);
        print!("{name}: in the end {end}, without a board {without}");
        println!(", after {events} events {}", told(&answer));
        if answer.is_ok() {
            // Height and width stand behind the version and its flags, of which versions 3 and 4 have a byte
            // more.
            let at = if file[0] < 3 { 2 } else { 3 };
            let (height, width) = (usize::from(file[at]), usize::from(file[at + 1]));
            for row in 0..height {
                let cells = (row * width..(row + 1) * width).map(|k| seen(board[k], cells[k]));
                println!("{}", cells.collect::<String>());
            }
        }
    }
    Ok(())
}
