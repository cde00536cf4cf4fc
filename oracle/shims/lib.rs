// The crate's root around the files of the reference, which are laid out beside it unchanged. Only what they name is here; what reading and
// writing EVF never calls has no body.
#![allow(dead_code)]
pub mod algorithms;
pub mod big_number;
pub mod board;
pub mod miscellaneous;
pub mod safe_board;
pub mod utils;
pub mod videos;

pub use board::GameBoard;
pub use utils::cal_cell_nums;
pub use videos::base_video::BaseVideo;
pub use videos::minesweeper_board::{GameBoardState, MinesweeperBoard, MouseState};
pub use videos::types::{GameStateEvent, KeyDynamicParams};

pub const ENUM_LIMIT: usize = 0;

pub fn cal_zini<T>(_board: &T) -> usize {
    unimplemented!()
}

pub fn cal_hzini<T>(_board: &T) -> usize {
    unimplemented!()
}
