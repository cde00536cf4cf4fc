// The videos' modules: those of the reference, and stand-ins for what reading and writing never calls.
pub mod analyse_methods;
pub mod base_video;
pub mod base_video_generate_evf;
pub mod base_video_metrics;
pub mod byte_reader;
pub mod evf_video;
pub mod minesweeper_board;
pub mod pluck;
pub mod relayout;
pub mod types;

pub use base_video::{BaseVideo, NewBaseVideo};
pub use types::Event;

pub trait NewSomeVideo<T> {
    fn new(file_name: T) -> Self;
}

pub trait NewSomeVideo2<T, U> {
    fn new(raw_data: T, file_name: U) -> Self;
}
