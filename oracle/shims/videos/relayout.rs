// Moving mines while playing, never called by reading or writing.
pub fn relayout<B, G>(
    _board: &B,
    _game_board: &G,
    _must_not_mine: &[(usize, usize)],
    _must_mine: &[(usize, usize)],
    _require_solvable: bool,
    _trials: usize,
) -> Option<Vec<Vec<i32>>> {
    unimplemented!()
}

pub fn has_provable_safe_cell<G>(_game_board: &G) -> bool {
    unimplemented!()
}
