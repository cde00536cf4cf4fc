// Solvers, never called by reading or writing.
type Cells = Vec<(usize, usize)>;

pub fn solve_direct<A, X, B, G>(_a: &mut A, _x: &mut X, _b: &mut B, _board: &mut G) -> Result<(Cells, Cells), usize> {
    unimplemented!()
}

pub fn solve_minus<A, X, B, G>(_a: &mut A, _x: &mut X, _b: &mut B, _board: &mut G) -> Result<(Cells, Cells), usize> {
    unimplemented!()
}

pub fn solve_enumerate<A, X, B>(_a: &A, _x: &X, _b: &B) -> (Cells, Cells) {
    unimplemented!()
}

pub fn cal_probability_onboard(_board: &Vec<Vec<i32>>, _mines: f64) -> Result<(Vec<Vec<f64>>, [usize; 3]), usize> {
    unimplemented!()
}
