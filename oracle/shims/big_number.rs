// A number of the solvers, never reckoned with here.
pub struct BigNumber {
    pub a: f64,
    pub b: i32,
}

impl std::ops::Mul<f64> for &BigNumber {
    type Output = BigNumber;
    fn mul(self, _by: f64) -> BigNumber {
        unimplemented!()
    }
}
