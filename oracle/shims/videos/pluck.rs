// An analysis of luck, never called by reading or writing.
pub fn analyse<T>(_video: &mut T, _until: f64) {
    unimplemented!()
}
