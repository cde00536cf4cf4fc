// Analyses of a played game, never called by reading or writing.
macro_rules! no_body {
    ($($name:ident)*) => { $(pub fn $name<T>(_video: &mut T) { unimplemented!() })* };
}

no_body! { analyse_high_risk_guess analyse_jump_judge analyse_mouse_trace analyse_needless_guess analyse_pluck analyse_super_fl_local analyse_vision_transfer }
