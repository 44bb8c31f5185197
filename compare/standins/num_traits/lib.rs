//! Stand-in for `num_traits`: the one power that common/math.rs names, in a function that is not
//! ported and not called.

pub trait Pow<N> {
    fn pow(self, n: N) -> Self;
}

impl Pow<i16> for f64 {
    fn pow(self, _: i16) -> f64 {
        unimplemented!("num_traits")
    }
}
