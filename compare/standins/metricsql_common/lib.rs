//! Stand-in for `metricsql_common`: a pooled vector is a new `Vec`, empty unless filled.

pub mod pool {
    use std::ops::{Deref, DerefMut};

    pub struct PooledVecF64(Vec<f64>);

    impl Deref for PooledVecF64 {
        type Target = Vec<f64>;

        fn deref(&self) -> &Vec<f64> {
            &self.0
        }
    }

    impl DerefMut for PooledVecF64 {
        fn deref_mut(&mut self) -> &mut Vec<f64> {
            &mut self.0
        }
    }

    pub fn get_pooled_vec_f64(capacity: usize) -> PooledVecF64 {
        PooledVecF64(Vec::with_capacity(capacity))
    }

    pub fn get_pooled_vec_f64_filled(size: usize, value: f64) -> PooledVecF64 {
        PooledVecF64(vec![value; size])
    }
}
