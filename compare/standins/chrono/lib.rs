//! Stand-in for `chrono`: the names that types/traits.rs uses to print a time. None is called.

pub mod prelude {
    use std::marker::PhantomData;
    use std::time::SystemTime;

    pub struct Utc;

    pub struct DateTime<Z>(PhantomData<Z>);

    impl DateTime<Utc> {
        pub fn from_timestamp_millis(_: i64) -> Option<Self> {
            unimplemented!("chrono")
        }

        pub fn format(&self, _: &str) -> String {
            unimplemented!("chrono")
        }

        pub fn to_rfc3339(&self) -> String {
            unimplemented!("chrono")
        }
    }

    impl From<SystemTime> for DateTime<Utc> {
        fn from(_: SystemTime) -> Self {
            unimplemented!("chrono")
        }
    }
}
