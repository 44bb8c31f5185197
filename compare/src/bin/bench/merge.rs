//! Merge beside the plain Rust's, on two logs of one probe: apart, interleaved in two ways, equal, one
//! within the other, and each with gaps of its own.

use compare::call::UNSET;
use compare::inputs::series::counter;
use compare::rng::Rng;
use compare::{plain, port};

use super::{both, head, line};

type Log = (Vec<i64>, Vec<f64>);

/// Whether the reading at a place is in the first log, and whether it is in the second.
type Share = Box<dyn FnMut(usize) -> (bool, bool)>;

pub fn merge(readings: usize) {
    head(&format!("up to {readings} readings a log"), "logs | first | second | merged");
    for (name, of, share) in kinds(readings) {
        let (first, second) = logs(of, share);
        let room = first.0.len() + second.0.len();
        let lend = || (vec![UNSET as i64; room], vec![f64::from_bits(UNSET); room]);
        let (mut ours, mut theirs) = (lend(), lend());
        let (mut number, mut length, mut index, mut plainly) = (1, 0, 1, Err((1, 0)));
        let (one, other) = ((&first.0[..], &first.1[..]), (&second.0[..], &second.1[..]));
        let times = both(
            || {
                let (times, values) = (&mut ours.0, &mut ours.1);
                number = port::merge([one, other], times, values, &mut length, &mut index);
            },
            || plainly = plain::merge(one, other, &mut theirs.0, &mut theirs.1),
        );
        assert_eq!((number, index, Ok(length)), (0, 0, plainly));
        assert!(ours.0 == theirs.0);
        assert!(ours.1.iter().map(|v| v.to_bits()).eq(theirs.1.iter().map(|v| v.to_bits())));
        line(&format!("{name} | {} | {} | {length}", one.0.len(), other.0.len()), times);
    }
}

/// How the logs lie to each other, of how many readings they are, and which has which.
fn kinds(n: usize) -> [(&'static str, usize, Share); 6] {
    let either = |first: bool| (first, !first);
    let (mut rng, mut left) = (Rng::new(1), n);
    let at_random = move |place| {
        let first = rng.below((2 * n - place) as u64) < left as u64;
        left -= first as usize;
        either(first)
    };
    let (mut one, mut other) = (gaps(2), gaps(3));
    [
        ("apart", 2 * n, Box::new(move |place| either(place < n))),
        ("alternating", 2 * n, Box::new(move |place| either(place % 2 == 0))),
        ("interleaved at random", 2 * n, Box::new(at_random)),
        ("equal", n, Box::new(|_| (true, true))),
        ("every tenth in the second", n, Box::new(|place| (true, place % 10 == 0))),
        ("gaps in each", n, Box::new(move |_| (one(), other()))),
    ]
}

/// Whether a log has the next reading: once in 2,000 readings it begins to miss up to 200.
fn gaps(seed: u64) -> impl FnMut() -> bool {
    let (mut rng, mut missing) = (Rng::new(seed), 0);
    move || {
        if missing == 0 && rng.once_in(2_000) {
            missing = rng.below(200) + 1;
        }
        let has = missing == 0;
        missing -= !has as u64;
        has
    }
}

/// A probe's readings, shared out.
fn logs(readings: usize, mut share: Share) -> (Log, Log) {
    let (mut first, mut second) = (Log::default(), Log::default());
    let (timestamps, values) = counter(readings);
    for (place, reading) in timestamps.into_iter().zip(values).enumerate() {
        let (in_first, in_second) = share(place);
        first.extend(in_first.then_some(reading));
        second.extend(in_second.then_some(reading));
    }
    (first, second)
}
