//! Crossings of a limit and the nearest reading: what is found, each refusal, and which goes first.

use harzoulin::{MOST, Refusal, crossings, lent, nearest};

const TIMES: [i64; 6] = [0, 10, 20, 30, 40, 50];
const VALUES: [f64; 6] = [39.0, 40.0, 41.0, 12.0, 12.0, 40.0];
/// The largest time, and one that is too large.
const LARGEST: i64 = 1 << 50;
const OUTSIDE: i64 = LARGEST + 1;

/// The answer on a lent slice of so many entries, and the slice, which held sevens.
fn lent(values: &[f64], limit: f64, room: usize) -> (Result<usize, Refusal>, Vec<u64>) {
    let mut indexes = vec![7; room];
    (lent::crossings(&TIMES[..values.len()], values, limit, &mut indexes), indexes)
}

#[test]
fn both_forms() {
    for (limit, found) in [
        (40.0, vec![1, 3, 5]),
        (39.0, vec![3, 5]),
        (40.5, vec![2, 3]),
        (12.0, vec![]),
        (12.5, vec![3, 5]),
        (f64::MAX, vec![]),
        (f64::MIN, vec![]),
    ] {
        assert_eq!(crossings(&TIMES, &VALUES, limit), Ok(found.clone()), "{limit}");
        let (count, indexes) = lent(&VALUES, limit, 6);
        assert_eq!(count, Ok(found.len()));
        let found = found.into_iter().map(|index| index as u64);
        assert_eq!(indexes, found.chain([7; 6]).take(6).collect::<Vec<_>>(), "{limit}");
    }
}

/// The zeros are equal, so neither is below the other.
#[test]
fn the_ends_are_accepted() {
    for limit in [0.0, -0.0] {
        assert_eq!(crossings(&TIMES[..3], &[0.0, -0.0, 0.0], limit), Ok(vec![]));
        assert_eq!(crossings(&TIMES[..3], &[-0.0, -5e-324, 0.0], limit), Ok(vec![1, 2]));
    }
    assert_eq!(crossings(&[], &[], 0.0), Ok(vec![]));
    assert_eq!(crossings(&[-LARGEST, LARGEST], &[0.0, 1.0], 1.0), Ok(vec![1]));
}

/// A series that crosses at each reading, and one of which few do.
#[test]
fn a_vector_has_what_it_needs() {
    let times: Vec<i64> = (0..10_000).collect();
    for (period, count) in [(2, 9_999), (1000, 19), (20_000, 0)] {
        let above = |time: &i64| f64::from(u8::from(time % period >= period / 2));
        let values: Vec<f64> = times.iter().map(above).collect();
        let found = crossings(&times, &values, 0.5).unwrap();
        assert_eq!((found.len(), found.capacity()), (count, count));
        assert!(found.iter().all(|index| values[*index] != values[index - 1]));
    }
}

/// What would be refused for every row is refused for the first of them, and so on.
#[test]
fn rows_of_crossings() {
    let bad = f64::NAN;
    let many = vec![OUTSIDE; MOST + 1];
    let refused = |times: &[i64], values: &[f64], limit: f64, refusal: Refusal| {
        let mut indexes = [7];
        assert_eq!(lent::crossings(times, values, limit, &mut indexes), Err(refusal));
        assert_eq!(indexes, [7]);
        if refusal != Refusal::Indexes {
            assert_eq!(crossings(times, values, limit), Err(refusal));
        }
    };
    refused(&many, &[bad], bad, Refusal::Lengths);
    refused(&many, &vec![bad; MOST + 1], bad, Refusal::Readings);
    refused(&[5, 5, OUTSIDE], &[bad; 3], bad, Refusal::Time(2));
    refused(&[6, 6, 5], &[bad; 3], bad, Refusal::Order(2));
    for bad in [f64::NAN, f64::INFINITY, f64::NEG_INFINITY] {
        refused(&TIMES[..3], &[0.0, bad, 0.0], bad, Refusal::Value(1));
        refused(&TIMES[..3], &[0.0, 1.0, 0.0], bad, Refusal::CrossingLimit);
        refused(&[], &[], bad, Refusal::CrossingLimit);
    }
    refused(&TIMES[..3], &[0.0, 1.0, 0.0], 1.0, Refusal::Indexes);
}

#[test]
fn an_index_slice_may_be_as_long_as_it_has_to() {
    for room in 0..3 {
        assert_eq!(lent(&VALUES, 40.0, room), (Err(Refusal::Indexes), vec![7; room]));
    }
    assert_eq!(lent(&VALUES, 40.0, 3), (Ok(3), vec![1, 3, 5]));
    assert_eq!(lent(&VALUES, 0.0, 0), (Ok(0), vec![]));
    let texts = [Refusal::CrossingLimit, Refusal::Indexes].map(|refusal| refusal.to_string());
    assert_eq!(texts[0], "refusal 15: the limit of the crossings is NaN or infinite");
    assert_eq!(texts[1], "refusal 16: the index slice is shorter than the number of crossings");
}

/// Of two that are as near, the lower one.
#[test]
fn the_nearest() {
    let times = [-LARGEST, -7, 0, 10, 20, LARGEST];
    for (time, index) in [
        (-LARGEST, 0),
        (-8, 1),
        (-7, 1),
        (-3, 2),
        (5, 2),
        (6, 3),
        (15, 3),
        (16, 4),
        (LARGEST / 2 + 10, 4),
        (LARGEST / 2 + 11, 5),
        (LARGEST, 5),
    ] {
        assert_eq!(nearest(&times, time), Ok(Some(index)), "{time}");
    }
    assert_eq!(nearest(&[-LARGEST, LARGEST], 0), Ok(Some(0)));
    // Of equal times the first.
    for (time, index) in [(0, 0), (1, 0), (4, 1), (5, 1), (6, 1), (7, 1), (8, 4), (9, 4)] {
        assert_eq!(nearest(&[1, 5, 5, 5, 9, 9], time), Ok(Some(index)), "{time}");
    }
    for time in [-LARGEST, 0, LARGEST] {
        assert_eq!(nearest(&[], time), Ok(None));
        assert_eq!(nearest(&[3], time), Ok(Some(0)));
    }
}

/// The asked time is looked at after the readings' own times, and before their order.
#[test]
fn rows_of_nearest() {
    for outside in [OUTSIDE, -OUTSIDE, i64::MAX, i64::MIN] {
        assert_eq!(nearest(&vec![OUTSIDE; MOST + 1], outside), Err(Refusal::Readings));
        assert_eq!(nearest(&[5, 5, OUTSIDE], outside), Err(Refusal::Time(2)));
        assert_eq!(nearest(&[5, 5], outside), Err(Refusal::Time(0)));
        assert_eq!(nearest(&[], outside), Err(Refusal::Time(0)));
        assert_eq!(nearest(&[outside], 0), Err(Refusal::Time(0)));
    }
    assert_eq!(nearest(&[6, 6, 5], 0), Err(Refusal::Order(2)));
}
