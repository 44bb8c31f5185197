//! A run and the settled runs that its grid is cut into: joined, they give its answers bit for bit,
//! and their counts are its count and the samples once more for each piece after the first. Settle is
//! handed the times that remain when the staleness marks are taken out, which are the samples, too; for
//! the rollups that see marks, all times.

use std::mem::replace;
use std::ops::Range;

use original::exposed::Settings;

use crate::call::{show, Call, Case};
use crate::inputs::cases::slice;
use crate::inputs::series::TIME_LIMIT;
use crate::rng::Rng;
use crate::{oracle, port, rows};

/// The calls that the comparison makes.
pub const CALLS: [Call; 3] = [Call::Settle, Call::Run, Call::SettledRun];

/// From here on the numbers of pieces are one.
pub const MANY: usize = 10;

/// Into how many pieces the seed cuts an accepted run or settled run, or where they give something
/// else than the whole. The pieces are called in any order, on the slices as the call before left
/// them. A refused call has none.
pub fn disagreement(call: Call, case: &Case, seed: u64) -> Result<u64, String> {
    if rows::refusal(call, case).is_some() {
        return Ok(0);
    }
    let mut rng = Rng::new(seed);
    let whole = port::outcome(call, case);
    if whole.number != 0 {
        return Err(format!("the whole is refused {}", whole.number));
    }
    let (timestamps, _) = oracle::readings(case);
    let samples = timestamps.len();
    let (window, reach) = match call {
        Call::Run => {
            let settled = port::outcome(Call::Settle, &Case { timestamps, ..case.clone() });
            (settled.window, settled.reach)
        }
        _ => (case.settings.window, case.reach),
    };
    let points = rows::points(case) as usize;
    let pieces = cut(&mut rng, points);
    let mut joined = vec![0; points];
    let mut count = 0;
    let mut left = whole.clone();
    for piece in &pieces {
        let (start, end) = ends(&mut rng, &case.settings, piece);
        let settings = Settings { start, end, window, ..case.settings.clone() };
        let outcome = port::outcome(
            Call::SettledRun,
            &Case {
                settings,
                reach,
                dst_values: slice(&mut rng, piece.len()),
                prepared: left.prepared,
                remaining: left.remaining,
                work: left.work,
                ..case.clone()
            },
        );
        if outcome.number != 0 {
            return Err(format!("the piece {start}..={end} is refused {}", outcome.number));
        }
        joined[piece.clone()].copy_from_slice(&outcome.dst_values[..piece.len()]);
        count += outcome.count;
        left = outcome;
    }
    if let Some(i) = (0..points).find(|i| joined[*i] != whole.dst_values[*i]) {
        let (whole, joined) = (show(whole.dst_values[i]), show(joined[i]));
        return Err(format!("output[{i}]: the whole {whole}, cut at {pieces:?} {joined}"));
    }
    let again = (pieces.len() - 1) * samples;
    if count != whole.count + again as u64 {
        let whole = whole.count;
        return Err(format!("count: the whole {whole} and {again}, cut at {pieces:?} {count}"));
    }
    Ok(pieces.len().min(MANY) as u64)
}

/// The grid in pieces, from one for all of it to one for each output time, in any order.
fn cut(rng: &mut Rng, points: usize) -> Vec<Range<usize>> {
    let once_in = rng.pick(&[1, 2, 5, 20]);
    let mut stops: Vec<usize> = (1..points).filter(|_| rng.once_in(once_in)).collect();
    stops.push(points);
    let mut from = 0;
    let mut pieces: Vec<_> = stops.into_iter().map(|stop| replace(&mut from, stop)..stop).collect();
    for i in (1..pieces.len()).rev() {
        pieces.swap(i, rng.below(i as u64 + 1) as usize);
    }
    pieces
}

/// A piece's start, and an end from its last output time to just before the next.
fn ends(rng: &mut Rng, settings: &Settings, piece: &Range<usize>) -> (i64, i64) {
    let time = |place: usize| settings.start + place as i64 * settings.step;
    let last = time(piece.end - 1);
    let rest = rng.between(0, settings.step - 1);
    let end = last + rng.pick(&[0, rest, settings.step - 1]);
    (time(piece.start), end.min(TIME_LIMIT))
}
