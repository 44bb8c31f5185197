//! Work shared among threads, with its results in order.

use std::panic::resume_unwind;
use std::sync::Mutex;
use std::sync::atomic::{AtomicBool, AtomicUsize, Ordering::Relaxed};
use std::thread::{self, Builder};

use harzoulin::Workspace;

use crate::failure::Failure;

/// What the work gives for each item, in the order of the items, or the failure of the first item
/// that fails. Items are taken in order, so all before a failing one are finished. Each thread has
/// a workspace of its own; one that cannot start leaves its part to the others. The work is told how
/// many jobs it has for an item: one, and those that no other item needs.
pub fn in_order<T: Send, R: Send>(
    jobs: usize,
    items: Vec<T>,
    work: impl Fn(&mut Workspace, usize, T) -> Result<R, Failure> + Sync,
) -> Result<Vec<R>, Failure> {
    let threads = jobs.min(items.len()).max(1);
    let idle = AtomicUsize::new(jobs.saturating_sub(threads));
    let queue = Mutex::new(items.into_iter().enumerate());
    let failed = AtomicBool::new(false);
    let worker = || {
        let mut workspace = Workspace::new();
        let mut done = vec![];
        while !failed.load(Relaxed) {
            let Some((place, item)) = queue.lock().expect("nothing panics under it").next() else {
                break;
            };
            let more = idle.swap(0, Relaxed);
            let result = work(&mut workspace, 1 + more, item);
            idle.fetch_add(more, Relaxed);
            failed.fetch_or(result.is_err(), Relaxed);
            done.push((place, result));
        }
        idle.fetch_add(1, Relaxed);
        done
    };
    let mut done = thread::scope(|scope| {
        let start = |_| Builder::new().spawn_scoped(scope, worker).ok();
        let started: Vec<_> = (1..threads).map_while(start).collect();
        started.into_iter().fold(worker(), |mut done, thread| {
            done.extend(thread.join().unwrap_or_else(|panic| resume_unwind(panic)));
            done
        })
    });
    done.sort_by_key(|(place, _)| *place);
    done.into_iter().map(|(_, result)| result).collect()
}
