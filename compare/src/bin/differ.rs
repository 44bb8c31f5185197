//! `differ WHAT --cases N --seed S` compares the port with its judge on N generated calls; WHAT is
//! prepare, settle, run or settled_run, which the Rust judges, crossings, nearest or merge, which the model
//! judges as it does the step, the rollup and the filter of staleness marks that the Rust does not have, or
//! cuts: accepted runs with the settled runs that they are cut into, or reaches: settle of every estimate of
//! `inputs::reaches`, however many cases are asked for, or all (what the archive has the functions for). With
//! `--rollup R` every generated run, settled run and cut asks rollup R, but for those that are to name none. Of runs
//! it says how often the Rust's own run gives what the window rule gives, which judges series with equal times.

use std::collections::BTreeMap;
use std::process::exit;

use compare::arguments::{if_given, number};
use compare::call::{Call, Case};
use compare::inputs::{cases, reaches};
use compare::judge::ROLLUPS;
use compare::rng::Rng;
use compare::{cuts, judge, oracle, port, shrink};

/// What is compared.
#[derive(Clone, Copy)]
enum What {
    One(Call),
    Cuts,
    Reaches,
}

/// A call, with a seed for its cut.
type Generated = (Call, Case, u64);

/// What is found about a call.
struct Found {
    /// The number under which an agreement is counted, or what differs.
    number: Result<u64, String>,
    /// Whether the Rust's own run gives what the window rule gives, where the rule judges.
    as_the_rust: Option<bool>,
}

impl What {
    /// All that the archive has the functions for, with their names.
    fn all() -> Vec<(&'static str, What)> {
        let calls = Call::ALL.into_iter().filter(|(_, call)| port::has(*call));
        let mut all: Vec<_> = calls.map(|(name, call)| (name, What::One(call))).collect();
        if cuts::CALLS.into_iter().all(port::has) {
            all.push(("cuts", What::Cuts));
        }
        if port::has(Call::Settle) {
            all.push(("reaches", What::Reaches));
        }
        all
    }

    /// So many cases, the largest sizes and then generated ones; every reach, however many are asked for.
    fn cases(
        self,
        cases: u64,
        seed: u64,
        rollup: Option<u32>,
    ) -> Box<dyn Iterator<Item = Generated>> {
        let mut rng = Rng::new(seed);
        match self {
            What::One(call) => {
                let generated = (0..cases).map(move |_| cases::case(&mut rng, call, rollup));
                let cases = cases::longest(call).chain(generated).take(cases as usize);
                Box::new(cases.map(move |case| (call, case, 0)))
            }
            What::Cuts => Box::new((0..cases).map(move |_| {
                let call = rng.pick(&[Call::Run, Call::SettledRun]);
                (call, cases::accepted(&mut rng, call, rollup), rng.bits())
            })),
            What::Reaches => {
                Box::new(reaches::estimates().map(|e| (Call::Settle, reaches::case(e), 0)))
            }
        }
    }

    fn found(self, call: Call, case: &Case, seed: u64) -> Found {
        match self {
            What::One(_) | What::Reaches => found(call, case),
            What::Cuts => Found { number: cuts::disagreement(call, case, seed), as_the_rust: None },
        }
    }

    fn counted(self) -> &'static str {
        match self {
            What::One(_) | What::Reaches => "number (0 is accepted)",
            What::Cuts => "pieces (10 is ten or more)",
        }
    }
}

fn main() {
    judge::quiet();
    let words: Vec<String> = std::env::args().skip(1).collect();
    let Some(name) = words.first() else { usage() };
    let options = (number(&words, "--cases", 100_000), number(&words, "--seed", 1));
    let (Some(cases), Some(seed)) = options else { usage() };
    let Some(rollup) = if_given(&words, "--rollup") else { usage() };
    if rollup.is_some_and(|number| number >= ROLLUPS.len() as u64) {
        usage()
    }
    let rollup = rollup.map(|number| number as u32);
    let mut all = What::all();
    all.retain(|(what, _)| name == "all" || what == name);
    if all.is_empty() {
        usage()
    }
    let (mut compared, mut bad) = (0, 0);
    for (name, what) in all {
        let (more, worse) = compare(name, what, cases, seed, rollup);
        (compared, bad) = (compared + more, bad + worse);
    }
    println!("{compared} cases, {bad} disagreements");
    exit((bad > 0) as i32)
}

/// Compares one of them; gives the number of cases and of disagreements.
fn compare(name: &str, what: What, cases: u64, seed: u64, rollup: Option<u32>) -> (u64, u64) {
    let mut agreed = BTreeMap::new();
    let mut shortest: Option<Generated> = None;
    let (mut compared, mut bad, mut by_the_rule, mut as_the_rust) = (0, 0, 0, 0);
    for (call, case, seed) in what.cases(cases, seed, rollup) {
        compared += 1;
        let found = what.found(call, &case, seed);
        by_the_rule += found.as_the_rust.is_some() as u64;
        as_the_rust += (found.as_the_rust == Some(true)) as u64;
        match found.number {
            Ok(number) => *agreed.entry(number).or_insert(0) += 1,
            Err(_) => {
                bad += 1;
                let readings = case.readings();
                if shortest.as_ref().is_none_or(|(_, kept, _)| readings < kept.readings()) {
                    shortest = Some((call, case, seed));
                }
            }
        }
    }
    let from = if let What::Reaches = what { String::new() } else { format!(" from seed {seed}") };
    println!("{name}: {compared} cases{from}, {bad} disagreements");
    let rows: Vec<String> = agreed.iter().map(|(number, n)| format!("{number}: {n}")).collect();
    println!("  agreed, by {}: {}", what.counted(), rows.join(", "));
    if by_the_rule > 0 {
        println!(
            "  of {by_the_rule} accepted series with equal times the Rust's run agrees with the \
             window rule on {as_the_rust}"
        );
    }
    if let Some(shortest) = shortest {
        print_small(what, shortest);
    }
    (compared, bad)
}

/// Prints a case that differs, made small, and what differs.
fn print_small(what: What, (call, case, seed): Generated) {
    let found = |case: &Case| what.found(call, case, seed).number;
    let case = shrink::shrink(case, |case| found(case).is_err());
    println!("  the shortest, made small:\n{case}\n  {}", found(&case).unwrap_err());
}

/// The port beside the judge. A panic of the judge is a disagreement.
fn found(call: Call, case: &Case) -> Found {
    let ours = port::outcome(call, case);
    let judged = || {
        let theirs = oracle::outcome(call, case);
        let as_the_rust = oracle::as_the_rust(call, case, &theirs);
        (theirs, as_the_rust)
    };
    let Some((theirs, as_the_rust)) = judge::caught(judged) else {
        return Found { number: Err("the judge panics".to_string()), as_the_rust: None };
    };
    let number = match ours.against(&theirs)[..] {
        [] => Ok(ours.number),
        ref lines => Err(lines.join("\n  ")),
    };
    Found { number, as_the_rust }
}

fn usage() -> ! {
    eprintln!("differ WHAT [--cases N] [--seed S] [--rollup 0 to {}]", ROLLUPS.len() - 1);
    eprintln!("WHAT is all or one that the archive has");
    match &What::all()[..] {
        [] => eprintln!("no archive was found: write it by `tools/archive`"),
        all => {
            let names: Vec<&str> = all.iter().map(|(name, _)| *name).collect();
            eprintln!("the archive has: {}", names.join(", "));
        }
    }
    exit(2)
}
