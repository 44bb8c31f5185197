//! Makes the three series of this folder, always the same: `rustc -O data/make.rs -o target/make`
//! and `target/make data`.

use std::fmt::Write;

/// Numbers that look random: splitmix64.
struct Rng(u64);

impl Rng {
    fn next(&mut self) -> u64 {
        self.0 = self.0.wrapping_add(0x9e37_79b9_7f4a_7c15);
        let mixed = (self.0 ^ (self.0 >> 30)).wrapping_mul(0xbf58_476d_1ce4_e5b9);
        let mixed = (mixed ^ (mixed >> 27)).wrapping_mul(0x94d0_49bb_1331_11eb);
        mixed ^ (mixed >> 31)
    }

    /// From 0 up to 1.
    fn unit(&mut self) -> f64 {
        (self.next() >> 11) as f64 / (1u64 << 53) as f64
    }

    /// About 0, seldom beyond 2: the sum of four.
    fn noise(&mut self) -> f64 {
        (0..4).map(|_| self.unit() - 0.5).sum::<f64>() * 1.7
    }
}

const HOUR: i64 = 3_600_000;
const DAY: i64 = 24 * HOUR;
/// Monday, 2 March 2026.
const MONDAY: i64 = 1_772_409_600_000;

/// The hours at which the drive was unplugged, and those at which it was plugged in again.
const UNPLUGGED: [(i64, i64); 3] = [(369, 378), (745, 766), (1204, 1219)];

/// Metres of tape that a drive wound, a reading an hour for ten weeks. The counter begins again at
/// each firmware load, and runs little at night and on Sundays. An unplugged drive winds nothing: where
/// its first reading is missing stands a staleness mark, and then nothing until it is back.
pub fn drive() -> String {
    let mut rng = Rng(7);
    let mut text =
        String::from("# Metres of tape wound by drive 7 since its last firmware load.\n");
    text += "time,value\n";
    let mut metres = 48_210.0;
    for hour in 0..10 * 7 * 24 {
        let busy = (6..22).contains(&(hour % 24)) && hour / 24 % 7 != 6;
        let wound = (rng.unit() * if busy { 900.0 } else { 40.0 }).floor();
        let away = UNPLUGGED.iter().find(|(gone, back)| (*gone..*back).contains(&hour));
        if away.is_none() {
            metres += wound;
        }
        if [411, 912, 1350].contains(&hour) {
            metres = 0.0;
        }
        let time = MONDAY + hour * HOUR;
        match away {
            None => writeln!(text, "{time},{metres}").unwrap(),
            Some((gone, _)) if *gone == hour => writeln!(text, "{time},stale").unwrap(),
            Some(_) => {}
        }
    }
    text
}

/// Corrected errors at each full read of a cartridge over two years: some three a week, more and
/// more of them as the tape ages.
pub fn cartridge() -> String {
    let mut rng = Rng(31);
    let mut text = String::from("# Corrected errors at each full read of cartridge A00731.\n");
    text += "name,time,value\n";
    let mut time = MONDAY - 700 * DAY;
    while time < MONDAY {
        let age = (time - MONDAY + 700 * DAY) as f64 / (700 * DAY) as f64;
        let usual = 20.0 + 160.0 * age * age * age;
        let burst = if rng.unit() < 0.04 { 3.0 } else { 1.0 };
        let errors = (usual * burst * (1.0 + 0.25 * rng.noise())).max(0.0).round();
        writeln!(text, "A00731,{time},{errors}").unwrap();
        time += HOUR * (6 + (rng.unit() * 100.0) as i64);
    }
    text
}

/// The temperature of a vault, a reading every ten minutes for three weeks. The probe was silent
/// for eighteen hours and for two and a half days.
pub fn climate() -> String {
    let mut rng = Rng(212);
    let mut text = String::from("# Degrees Celsius in vault 2, by probe 118.\n");
    text += "time,value\n";
    for reading in 0..21 * 144 {
        let day = f64::from(reading) / 144.0;
        let degrees = 16.5
            + 0.4 * ((day - 0.6) * std::f64::consts::TAU).sin()
            + 0.05 * day
            + 0.08 * rng.noise();
        let silent = (5.25..6.0).contains(&day) || (12.9..15.4).contains(&day);
        if !silent {
            let (date, minute) = (reading / 144, reading % 144 * 10);
            writeln!(
                text,
                "2026-03-{:02}T{:02}:{:02}:00Z,{degrees:.2}",
                date + 2,
                minute / 60,
                minute % 60
            )
            .unwrap();
        }
    }
    text
}

/// The files by their names.
pub fn files() -> [(&'static str, String); 3] {
    [("drive.csv", drive()), ("cartridge.csv", cartridge()), ("climate.csv", climate())]
}

#[allow(dead_code)]
fn main() -> std::io::Result<()> {
    let folder = std::env::args().nth(1).unwrap_or("data".into());
    files()
        .into_iter()
        .try_for_each(|(name, text)| std::fs::write(format!("{folder}/{name}"), text))
}
