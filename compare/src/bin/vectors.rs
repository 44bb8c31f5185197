//! `vectors NAME [SEED]` writes the list NAME to standard output; `vectors --all DIR` writes every
//! list, with seed 1, to DIR/NAME.txt.

use std::process::exit;

use compare::{judge, lists};

fn main() {
    judge::quiet();
    let words: Vec<String> = std::env::args().skip(1).collect();
    match words.iter().map(String::as_str).collect::<Vec<_>>()[..] {
        ["--all", dir] => {
            for maker in lists::MAKERS {
                let list = lists::text(maker.name, 1).unwrap();
                let path = format!("{dir}/{}.txt", maker.name);
                std::fs::write(&path, &list.text).unwrap();
                println!("{path}: {} cases, {} bytes", list.cases, list.text.len());
            }
        }
        [name] => print_list(name, 1),
        [name, seed] => print_list(name, seed.parse().unwrap_or_else(|_| usage())),
        _ => usage(),
    }
}

fn print_list(name: &str, seed: u64) {
    let list = lists::text(name, seed).unwrap_or_else(|| usage());
    print!("{}", list.text);
}

fn usage() -> ! {
    let names: Vec<&str> = lists::MAKERS.iter().map(|maker| maker.name).collect();
    eprintln!("vectors NAME [SEED] | vectors --all DIR; NAME is one of: {}", names.join(", "));
    exit(2)
}
