//! Drives the proved library and the programs, and compares each answer, each row and each line with an implementation of our own. It was
//! written from docs/FORMATS.md and shares no code with the library. The first difference ends it with status 1.
//!
//! Usage: drive BIN-FOLDER [SEED], where the folder has the programs.

mod adversary;
mod boundary;
mod caches;
mod challenges;
mod programs;
mod random;
mod reports;
mod rows;
mod tally;

use programs::Programs;
use random::Random;
use std::path::Path;
use tally::Tally;

fn main() {
    let words: Vec<String> = std::env::args().collect();
    let bin = Path::new(words.get(1).expect("the folder of the programs"));
    let seed = words.get(2).map_or(1, |word| word.parse().expect("the seed is a number"));
    std::panic::set_hook(Box::new(move |info| {
        eprintln!("tests/run: with seed {seed}, {info}");
        std::process::exit(1);
    }));
    let mut tally = Tally::default();
    rows::run(&mut Random::new(seed), &mut tally);
    reports::run(&mut Random::new(seed), &mut tally);
    challenges::run(&mut Random::new(seed), &mut tally);
    let programs = Programs::new(bin);
    programs::run(&mut Random::new(seed), &mut tally, &programs);
    tally.print();
    println!("tests/run: {} calls of the library and {} runs of the programs, all as expected, with seed {seed}", boundary::answers(), programs.runs());
}
