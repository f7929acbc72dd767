//! Compares Lichenstitch with the Rust. Run by ../compare and ../vectors.
//!
//! driver SUBJECT OURS SEED COUNT   SUBJECT: words, blocks, runs, checks, files, compiles. OURS: the program made of ours/ours.c and the static
//! library
//! driver bench OURS [PART]         times both sides; PART: checks, files or compiles alone
//! driver vectors SUBJECT           prints vectors with the Rust's answers
mod allocation;
mod bench;
mod bench_files;
mod blocks;
mod check_cases;
mod checker;
mod checks;
mod compile_blocks;
mod compile_cases;
mod compile_vectors;
mod compiles;
mod file_cases;
mod file_shrink;
mod files;
mod filing;
mod generate;
mod house;
mod lowering;
mod ours;
mod playing;
mod random;
mod refusals;
mod runs;
mod shrink;
mod spans;
mod vectors;
mod words;

use ours::Ours;

fn main() {
    let arguments: Vec<String> = std::env::args().skip(1).collect();
    let arguments: Vec<&str> = arguments.iter().map(String::as_str).collect();
    match arguments[..] {
        [subject @ ("words" | "blocks" | "runs" | "checks" | "files" | "compiles"), program, seed, count] => {
            let (seed, count) = (number(seed), number(count));
            let mut ours = Ours::start(program);
            let outcome = match subject {
                "words" => words::compare(&mut ours, seed, count),
                "blocks" => blocks::compare(&mut ours, seed, count),
                "runs" => runs::compare(&mut ours, seed, count),
                "checks" => checks::compare(&mut ours, seed, count),
                "files" => files::compare(&mut ours, seed, count),
                _ => compiles::compare(&mut ours, seed, count),
            };
            report(subject, seed, outcome);
        }
        ["bench", program] => bench::run(&mut Ours::start(program)),
        ["bench", program, "checks"] => bench::run_checks(&mut Ours::start(program)),
        ["bench", program, "files"] => bench_files::run(&mut Ours::start(program)),
        ["bench", program, "compiles"] => bench::run_compiles(&mut Ours::start(program)),
        ["vectors", "words"] => print!("{}", vectors::words()),
        ["vectors", "blocks"] => print!("{}", vectors::blocks()),
        ["vectors", "compiles"] => print!("{}", compile_vectors::compiles()),
        _ => panic!("usage: driver words|blocks|runs|checks|files|compiles OURS SEED COUNT, driver bench OURS [checks|files|compiles], driver vectors words|blocks|compiles"),
    }
}

fn number(text: &str) -> u64 {
    text.parse().unwrap_or_else(|_| panic!("{text} is not a number"))
}

fn report(subject: &str, seed: u64, outcome: Result<(), String>) {
    if let Err(difference) = outcome {
        println!("{subject}: DIFFERENCE, seed {seed}\n{difference}");
        std::process::exit(1);
    }
}
