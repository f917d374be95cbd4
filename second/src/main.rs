//! The comparison: the library under test, through its C functions, against
//! the second program, which is written from documents 01 and 02 alone.
//! Usage: compare LISTING_PROGRAM [SEED]

mod compare;
mod model;

const DEFAULT_SEED: u64 = 20_260_101;

fn main() {
    let arguments: Vec<String> = std::env::args().skip(1).collect();
    let (program, seed) = match program_and_seed(&arguments) {
        Some(both) => both,
        None => {
            eprintln!("usage: compare LISTING_PROGRAM [SEED]");
            std::process::exit(2);
        }
    };
    println!("seed {}", seed);
    let (passed, failed) = compare::all(seed, &program);
    println!("{} passed, {} failed", passed, failed);
    std::process::exit(if failed == 0 { 0 } else { 1 });
}

fn program_and_seed(arguments: &[String]) -> Option<(String, u64)> {
    match arguments {
        [program] => Some((program.clone(), DEFAULT_SEED)),
        [program, seed] => Some((program.clone(), seed.parse().ok()?)),
        _ => None,
    }
}
