//! Runs the library beside the Rust that it was ported from: `docs/src` of the papers, unchanged, is the oracle. Arguments: a seed, a number
//! of rounds, and how often each answer, class, version and edition must have been met. The run ends with status 1 at the first difference, or
//! where something was not met often enough.
#![allow(dead_code, unused_imports)]
mod bytes;
mod compare;
mod convert;
mod counts;
mod datatype;
mod display;
mod duplicates;
mod error;
mod flat;
mod generate;
mod join;
mod message_type;
mod walk;

fn main() {
    let argument = |n: usize, default: u64| std::env::args().nth(n).and_then(|s| s.parse().ok()).unwrap_or(default);
    let (seed, rounds, least) = (argument(1, 1), argument(2, 6000), argument(3, 50));
    let mut counts = counts::Counts::new();
    generate::run(seed, rounds, &mut counts);
    counts.print();
    let [rust, walk, out] = [counts.compared, counts.walked, counts.left_out].map(|by_call| by_call.iter().sum::<u64>());
    println!("beside the Rust: seed {seed}, {rust} compared with the Rust, {walk} with the walk, {out} left out, no difference");
    let lacking = counts.lacking(least);
    for line in &lacking {
        println!("met too rarely: {line}");
    }
    std::process::exit(i32::from(!lacking.is_empty()));
}
