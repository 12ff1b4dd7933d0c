//! Times wing, sweep and faces of the proved library, and the program key, beside the same jobs in plain Rust, in one
//! process, and compares what both give. bench/run calls it: bench PROGRAM [--small]

mod both;
mod calls;
mod check;
mod crafted;
mod key;
mod program;
mod reference;
mod solids;
mod spoil;
mod times;

use both::Both;

fn main() {
    let words: Vec<String> = std::env::args().skip(1).collect();
    let (program, small) = match &words[..] {
        [word] if word == "key" => return program::reference_key(),
        [program] => (program, false),
        [program, option] if option == "--small" => (program, true),
        _ => {
            eprintln!("bench/run [--small]");
            std::process::exit(2);
        }
    };
    let mut both = Both::default();
    check::run(&mut both, if small { 5000 } else { 50000 });
    times::run(&mut both, if small { &[64, 256] } else { &[256, 1024, 4096] }, if small { 10 } else { 400 });
    crafted::run(&mut both, if small { 1 } else { 20 });
    program::run(&mut both, program, if small { 5 } else { 300 });
    println!("{} passed, {} failed", both.passed, both.failed);
    std::process::exit((both.failed > 0) as i32);
}
