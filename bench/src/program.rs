//! The program key beside the reference as a program, on files of about 20 KB, one of each version.

use crate::both::Both;
use crate::key;
use std::io::{Read, Write};
use std::process::{Command, Stdio};
use std::time::Instant;

/// What a program prints for an input, and the microseconds of the whole run.
fn timed(words: &[String], input: &[u8]) -> (Vec<u8>, f64) {
    let start = Instant::now();
    let mut child = Command::new(&words[0]).args(&words[1..]).stdin(Stdio::piped()).stdout(Stdio::piped()).spawn().expect("the program starts");
    child.stdin.take().unwrap().write_all(input).expect("the program reads");
    let text = child.wait_with_output().expect("the program ends").stdout;
    (text, start.elapsed().as_secs_f64() * 1e6)
}

/// The least times of both programs on an input, in turns; what they print is compared.
fn least(both: &mut Both, programs: [&[String]; 2], input: &[u8], rounds: usize) -> [f64; 2] {
    let [a, b] = programs.map(|words| timed(words, input).0);
    both.count(a == b && !a.is_empty(), || format!("the key of {} bytes", input.len()));
    let mut least = [f64::INFINITY; 2];
    for _ in 0..rounds {
        for (time, words) in least.iter_mut().zip(programs) {
            *time = time.min(timed(words, input).1);
        }
    }
    least
}

/// Times both; what an empty input costs is the start of a process.
pub fn run(both: &mut Both, program: &str, rounds: usize) {
    let ours = vec![program.to_string()];
    let plain = vec![std::env::current_exe().unwrap().display().to_string(), "key".to_string()];
    println!("\nmicroseconds of the program key, least of {rounds} rounds in turns");
    println!("{:36}    library reference   ratio", "");
    let [x, y] = least(both, [&ours, &plain], b"", rounds);
    println!("{:36}{x:11.0}{y:10.0}", "an empty file");
    for version in [1, 2] {
        let file = key::sample(version);
        let [a, b] = least(both, [&ours, &plain], &file, rounds);
        println!("{:36}{a:11.0}{b:10.0}{:8.2}", format!("version {version}, a file of {} bytes", file.len()), a / b);
        println!("{:36}{:11.0}{:10.0}{:8.2}", "its own work: less the empty file", a - x, b - y, (a - x) / (b - y));
    }
}

/// The reference as a program: standard input to standard output.
pub fn reference_key() {
    let mut data = Vec::new();
    std::io::stdin().read_to_end(&mut data).unwrap();
    let text = if data.is_empty() { b"refused 1\n".to_vec() } else { key::key(&data) };
    std::io::stdout().write_all(&text).unwrap();
}
