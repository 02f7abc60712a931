//! Times the original's load of each object, which patches too: the best of N times, in nanoseconds, and their sum.
//!
//!   original N FILE...
//!
//! To build: as core/examples/original.rs of williballenthin/lancelot at commit 9de1820bf3, `cargo build --release --example original`.
use std::time::Instant;

fn main() {
    let mut words = std::env::args().skip(1);
    let n: u32 = words.next().expect("use: original N FILE...").parse().expect("a number");
    let mut sum: u128 = 0;
    for path in words {
        let file = std::fs::read(&path).expect("a file");
        let mut best = u128::MAX;
        for _ in 0..n {
            let start = Instant::now();
            let module = lancelot::loader::coff::COFF::from_bytes(&file);
            best = best.min(start.elapsed().as_nanos());
            if module.is_err() {
                best = 0;
            }
        }
        println!("original {best}  {path}");
        sum += best;
    }
    println!("sum original {sum}");
}
