//! Prints the bytes of stack that calls use: fresh state, rows of the benchmark, generated streams, the writer, pairs
//! of templates.
//!
//!     stack [STREAMS]

use harness::measured::{fresh, generated, meetings, rows, writer};

fn main() {
    let streams = std::env::args().nth(1).and_then(|word| word.parse().ok()).unwrap_or(1_000);
    println!("{:6}  fresh state", fresh());
    for (name, used) in rows() {
        println!("{used:6}  {name}");
    }
    println!("{:6}  most of {streams} generated streams", generated(1, streams));
    println!("{:6}  most of {} chains of the writer", writer(1, streams / 10), streams / 10);
    println!("{:6}  most of {streams} pairs of templates", meetings(1, streams));
}
