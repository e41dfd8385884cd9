//! What the times of the coding are compared with: bytes that are copied, in plain Rust.
//! usage: copies BYTES ROUNDS

use std::hint::black_box;

fn main() {
    let words: Vec<usize> = std::env::args().skip(1).map(|word| word.parse().unwrap()).collect();
    let [bytes, rounds] = words[..] else {
        panic!("usage: copies BYTES ROUNDS");
    };
    let from = vec![7u8; bytes];
    let mut to = Vec::with_capacity(bytes);
    for _ in 0..rounds {
        to.clear();
        to.extend_from_slice(black_box(&from));
        black_box(&to);
    }
}
