//! `price --fee N --before N` without proofs, as a baseline: fields are split at commas.
use std::io::{Read, Write};

fn main() {
    let words: Vec<u64> = std::env::args().skip(1).map(|word| word.parse().unwrap()).collect();
    let (fee, rate) = (words[0], words[1]);
    let mut input = String::new();
    std::io::stdin().read_to_string(&mut input).unwrap();
    let mut text = String::new();
    let mut last = 0;
    for line in input.lines().skip(1) {
        let (before, _after) = line.split_once(',').unwrap();
        let before: u64 = before.parse().unwrap();
        let total = if before == 0 { 0 } else { fee + (before * rate).div_ceil(600) };
        text += &format!("debit {} total {total}\n", total - last);
        last = total;
    }
    text += &format!("total {last}\n");
    std::io::stdout().write_all(text.as_bytes()).unwrap();
}
