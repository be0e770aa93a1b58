//! Counts the words of the standard input, and prints the most frequent ones.

use std::collections::HashMap;
use std::io::{self, Read};

fn main() -> io::Result<()> {
    let mut text = String::new();
    io::stdin().read_to_string(&mut text)?;
    let mut counts: HashMap<&str, u32> = HashMap::new();
    text.split_whitespace().for_each(|word| *counts.entry(word).or_default() += 1);
    let mut counts: Vec<_> = counts.into_iter().collect();
    counts.sort_by(|a, b| b.1.cmp(&a.1).then(a.0.cmp(b.0)));
    counts.iter().take(20).for_each(|(word, count)| println!("{count:>6} {word}"));
    println!("{:?}: {} words, {} of them different", std::env::args().skip(1).collect::<Vec<_>>(), text.split_whitespace().count(), counts.len());
    Ok(())
}
