//! The least that a step of any model costs that finds elements by their ids. Over Rust's own `HashMap`, an element is looked up and a text of it is
//! replaced.
//!
//! `least_step ELEMENTS` builds a map of so many elements with two texts each. It then replaces a text of 500 of them, spread over all, in three
//! rounds, and prints the time of each round in microseconds. `bench/graph` builds and runs it where `rustc` is installed.
use std::collections::HashMap;
use std::time::Instant;

const STEPS: usize = 500;

struct Element {
    rank: u64,
    texts: Vec<String>,
}

fn main() {
    let words: Vec<String> = std::env::args().collect();
    let elements: usize = words[1].parse().expect("a number of elements");
    let mut model = HashMap::new();
    for number in 0..elements {
        let texts = vec![format!("label {number}"), format!("text of {number}")];
        model.insert(format!("e{number}"), Element { rank: number as u64, texts });
    }
    let apart = (elements - 2) / STEPS;
    for round in 0..3 {
        let ids: Vec<String> = (0..STEPS).map(|turn| format!("e{}", turn * apart + 2)).collect();
        let start = Instant::now();
        for id in &ids {
            let element = model.get_mut(id.as_str()).expect("an element");
            element.texts[0] = String::from("another label");
            element.rank += round;
        }
        println!("Least: {STEPS} steps\n{} us", start.elapsed().as_micros());
    }
}
