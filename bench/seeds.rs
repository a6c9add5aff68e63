// The seeds of the same families in plain Rust.
// Without an argument it prints seeds of all families; with the name of one, how many lines it has, how many checks they took, and the longest time of one seed.
mod search;

use search::{Halved, Line, MOST_LINES, Search, halve};
use std::time::{Duration, Instant};

fn two(a: u32, b: u32) -> u32 {
    1 << (a - 1) | 1 << (b - 1)
}

fn three(a: u32, b: u32, c: u32) -> u32 {
    two(a, b) | 1 << (c - 1)
}

fn pairs(first: u32, count: u32) -> Vec<u32> {
    (0..count).map(|i| two(first + 2 * i, first + 2 * i + 1)).collect()
}

fn plane(first: u32) -> Vec<u32> {
    (0..7).map(|i| three(first + i, first + (i + 1) % 7, first + (i + 3) % 7)).collect()
}

fn family(name: &str) -> Vec<u32> {
    match name {
        "pairs-last" => pairs(15, 9),
        "pairs-first" => pairs(1, 9),
        "nested" => (1..=9).map(|i| two(i, 33 - i)).collect(),
        "triples" => (0..5).map(|i| three(18 + 3 * i, 19 + 3 * i, 20 + 3 * i)).collect(),
        "planes" => [plane(12), plane(19), plane(26)].concat(),
        "star" => [(1..=13).map(|i| two(i, 32)).collect(), pairs(14, 7)].concat(),
        "rings" => (0..4).map(|i| 0xff << (8 * i)).collect(),
        "pool" => [(1..=28).map(|i| two(i, 29 + i % 4)).collect(), vec![two(29, 30), two(29, 31), two(29, 32), two(30, 31), two(30, 32), two(31, 32)]].concat(),
        _ => panic!("no family {name}"),
    }
}

fn shown(set: u32) -> String {
    let requests: Vec<String> = (0..32).filter(|i| set >> i & 1 == 1).map(|i| (i + 1).to_string()).collect();
    if requests.is_empty() { "-".to_string() } else { requests.join(",") }
}

// The seeds of a family with its minimal conflicts listed, each listed in turn as a relaxation: the first two, and the last.
fn given(name: &str) {
    let mut search = Search::new();
    let mut lines: Vec<Line> = family(name).into_iter().map(Line::Conflict).collect();
    println!("family={name}");
    let mut last = None;
    let mut count = 0;
    while let Some(seed) = search.seed(32, &lines) {
        if lines.len() >= MOST_LINES {
            break;
        }
        lines.push(Line::Relaxation(seed));
        if count < 2 {
            println!("seed={}", shown(seed));
        }
        count += 1;
        last = Some((count, seed));
    }
    if let Some((seeds, seed)) = last {
        println!("last={}\nseeds={seeds}", shown(seed));
    }
}

const FAMILIES: [&str; 8] = ["pairs-last", "pairs-first", "nested", "triples", "planes", "star", "rings", "pool"];

fn main() {
    let Some(name) = std::env::args().nth(1) else {
        return FAMILIES.iter().for_each(|name| given(name));
    };
    let conflicts = family(&name);
    let mut search = Search::new();
    let mut lines: Vec<Line> = Vec::with_capacity(MOST_LINES);
    let mut answers: Vec<bool> = Vec::with_capacity(64);
    let mut checks = 1;
    let mut worst = Duration::ZERO;
    let fit = |set: u32| !conflicts.iter().any(|c| c & !set == 0);
    loop {
        let start = Instant::now();
        let seed = search.seed(32, &lines);
        worst = worst.max(start.elapsed());
        let Some(seed) = seed else { break };
        if lines.len() >= MOST_LINES {
            break;
        }
        checks += 1;
        if fit(seed) {
            lines.push(Line::Relaxation(seed));
            continue;
        }
        answers.clear();
        let result = loop {
            match halve(0, 0, seed, &answers) {
                Halved::Ends(set, _) => break set,
                Halved::Asks(set) => {
                    checks += 1;
                    answers.push(fit(set));
                }
            }
        };
        lines.push(Line::Conflict(result));
    }
    println!("family={name}\nlines={}\nchecks={checks}\nlongest={}", lines.len(), worst.as_micros());
}
