//! Makes a script to measure a replay by: NODES nodes of one group, and COUNT events.
//!
//! Of 16 events five are sends, one sets a value, nine deliver one of the last eight telegrams, and one is `on`, as in the scripts of
//! `knxsec make`, but with no requests and no cuts. The same SEED makes the same script.
//!
//!     rustc -O -o make_script make_script.rs && ./make_script SEED NODES COUNT > SCRIPT

use std::env;

struct Draws(u64);

impl Draws {
    fn below(&mut self, most: u64) -> u64 {
        self.0 = self
            .0
            .wrapping_mul(6364136223846793005)
            .wrapping_add(1442695040888963407);
        (self.0 >> 33) % most
    }
}

fn main() {
    let words: Vec<u64> = env::args().skip(1).map(|word| word.parse().unwrap()).collect();
    let [seed, nodes, count] = words[..] else {
        panic!("make_script SEED NODES COUNT");
    };
    let mut draws = Draws(seed);
    println!("knx-script 1\ngroup 1/2/3 000102030405060708090a0b0c0d0e0f conf");
    for node in 1..=nodes {
        println!("role 1/2/3 1.1.{node} command");
    }
    for node in 1..=nodes {
        println!("node n{node} 1.1.{node} 1\nobject n{node} 1/2/3 rwut bits 00");
    }
    let mut sent = 0;
    for _ in 0..count {
        let kind = draws.below(16);
        let node = 1 + draws.below(nodes);
        match kind {
            0..=4 => {
                println!("send n{node} 0 write");
                sent += 1;
            }
            5 => println!("set n{node} 0 bits:{:02x}", draws.below(64)),
            6..=14 => {
                let telegram = if sent == 0 { 1 } else { sent - draws.below(sent.min(8)) };
                println!("deliver {telegram} n{node}");
            }
            _ => println!("on n{node}"),
        }
    }
}
