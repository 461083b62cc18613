// The same as crates/closings in plain Rust, as one would write it: the baseline of bench/closings.
use std::{env, fs};

struct Line {
    farms: usize,
    parts: usize,
    words: Vec<u64>,
}

fn read(bytes: &[u8]) -> Line {
    let farms = u16::from_le_bytes([bytes[0], bytes[1]]) as usize;
    let parts = u16::from_le_bytes([bytes[2], bytes[3]]) as usize;
    let (from, to) = (farms.div_ceil(8), farms.div_ceil(64));
    let mut words = vec![0u64; parts * to];
    for e in 0..parts {
        for i in 0..farms {
            if bytes[4 + e * from + i / 8] >> (i % 8) & 1 == 1 {
                words[e * to + i / 64] |= 1 << (i % 64);
            }
        }
    }
    Line { farms, parts, words }
}

// Splits each part's cost: who pays an odd cent is found by selecting the lowest (count, number).
fn split(line: &Line, costs: &[u64], odd: &mut [u64], sums: &mut [u64], users: &mut Vec<(u64, usize)>) {
    let width = line.farms.div_ceil(64);
    sums.fill(0);
    for e in 0..line.parts {
        if costs[e] == 0 {
            continue;
        }
        users.clear();
        for (k, word) in line.words[e * width..(e + 1) * width].iter().enumerate() {
            let mut w = *word;
            while w != 0 {
                let i = 64 * k + w.trailing_zeros() as usize;
                users.push((odd[i], i));
                w &= w - 1;
            }
        }
        let u = users.len() as u64;
        let (base, more) = (costs[e] / u, (costs[e] % u) as usize);
        if more > 0 {
            users.select_nth_unstable(more);
        }
        for (k, (_, i)) in users.iter().enumerate() {
            let one = (k < more) as u64;
            sums[*i] += base + one;
            odd[*i] += one;
        }
    }
}

fn main() {
    let args: Vec<String> = env::args().collect();
    let line = read(&fs::read(&args[1]).unwrap());
    let count: u64 = args[2].parse().unwrap();
    let mut costs = vec![0u64; line.parts];
    let mut odd = vec![0u64; line.farms];
    let mut sums = vec![0u64; line.farms];
    let mut users = Vec::new();
    for year in 0..count {
        for (e, cost) in costs.iter_mut().enumerate() {
            *cost = 1000 + (7 * (e as u64 % 1000) + year % 1000) % 97;
        }
        split(&line, &costs, &mut odd, &mut sums, &mut users);
    }
    println!("odd cents {}", odd.iter().sum::<u64>());
    println!("cents of the last year {}", sums.iter().sum::<u64>());
}
