//! How well the home of a window's key spreads: the probes that a key table makes for keys of several shapes, against
//! those for uniform homes; and what keys cost that all collide.
//!
//! `fold probes N` prints a line for each shape: its name, the probes an offer for it, for uniform homes, and their ratio.
//! `fold worst N` offers N different keys with one home, and prints the seconds.

use std::time::Instant;

const PRIME: u64 = 4_294_967_087;

/// Two factors, drawn from a window.
type Factors = (u64, u64);

/// A fold over the table's number and the bytes, each part closed by a 0, and its third power.
fn list_home(factor: u64, parent: u64, parts: &[&[u8]]) -> u64 {
    let mixed = |home: u64, number: u64| (home * factor + number + 1) % PRIME;
    let mut home = mixed(0, parent);
    for part in parts {
        for byte in *part {
            home = mixed(home, u64::from(*byte));
        }
        home = mixed(home, 0);
    }
    home * home % PRIME * home % PRIME
}

/// The home, as `dv_window_keys` works it out.
fn home(factors: Factors, parent: u64, parts: &[&[u8]]) -> u64 {
    list_home(factors.0, parent, parts) * PRIME + list_home(factors.1, parent, parts)
}

/// The state of a small generator of numbers (splitmix64).
fn next(state: &mut u64) -> u64 {
    *state = state.wrapping_add(0x9E37_79B9_7F4A_7C15);
    let mut z = *state;
    z = (z ^ (z >> 30)).wrapping_mul(0xBF58_476D_1CE4_E5B9);
    z = (z ^ (z >> 27)).wrapping_mul(0x94D0_49BB_1331_11EB);
    z ^ (z >> 31)
}

/// The probes of a table of so many slots a key, filled from these homes, none of which is offered twice.
fn probes(homes: &[u64]) -> f64 {
    let count = homes.len() as u64;
    let mut slots = vec![false; 3 * homes.len() + 1];
    let mut probes = 0u64;
    for home in homes {
        let mut slot = (home % (2 * count + 1)) as usize;
        probes += 1;
        while slots[slot] {
            slot += 1;
            probes += 1;
        }
        slots[slot] = true;
    }
    probes as f64 / count as f64
}

fn keys(shape: &str, count: u64) -> Vec<Vec<u8>> {
    let names = ["Anna", "Bjorn", "Chandra", "Dmitri", "Eleanor", "Farid", "Guo", "Hanna"];
    let families = ["Smith", "Garcia", "Lindqvist", "Okafor", "Tanaka", "Novak", "Rossi"];
    let mut state = 1;
    (0..count)
        .map(|i| match shape {
            "numbers" => format!("{i}"),
            "numbers of eight digits" => format!("{:08}", i),
            "every tenth number" => format!("{}", 10 * i),
            "codes" => format!("CUST-{:07}-{}", i, i % 7),
            "codes by year and branch" => format!("{}/{:03}/{:05}", 2000 + i % 25, i / 25 % 400, i / 10000),
            "hexadecimal" => format!("{:08x}", i * 2654435761 % 4294967296),
            "long names, one byte changes" => {
                let at = i % 40;
                let byte = b'a' + (i / 40 % 26) as u8;
                let mut text = format!("{:040}-{}", 0, i / 1040).into_bytes();
                text[at as usize] = byte;
                String::from_utf8(text).unwrap()
            }
            "names" => format!(
                "{} {} {}",
                names[(i % 8) as usize],
                families[(i / 8 % 7) as usize],
                i / 56
            ),
            "mail addresses" => format!("{}.{}{}@example.org", names[(i % 8) as usize], families[(i % 7) as usize], i),
            _ => format!("{:016x}{:016x}", next(&mut state), next(&mut state)),
        })
        .map(String::into_bytes)
        .collect()
}

const SHAPES: [&str; 10] = [
    "numbers",
    "numbers of eight digits",
    "every tenth number",
    "codes",
    "codes by year and branch",
    "hexadecimal",
    "long names, one byte changes",
    "names",
    "mail addresses",
    "random",
];

fn main() {
    let words: Vec<String> = std::env::args().collect();
    let count: u64 = words[2].parse().unwrap();
    let mut state = 7;
    if words[1] == "probes" {
        let uniform: Vec<u64> = (0..count).map(|_| next(&mut state)).collect();
        let uniform = probes(&uniform);
        let factors: Vec<Factors> = (0..6).map(|_| (next(&mut state) >> 32, next(&mut state) >> 32)).collect();
        for shape in SHAPES {
            let keys = keys(shape, count);
            let of = |factors: Factors| {
                let homes: Vec<u64> = keys.iter().map(|key| home(factors, 0, &[key])).collect();
                probes(&homes)
            };
            let most = factors.iter().map(|factors| of(*factors)).fold(0.0, f64::max);
            println!("{shape:30} {most:6.3} {uniform:6.3} {:5.3}", most / uniform);
        }
    } else {
        let start = Instant::now();
        let mut slots = vec![0u64; 3 * count as usize + 1];
        let keys: Vec<Vec<u8>> = (0..count).map(|i| format!("CUST-{i:07}").into_bytes()).collect();
        for (item, key) in keys.iter().enumerate() {
            let mut slot = 0;
            while slots[slot] != 0 && keys[slots[slot] as usize - 1] != *key {
                slot += 1;
            }
            slots[slot] = item as u64 + 1;
        }
        println!("{count} keys of one home: {:.2} s", start.elapsed().as_secs_f64());
    }
}
