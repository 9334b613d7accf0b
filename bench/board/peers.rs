// What else keeps the least item of each key: a `HashMap` under one lock, by 1, 2 and 4 threads, and a `BTreeMap` on one
// thread. Each line has the peer, its threads, the items, the microseconds until all were offered and until the least
// items stood in a sorted list, the keys, and a check sum of the list.
use std::collections::{BTreeMap, HashMap};
use std::sync::Mutex;
use std::thread;
use std::time::Instant;

const ITEMS: u32 = 400_000;
const KEYS: u64 = 100_000;

fn random_tags() -> Vec<u64> {
    let mut state = 1u64;
    (0..ITEMS)
        .map(|_| {
            state = state
                .wrapping_mul(6_364_136_223_846_793_005)
                .wrapping_add(1_442_695_040_888_963_407);
            ((state >> 33) % KEYS).wrapping_mul(11_400_714_819_323_198_485)
        })
        .collect()
}

fn report(peer: &str, threads: usize, offered: u128, start: Instant, mut least: Vec<u32>) {
    least.sort_unstable();
    let closed = start.elapsed().as_micros();
    let folded = least
        .iter()
        .fold(0u64, |sum, item| sum.wrapping_mul(31).wrapping_add(u64::from(*item)));
    println!("{peer} {threads} {ITEMS} {offered} {closed} {} {folded}", least.len());
}

fn locked_map(tags: &[u64], threads: usize) {
    let start = Instant::now();
    let map = Mutex::new(HashMap::new());
    let part = tags.len() / threads;
    thread::scope(|scope| {
        for worker in 0..threads {
            let map = &map;
            scope.spawn(move || {
                for item in worker * part..(worker + 1) * part {
                    let mut map = map.lock().unwrap();
                    let least = map.entry(tags[item]).or_insert(item as u32);
                    *least = (*least).min(item as u32);
                }
            });
        }
    });
    let offered = start.elapsed().as_micros();
    let map = map.into_inner().unwrap();
    report("mutex_hash_map", threads, offered, start, map.into_values().collect());
}

fn ordered_map(tags: &[u64]) {
    let start = Instant::now();
    let mut map = BTreeMap::new();
    for (item, tag) in tags.iter().enumerate() {
        map.entry(*tag).or_insert(item as u32);
    }
    let offered = start.elapsed().as_micros();
    report("btree_map", 1, offered, start, map.into_values().collect());
}

fn main() {
    let tags = random_tags();
    for _ in 0..20 {
        for threads in [1, 2, 4] {
            locked_map(&tags, threads);
        }
        ordered_map(&tags);
    }
}
