// What `tool_region maps` does, with plain Rust's `HashMap`.
use std::collections::HashMap;

type Key = (u32, u32, u32);

const OF_FROM: u64 = 11400714819323198485;
const OF_TO: u64 = 14686920831342365939;
const OF_RULE: u64 = 14029467366897019727;

struct Draw(u64);

impl Draw {
    fn next(&mut self) -> u32 {
        self.0 = self.0.wrapping_mul(6364136223846793005).wrapping_add(1442695040888963407);
        (self.0 >> 33) as u32
    }

    fn key(&mut self) -> Key {
        let rule = self.next() % 3;
        let mut from = self.next() % 4096 * 65536;
        let to = from + self.next() % 64 * 65536;
        while high((rule, from, to)) >= 1 << 26 {
            from += 8;
        }
        (rule, from, to)
    }
}

fn high((rule, from, to): Key) -> u64 {
    let of = |number: u32, factor: u64| u64::from(number).wrapping_mul(factor);
    of(from / 8, OF_FROM).wrapping_add(of(to / 8, OF_TO)).wrapping_add(of(rule, OF_RULE)) >> 32
}

// The entries where `with` bytes come in place of those from `from` to `to`.
fn moved(old: &HashMap<Key, Option<u32>>, from: u32, to: u32, with: u32) -> HashMap<Key, Option<u32>> {
    let mut new: HashMap<_, _> = old.iter().filter(|(key, _)| key.2 <= from).map(|(key, entry)| (*key, *entry)).collect();
    for ((rule, start, end), entry) in old {
        if *end > from && *start >= to && start <= end {
            new.entry((*rule, start - (to - from) + with, end - (to - from) + with)).or_insert(*entry);
        }
    }
    new
}

fn main() {
    let args: Vec<String> = std::env::args().collect();
    let (seed, count): (u64, u32) = (args[1].parse().unwrap(), args[2].parse().unwrap());
    let mut map: HashMap<Key, Option<u32>> = HashMap::new();
    let (mut draw, mut sum) = (Draw(seed), 0u64);
    for i in 0..count {
        let key = draw.key();
        if i % 200_000 == 199_999 {
            map = moved(&map, 1 << 27, (1 << 27) + 64, 4160);
        }
        match draw.next() % 4 {
            0 => drop(map.insert(key, None)),
            1 => drop(map.insert(key, Some(i))),
            _ => {
                let code = match map.get(&key) {
                    None => 1,
                    Some(None) => 2,
                    Some(Some(place)) => u64::from(*place) + 3,
                };
                sum = sum.wrapping_mul(31).wrapping_add(code);
            }
        }
    }
    println!("entries {} sum {sum}", map.len());
}
