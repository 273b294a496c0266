// What `tool_region` does, with `Vec` and `HashMap` of plain Rust.
use std::collections::HashMap;
use std::hash::{BuildHasher, BuildHasherDefault, Hasher, RandomState};

struct Region {
    items: Vec<u64>,
    ends: Vec<usize>,
}

fn key_of(i: u32) -> (u32, u32, u32) {
    (i % 61, i / 61, i)
}

fn main() {
    let args: Vec<String> = std::env::args().collect();
    let count: u32 = args[3].parse().unwrap();
    match args[1].as_str() {
        "region" => {
            let mut region = Region { items: Vec::new(), ends: Vec::new() };
            for i in 0..count {
                let word = u64::from(i);
                region.items.extend_from_slice(&[word, word ^ 1, word ^ 2, word ^ 3]);
                region.ends.push(region.items.len());
            }
            println!("runs {}", region.ends.len());
        }
        "folded" => remember::<BuildHasherDefault<Folded>>(count),
        _ => remember::<RandomState>(count),
    }
}

fn remember<S: BuildHasher + Default>(count: u32) {
    let mut memo: HashMap<(u32, u32, u32), Option<u32>, S> = HashMap::default();
    for i in 0..count {
        let key = key_of(i);
        if !memo.contains_key(&key) {
            memo.insert(key, Some(i));
        }
    }
    let found = (0..count).filter(|i| memo.get(&key_of(*i)).is_some()).count();
    println!("entries {} found {found}", memo.len());
}

// A quick hasher, which anyone can foresee.
#[derive(Default)]
struct Folded(u64);

impl Hasher for Folded {
    fn write(&mut self, bytes: &[u8]) {
        bytes.iter().for_each(|byte| self.write_u32(u32::from(*byte)));
    }

    fn write_u32(&mut self, number: u32) {
        let product = u128::from(self.0 ^ u64::from(number)) * 11400714819323198485;
        self.0 = product as u64 ^ (product >> 64) as u64;
    }

    fn finish(&self) -> u64 {
        self.0
    }
}
