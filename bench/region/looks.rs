// How many rows a look at the memo passes, for keys on standard input, a line each of rule, from and to: what `ipg_memo` does, in plain
// Rust. Each key is put, and then each is looked up.
use std::io::{BufRead, stdin};

type Key = (u32, u32, u32);

struct Index {
    heads: u32,
    cells: Vec<Option<usize>>,
    below: Vec<Option<usize>>,
}

fn mixed((rule, from, to): Key) -> u128 {
    let of = |number: u32, factor: u128| u128::from(number) * factor;
    of(from / 8, 11400714819323198485) + of(to / 8, 14686920831342365939) + of(rule, 14029467366897019727)
}

fn side((rule, from, to): Key, bit: u32) -> usize {
    ((rule >> bit & 1) * 4 + (from >> bit & 1) * 2 + (to >> bit & 1)) as usize
}

impl Index {
    fn over(rows: &[Key], heads: u32) -> Index {
        let mut index = Index { heads, cells: vec![None; heads as usize], below: Vec::new() };
        for row in 0..rows.len() {
            index.put(rows, row);
        }
        index
    }

    fn home(&self, key: Key) -> usize {
        let high = (mixed(key) >> 32) as u32;
        let line = (u64::from(high) * u64::from(self.heads / 16)) >> 32;
        let slot = (u128::from(key.1) + 2 * u128::from(key.2) + (mixed(key) >> 12)) % 16;
        (line * 16) as usize + slot as usize
    }

    // How many rows the way of a key passes, and where it ends: at its row, or at a cell that can name it.
    fn passed(&mut self, rows: &[Key], key: Key) -> (u32, Result<usize, usize>) {
        let mut cell = self.home(key);
        for bit in 0.. {
            let Some(row) = self.cells[cell] else { return (bit, Err(cell)) };
            if rows[row] == key {
                return (bit + 1, Ok(row));
            }
            let begin = *self.below[row].get_or_insert_with(|| {
                self.cells.resize(self.cells.len() + 8, None);
                self.cells.len() - 8
            });
            cell = begin + side(key, bit);
        }
        unreachable!()
    }

    fn put(&mut self, rows: &[Key], row: usize) {
        if let (_, Err(cell)) = self.passed(rows, rows[row]) {
            self.cells[cell] = Some(row);
        }
        self.below.push(None);
    }
}

fn main() {
    let mut rows: Vec<Key> = Vec::new();
    let mut index = Index::over(&rows, 16);
    for line in stdin().lock().lines() {
        let line = line.unwrap();
        let numbers: Vec<u32> = line.split(' ').map(|word| word.parse().unwrap()).collect();
        let key = (numbers[0], numbers[1], numbers[2]);
        if rows.len() >= index.heads as usize {
            index = Index::over(&rows, index.heads * 4);
        }
        if index.passed(&rows, key).1.is_err() {
            rows.push(key);
            index.put(&rows, rows.len() - 1);
        }
    }
    let passed: Vec<u32> = rows.clone().iter().map(|key| index.passed(&rows, *key).0).collect();
    let all: u64 = passed.iter().map(|rows| u64::from(*rows)).sum();
    println!("{} entries: {:.1} rows on average, {} at most", rows.len(), all as f64 / rows.len() as f64, passed.iter().max().unwrap());
}
