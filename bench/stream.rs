//! Writes a stream of papers to a file, the same one each time: `stream FILE MEGABYTES`, and prints how many papers and
//! numbers it has. Of a hundred papers about 80 are loads as `examples/old.bin` takes them, 17 are other papers, and 3 are none.

use std::env;
use std::error::Error;
use std::fs::File;
use std::io::{BufWriter, Write};

/// How many numbers a paper may have.
const MOST: usize = 1000;

/// Random numbers from a fixed seed (SplitMix64).
struct Random(u64);

impl Random {
    fn next(&mut self) -> u64 {
        self.0 = self.0.wrapping_add(0x9e37_79b9_7f4a_7c15);
        let a = (self.0 ^ (self.0 >> 30)).wrapping_mul(0xbf58_476d_1ce4_e5b9);
        let b = (a ^ (a >> 27)).wrapping_mul(0x94d0_49bb_1331_11eb);
        b ^ (b >> 31)
    }

    /// A number below `limit`.
    fn below(&mut self, limit: u64) -> u64 {
        self.next() % limit
    }

    /// True in so many of a hundred cases.
    fn in_hundred(&mut self, cases: u64) -> bool {
        self.below(100) < cases
    }
}

fn number(row: &mut Vec<u32>, n: u64) {
    row.extend([0, n as u32]);
}

/// A load: `{1: parcels, 2: [{1: weight}..], 3: licence}`, with so many goods and numbers below `limit`.
fn load(random: &mut Random, row: &mut Vec<u32>, goods: u64, limit: u64) {
    let licence = random.in_hundred(50);
    row.extend([2, if licence { 3 } else { 2 }, 1]);
    number(row, random.below(limit));
    row.extend([2, 1, goods as u32]);
    for _ in 0..goods {
        row.extend([2, 1, 1]);
        number(row, random.below(limit));
    }
    if licence {
        row.push(3);
        number(row, random.below(limit));
    }
}

/// Any paper, at most so many levels deep, with names from 1 on.
fn any(random: &mut Random, row: &mut Vec<u32>, levels: u64) {
    let shape = if levels <= 1 { 0 } else { random.below(3) };
    match shape {
        0 => number(row, random.below(150)),
        1 => {
            let count = random.below(5);
            row.extend([1, count as u32]);
            for _ in 0..count {
                any(random, row, levels - 1);
            }
        }
        _ => {
            let count = random.below(4);
            row.extend([2, count as u32]);
            for name in 1..=count {
                row.push(name as u32);
                any(random, row, levels - 1);
            }
        }
    }
}

/// A number in so many lists.
fn nested(random: &mut Random, row: &mut Vec<u32>, lists: u64) {
    for _ in 0..lists {
        row.extend([1, 1]);
    }
    number(row, random.below(150));
}

/// A load without what must be there, or with a field that has no place.
fn other_fields(random: &mut Random, row: &mut Vec<u32>) {
    if random.in_hundred(50) {
        row.extend([2, 1, 1]);
        number(row, random.below(100));
    } else {
        load(random, row, 0, 100);
        row[1] += 1;
        row.push(4);
        number(row, random.below(100));
    }
}

/// A paper that need not be a load.
fn other(random: &mut Random, row: &mut Vec<u32>) {
    match random.below(100) {
        0..=29 => load(random, row, 1, 1000),
        30..=44 => {
            let goods = 4 + random.below(5);
            load(random, row, goods, 100);
        }
        45..=49 => {
            let goods = 50 + random.below(140);
            load(random, row, goods, 100);
        }
        50..=64 => other_fields(random, row),
        65..=67 => {
            let lists = random.below(256);
            nested(random, row, lists);
        }
        _ => any(random, row, 6),
    }
}

/// Damages a paper so that it is none, or hardly ever one.
fn damage(random: &mut Random, row: &mut Vec<u32>) {
    match random.below(5) {
        0 => row.truncate(random.below(row.len() as u64) as usize),
        1 => row.push(0),
        2 => row[0] = 3,
        3 => {
            let place = random.below(row.len() as u64) as usize;
            row[place] = random.next() as u32;
        }
        _ => {
            row.clear();
            let lists = 256 + random.below(100);
            nested(random, row, lists);
        }
    }
}

/// The next paper of the stream.
fn paper(random: &mut Random, row: &mut Vec<u32>) {
    row.clear();
    match random.below(100) {
        0..=79 => {
            let goods = random.below(4);
            load(random, row, goods, 100);
        }
        80..=96 => other(random, row),
        _ => {
            load(random, row, 3, 100);
            damage(random, row);
        }
    }
    row.truncate(MOST);
}

fn main() -> Result<(), Box<dyn Error>> {
    let words: Vec<String> = env::args().skip(1).collect();
    let [path, megabytes] = words.as_slice() else {
        return Err("it takes a file and a number of megabytes".into());
    };
    let size = megabytes.parse::<u64>()? * 1_000_000;
    let mut out = BufWriter::with_capacity(1 << 16, File::create(path)?);
    let mut random = Random(2024);
    let mut row = Vec::with_capacity(2 * MOST);
    let (mut papers, mut numbers) = (0, 0);
    while 4 * (papers + numbers) < size {
        paper(&mut random, &mut row);
        out.write_all(&(row.len() as u32).to_le_bytes())?;
        for n in &row {
            out.write_all(&n.to_le_bytes())?;
        }
        papers += 1;
        numbers += row.len() as u64;
    }
    out.flush()?;
    println!("{papers} {numbers}");
    Ok(())
}
