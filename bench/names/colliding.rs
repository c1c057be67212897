//! Prints `COUNT` rows of two names, by a fixed seed. The first names of all rows collide under the hasher of the
//! standard library without a salt. `indexmap` folds their hashes to 32 bits, of which the 8 lowest and the 8 highest
//! are the same. So they look for one group of its table, and only a comparison of their texts can distinguish them.
//! They are found by trying one name after another, some 65,536 for each. The second name of a row is the one tried
//! behind the first.

use std::collections::hash_map::DefaultHasher;
use std::hash::{Hash, Hasher};

/// The number of the first name that is tried.
const SEED: u64 = 0x2_0000_0000;

fn name(number: u64) -> String {
    format!("N{number:09x}")
}

/// The bits of a name's hash that choose its group, among 256 of them, and its tag.
fn place(name: &str) -> u32 {
    let mut hasher = DefaultHasher::new();
    name.hash(&mut hasher);
    let hash = hasher.finish();
    let folded = (hash ^ (hash >> 32)) as u32;
    folded & 0xff00_00ff
}

fn main() {
    let count = std::env::args().nth(1).expect("COUNT").parse().expect("a number");
    let wanted = place(&name(SEED));
    (SEED..)
        .filter(|&number| place(&name(number)) == wanted)
        .take(count)
        .for_each(|number| println!("{},{}", name(number), name(number + 1)));
}
