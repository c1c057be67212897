//! The library `strsim`, as far as the sources use it.

use crate::prelude::{AllocError, Global};

/// How many letters are added, left out, changed, or swapped with the next to make one text of another.
pub fn damerau_levenshtein(_: Global, from: &str, to: &str) -> Result<usize, AllocError> {
    let (from, to): (std::vec::Vec<char>, std::vec::Vec<char>) = (from.chars().collect(), to.chars().collect());
    let far = from.len() + to.len();
    // Row and column 0 are for what lies before both texts.
    let mut edits = std::vec![std::vec![far; to.len() + 2]; from.len() + 2];
    let mut rows = std::collections::HashMap::new();
    for i in 0..=from.len() {
        edits[i + 1][1] = i;
    }
    for j in 0..=to.len() {
        edits[1][j + 1] = j;
    }
    for i in 1..=from.len() {
        let mut column = 0;
        for j in 1..=to.len() {
            let row = *rows.get(&to[j - 1]).unwrap_or(&0);
            let same = from[i - 1] == to[j - 1];
            let swapped = edits[row][column] + (i - row - 1) + 1 + (j - column - 1);
            let changed = edits[i][j] + usize::from(!same);
            edits[i + 1][j + 1] = changed.min(edits[i + 1][j] + 1).min(edits[i][j + 1] + 1).min(swapped);
            if same {
                column = j;
            }
        }
        rows.insert(from[i - 1], i);
    }
    Ok(edits[from.len() + 1][to.len() + 1])
}
