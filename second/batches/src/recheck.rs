//! Stored batches, answered again and compared with the answers beside them.

use std::fs;
use std::io;
use std::path::{Path, PathBuf};

use crate::answer::answer_batch;

/// Answers every batch under DIR again; false, and the first differing line named, where one differs.
pub fn recheck(dir: &Path) -> io::Result<bool> {
    let mut batches = Vec::new();
    find_batches(dir, &mut batches)?;
    batches.sort();
    let mut same = true;
    for path in &batches {
        let wanted = fs::read(path.with_extension("answers")).unwrap_or_default();
        let answers = answer_batch(&fs::read(path)?);
        if answers != wanted {
            println!("{}: line {} differs", path.display(), first_difference(&answers, &wanted));
            same = false;
        }
    }
    println!("{} batches, {}", batches.len(), if same { "all as written" } else { "some differ" });
    Ok(same && !batches.is_empty())
}

fn find_batches(dir: &Path, found: &mut Vec<PathBuf>) -> io::Result<()> {
    for entry in fs::read_dir(dir)? {
        let path = entry?.path();
        if path.is_dir() {
            find_batches(&path, found)?;
        } else if path.extension().is_some_and(|extension| extension == "batch") {
            found.push(path);
        }
    }
    Ok(())
}

/// The number of the first line, from 1, at which two texts differ.
fn first_difference(a: &[u8], b: &[u8]) -> usize {
    let (mut a, mut b) = (a.split(|&byte| byte == b'\n'), b.split(|&byte| byte == b'\n'));
    let mut line = 1;
    while let (Some(x), Some(y)) = (a.next(), b.next()) {
        if x != y {
            break;
        }
        line += 1;
    }
    line
}
