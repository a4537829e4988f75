//! The commands on folders, run as they are run by hand.

use std::fs;
use std::path::{Path, PathBuf};
use std::process::Command;

/// What a command prints; it must succeed.
fn second(words: &[&str], dir: &Path) -> String {
    let output = Command::new(env!("CARGO_BIN_EXE_second")).args(words).arg(dir).output().unwrap();
    assert!(output.status.success(), "{words:?}: {}", String::from_utf8_lossy(&output.stderr));
    String::from_utf8(output.stdout).unwrap()
}

/// Every file `expected`, in the order of the folders.
fn expected(dir: &Path) -> Vec<Vec<u8>> {
    let mut folders: Vec<PathBuf> = fs::read_dir(dir).unwrap().map(|entry| entry.unwrap().path()).collect();
    folders.sort();
    folders.iter().map(|folder| fs::read(folder.join("expected")).unwrap()).collect()
}

/// Wherever the history hands over to the tables, the same is written; the more rows it decides, the more folders are its own.
#[test]
fn each_folder_both_ways() {
    let dir = Path::new(env!("CARGO_TARGET_TMPDIR")).join("folders");
    let _ = fs::remove_dir_all(&dir);
    second(&["folders", "10", "40"], &dir);
    assert_eq!(second(&["watch-each"], &dir), "");
    let by_tables = expected(&dir);
    let refused = by_tables.iter().filter(|printed| printed.starts_with(b"refused ")).count();
    let mut wholly = Vec::new();
    for rows in ["0", "1", "10", "60"] {
        let told = second(&["watch-each", "--by-history-up-to", rows], &dir);
        assert!(expected(&dir) == by_tables, "up to {rows} rows");
        wholly.push(told.strip_suffix(" decided by the whole history\n").unwrap().parse::<usize>().unwrap());
    }
    assert!(wholly.is_sorted() && wholly[0] < wholly[3], "{wholly:?}");
    assert!(wholly[3] + refused < 40, "some logs are longer");
}
