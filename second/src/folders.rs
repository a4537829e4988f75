//! What the watch program must print, for a folder and for each folder of one.

use std::fs;
use std::io::{self, Write};
use std::path::{Path, PathBuf};

use implementation::rows::rows;
use implementation::watch::{watch, Way};

/// The three files of a folder; a missing one counts as empty.
struct Files {
    events: Vec<u8>,
    pattern: Vec<u8>,
    log: Vec<u8>,
}

impl Files {
    fn read(folder: &Path) -> Files {
        let file = |name: &str| fs::read(folder.join(name)).unwrap_or_default();
        Files { events: file("events.csv"), pattern: file("pattern.txt"), log: file("log.csv") }
    }

    /// The log up to so many rows behind its header.
    fn beginning(&self, count: usize) -> &[u8] {
        let mut reader = rows(&self.log);
        reader.nth(count);
        &self.log[..reader.offset()]
    }

    /// What the program prints for the log, or for a beginning of it.
    fn print(&self, way: Way, log: &[u8], to: impl Write) -> io::Result<()> {
        let mut out = io::BufWriter::new(to);
        watch(way, &self.events, &self.pattern, log, &mut out)?;
        out.flush()
    }

    fn printed(&self, way: Way, log: &[u8]) -> io::Result<Vec<u8>> {
        let mut printed = Vec::new();
        self.print(way, log, &mut printed)?;
        Ok(printed)
    }
}

/// Prints what the program prints for a folder.
pub fn watch_folder(way: Way, folder: &Path) -> io::Result<()> {
    let files = Files::read(folder);
    files.print(way, &files.log, io::stdout().lock())
}

/// Writes what the program prints for each folder of a folder to its file `expected`, decided by the tables.
pub fn watch_each(dir: &Path) -> io::Result<()> {
    for folder in folders_of(dir)? {
        let files = Files::read(&folder);
        fs::write(folder.join("expected"), files.printed(Way::ByTables, &files.log)?)?;
    }
    Ok(())
}

/// The same, but the first so many rows of each log are decided by the whole history; the rows behind them, if there are any, by
/// the tables, which must say the same of the first. False if they do not, the folder named. Prints how many folders the
/// history decided to their last row; it decides none whose texts are refused.
pub fn watch_each_by_history(up_to: usize, dir: &Path) -> io::Result<bool> {
    let (mut wholly, mut same) = (0, true);
    for folder in folders_of(dir)? {
        let files = Files::read(&folder);
        let beginning = files.beginning(up_to);
        let mut printed = files.printed(Way::ByHistory, beginning)?;
        if beginning.len() < files.log.len() {
            let by_tables = files.printed(Way::ByTables, &files.log)?;
            if !by_tables.starts_with(&printed) {
                eprintln!("{}: the tables and the history differ", folder.display());
                same = false;
            }
            printed = by_tables;
        } else if !printed.starts_with(b"refused ") {
            wholly += 1;
        }
        fs::write(folder.join("expected"), printed)?;
    }
    println!("{wholly} decided by the whole history");
    Ok(same)
}

fn folders_of(dir: &Path) -> io::Result<Vec<PathBuf>> {
    let mut folders = Vec::new();
    for entry in fs::read_dir(dir)? {
        let path = entry?.path();
        if path.is_dir() {
            folders.push(path);
        }
    }
    Ok(folders)
}
