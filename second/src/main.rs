//! The command line of the second program.
#![forbid(unsafe_code)]

mod folders;

use std::io::{self, Read, Write};
use std::path::Path;
use std::process::ExitCode;

use batches::answer::answer_batch;
use batches::recheck::recheck;
use folders::{watch_each, watch_each_by_history, watch_folder};
use implementation::watch::Way;
use makers::chosen;
use makers::random::batch::make;
use makers::random::folders::write_folders;

const USAGE: &str = "usage:
  second watch [--by-history] FOLDER   print what the watch program prints for FOLDER
  second answer                        answer the batch on standard input
  second make KIND SEED COUNT          make a random batch: texts, patterns, sessions or logs
  second folders SEED COUNT DIR        make random folders for the watch program
  second watch-each DIR                write what the program prints for each folder of DIR to its file expected
  second watch-each --by-history-up-to ROWS DIR
                                       the same, the first ROWS rows of each log decided by the whole history
  second cases DIR                     write the chosen cases
  second recheck DIR                   answer every batch of DIR again and compare";

fn main() -> ExitCode {
    let arguments: Vec<String> = std::env::args().skip(1).collect();
    let words: Vec<&str> = arguments.iter().map(String::as_str).collect();
    match command(&words) {
        Ok(true) => ExitCode::SUCCESS,
        Ok(false) => ExitCode::from(1),
        Err(error) => {
            eprintln!("second: {error}");
            ExitCode::from(2)
        }
    }
}

/// Runs a command; false if it found a difference.
fn command(words: &[&str]) -> io::Result<bool> {
    match *words {
        ["watch", folder] => watch_folder(Way::ByTables, Path::new(folder)),
        ["watch", "--by-history", folder] => watch_folder(Way::ByHistory, Path::new(folder)),
        ["answer"] => {
            let mut batch = Vec::new();
            io::stdin().lock().read_to_end(&mut batch)?;
            io::stdout().lock().write_all(&answer_batch(&batch))
        }
        ["make", kind, seed, count] => {
            let batch = make(kind, parsed(seed)?, parsed(count)?).ok_or_else(usage)?;
            io::stdout().lock().write_all(&batch)
        }
        ["folders", seed, count, dir] => write_folders(parsed(seed)?, parsed(count)?, Path::new(dir)),
        ["watch-each", dir] => watch_each(Path::new(dir)),
        ["watch-each", "--by-history-up-to", rows, dir] => {
            return watch_each_by_history(parsed(rows)?, Path::new(dir));
        }
        ["cases", dir] => chosen::write(Path::new(dir)),
        ["recheck", dir] => return recheck(Path::new(dir)),
        _ => Err(usage()),
    }?;
    Ok(true)
}

fn usage() -> io::Error {
    io::Error::new(io::ErrorKind::InvalidInput, USAGE)
}

fn parsed<T: std::str::FromStr>(word: &str) -> io::Result<T> {
    word.parse().map_err(|_| usage())
}
