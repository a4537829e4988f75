//! The chosen cases: batches for every refusal and both sides of every boundary of document 01,
//! and a modest random share. `write` lays them down.

use std::fs;
use std::io;
use std::path::Path;

use crate::random::batch::make;
use crate::request::Request;
use batches::answer::answer_batch;

pub mod broken;
pub mod declarations;
pub mod edges;
pub mod logs;
pub mod patterns;
pub mod properties;
pub mod rooms;
pub mod sessions;
pub mod texts;
pub mod watch;

/// The document's example.
pub const EVENTS: &[u8] = b"event,bay,batch\r\nmix,0,1\r\nfeed,1,1\r\ndrain,1,0\r\n";
pub const PATTERN: &[u8] = b"ere : mix feed+ drain @match";
pub const HEADER: &[u8] = b"event,bay,batch\r\n";
pub const ROWS: &[u8] = b"mix,,7\r\nfeed,1,7\r\ndrain,2,\r\nfeed,2,7\r\ndrain,1,\r\ndrain,2,\r\n";

/// A batch of requests under a kind and a name.
pub struct Case {
    pub kind: &'static str,
    pub name: &'static str,
    pub batch: Vec<u8>,
}

/// A case of these requests.
pub fn case(kind: &'static str, name: &'static str, requests: Vec<Request>) -> Case {
    Case { kind, name, batch: requests.into_iter().flat_map(Request::line).collect() }
}

/// Random batches beside the chosen ones: kind, seed, requests.
const RANDOM: [(&str, u64, usize); 4] =
    [("texts", 1, 400), ("patterns", 2, 400), ("sessions", 3, 600), ("logs", 4, 500)];

/// Every case.
pub fn all() -> Vec<Case> {
    let mut cases = [
        declarations::cases(),
        texts::cases(),
        patterns::cases(),
        sessions::cases(),
        broken::cases(),
        rooms::cases(),
        logs::cases(),
        watch::cases(),
        edges::cases(),
    ]
    .into_iter()
    .flatten()
    .collect::<Vec<Case>>();
    let random = RANDOM
        .iter()
        .filter_map(|&(kind, seed, count)| make(kind, seed, count).map(|batch| Case { kind, name: "random", batch }));
    cases.extend(random);
    cases
}

/// Writes DIR/KIND/NAME.batch and NAME.answers for every case.
pub fn write(dir: &Path) -> io::Result<()> {
    for case in all() {
        let folder = dir.join(case.kind);
        fs::create_dir_all(&folder)?;
        fs::write(folder.join(format!("{}.batch", case.name)), &case.batch)?;
        fs::write(folder.join(format!("{}.answers", case.name)), answer_batch(&case.batch))?;
    }
    Ok(())
}
