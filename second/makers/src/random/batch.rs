//! A random batch of a kind: scene after scene until there are enough requests.

use crate::random::maker::Maker;
use crate::random::{logs, patterns, sessions, texts};
use crate::request::call;

/// A random batch of so many requests of a kind; nothing for an unknown kind.
pub fn make(kind: &str, seed: u64, count: usize) -> Option<Vec<u8>> {
    let scene: fn(&mut Maker) = match kind {
        "texts" => text_scene,
        "patterns" => pattern_scene,
        "sessions" => sessions::scene,
        "logs" => logs::scene,
        _ => return None,
    };
    let mut maker = Maker::new(seed);
    while maker.count() < count {
        scene(&mut maker);
    }
    Some(maker.first(count))
}

fn text_scene(maker: &mut Maker) {
    let rng = &mut maker.rng;
    let (declared, text) = texts::declarations(rng);
    let any = if rng.chance(80) { text.clone() } else { texts::any_declarations(rng) };
    let request = match rng.below(12) {
        0..=3 => call("declarations").bytes(texts::any_declarations(rng)),
        4 => {
            let header = declared.header().into_bytes();
            let header = if rng.chance(60) { header } else { texts::damaged(rng, header) };
            call("header").bytes(any).bytes(header)
        }
        5 | 6 => {
            let row = texts::any_row(rng, &declared, 9);
            let index = if rng.chance(10) { rng.odd_long() } else { rng.below(7) as u64 };
            call("field").number(index).bytes(row)
        }
        7 => {
            let log = texts::log(rng, &declared, 3, 9);
            let offset = if rng.chance(10) { rng.odd_long() } else { rng.below(log.len() + 2) as u64 };
            call("rowat").number(offset).bytes(log)
        }
        8 => {
            let rows = rng.below(5);
            let log = texts::log(rng, &declared, rows, 9);
            call("rows").bytes(if rng.chance(30) { texts::damaged(rng, log) } else { log })
        }
        9 => {
            let number = if rng.chance(10) { rng.odd_long() } else { rng.below(7) as u64 };
            call("namebynumber").number(number).bytes(any).bytes(patterns::any_pattern(rng, &declared))
        }
        10 => {
            let pattern = patterns::any_pattern(rng, &declared);
            let offset = if rng.chance(10) { rng.odd_long() } else { rng.below(pattern.len() + 2) as u64 };
            call("namebyoffset").number(offset).bytes(any).bytes(pattern)
        }
        _ => {
            let name = rng.pick(&declared.events).0.clone().into_bytes();
            let name = if rng.chance(70) { name } else { texts::damaged(rng, name) };
            call("numberofname").bytes(any).bytes(name)
        }
    };
    maker.send(request);
}

fn pattern_scene(maker: &mut Maker) {
    let rng = &mut maker.rng;
    let (declared, text) = texts::declarations(rng);
    let text = if rng.chance(97) { text } else { texts::any_declarations(rng) };
    let request = match rng.below(10) {
        0..=4 => call("translate").bytes(text).bytes(patterns::any_pattern(rng, &declared)),
        5..=7 => {
            let pattern =
                if rng.chance(90) { patterns::pattern(rng, &declared) } else { patterns::any_pattern(rng, &declared) };
            let events = declared.events.len() + usize::from(rng.chance(3));
            let sequence: Vec<u32> = (0..rng.below(12)).map(|_| rng.below(events) as u32).collect();
            call("verdicts").bytes(text).bytes(pattern).list(&sequence)
        }
        _ => {
            let property = patterns::bare_property(rng);
            let property = if rng.chance(50) { patterns::damaged_property(rng, property) } else { property };
            call("check").property(&property)
        }
    };
    maker.send(request);
}
