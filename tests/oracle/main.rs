//! The original `cfg.rs`, compiled unchanged, behind a small command line.
//! See tests/README.md for the commands and the framing.

#[path = "../../../shared/docs/src/crates/core/src/cfg.rs"]
mod cfg;

mod collide;
mod damage;
mod directed;
mod frames;
mod framing;
mod generate;
mod limits;
mod listing;
mod lower;
mod print;
mod random;
mod stand_ins;
mod stats;

// `cfg.rs` names these from the crate's root.
use stand_ins::{analysis, ast, for_next_runtime, ir};

use listing::Listing;
use random::Random;

const USAGE: &str = "usage: oracle graph|frames [--salt N] | graph --long | stats | collisions
       oracle gen small|medium|limit|damaged|directed|collide SEED COUNT";

fn main() {
    let args: Vec<String> = std::env::args().skip(1).collect();
    let words: Vec<&str> = args.iter().map(String::as_str).collect();
    match words[..] {
        ["graph"] => answer_each(|l| print::graph(l, 0)),
        ["graph", "--long"] => answer_read(listing::read_long, |l| print::graph(l, 0)),
        ["graph", "--salt", n] => answer_each(|l| print::graph(l, number(n))),
        ["frames"] => answer_each(|l| frames::answers(l, 0)),
        ["frames", "--salt", n] => answer_each(|l| frames::answers(l, number(n))),
        ["stats"] => stats::report(&framing::read_all()),
        ["collisions"] => collide::report(),
        ["gen", kind, seed, count] => generate_texts(kind, number(seed), number(count)),
        _ => fail(USAGE),
    }
}

/// Reads framed texts and writes one framed answer for each.
/// A text that is no listing gets `(unread ROW)`: the refusals are not this program's work.
fn answer_each(answer: impl Fn(&Listing) -> String) {
    answer_read(listing::read, answer)
}

fn answer_read(read: fn(&[u8]) -> Result<Listing, usize>, answer: impl Fn(&Listing) -> String) {
    let answers = framing::read_all().into_iter().map(|text| match read(&text) {
        Ok(found) => answer(&found).into_bytes(),
        Err(row) => format!("(unread {row})\n").into_bytes(),
    });
    framing::write_all(answers);
}

/// `directed` and `limit` are fixed lists first; `limit` goes on with seeded variants.
fn generate_texts(kind: &str, seed: u64, count: u64) {
    let mut random = Random::new(seed);
    let mut make: Box<dyn FnMut(u64) -> Vec<u8>> = match kind {
        "small" => Box::new(|_| generate::small(&mut random).text()),
        "medium" => Box::new(|_| generate::medium(&mut random).text()),
        "damaged" => Box::new(|_| damage::damaged(&mut random)),
        "limit" => Box::new(|i| limits::listing_text(i, &mut random)),
        "directed" => return framing::write_all(directed::texts().into_iter()),
        "collide" => return framing::write_all(collide::texts().into_iter()),
        _ => fail(USAGE),
    };
    framing::write_all((0..count).map(|i| make(i)));
}

fn number(word: &str) -> u64 {
    word.parse().unwrap_or_else(|_| fail(USAGE))
}

fn fail(message: &str) -> ! {
    eprintln!("{message}");
    std::process::exit(2)
}
