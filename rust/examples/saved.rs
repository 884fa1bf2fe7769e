//! Saved programs through the library: framed files on standard input (a byte count in a row, then the bytes), a row for each on
//! standard output: `accepted` or `(refused NUMBER PLACE)`. `tests/hostile_programs.py` writes and judges them.
//!
//! Tables hold garbage before each build and end where their memory does. Checked here: a refused build leaves every entry zero.

use flowgraph::{Refusal, Tables};
use std::io::{BufRead, Read, Write};

fn main() {
    let mut input = std::io::stdin().lock();
    let mut out = std::io::BufWriter::new(std::io::stdout().lock());
    let mut row = String::new();
    while input.read_line(&mut row).expect("a count") > 0 {
        let mut file = vec![0; row.trim_end().parse().expect("a count")].into_boxed_slice();
        input.read_exact(&mut file).expect("a file");
        row.clear();
        let mut tables = Tables::for_program(&file);
        fill(&mut tables, 0xAAAA);
        match tables.build_program(&file) {
            Ok(()) => writeln!(out, "accepted"),
            Err(Refusal { number, place }) => {
                let mut zeroed = Tables::for_program(&file);
                fill(&mut zeroed, 0);
                assert!(tables == zeroed, "a refused file leaves an entry");
                writeln!(out, "(refused {number} {place})")
            }
        }
        .expect("standard output");
    }
    out.flush().expect("standard output");
}

fn fill(tables: &mut Tables, with: u16) {
    tables.counts = [with.into(); 6];
    tables.args.fill(with.into());
    let Tables { lines, stmts, entries, falls, links, lists, returns, succ, pred, .. } = tables;
    for table in [lines, stmts, entries, falls, links, lists, returns, succ, pred] {
        table.fill(with);
    }
}
