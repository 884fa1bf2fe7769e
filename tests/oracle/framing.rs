//! Many texts in one stream: a row with the byte count, then the bytes.

use std::io::{Read, Write};

pub fn read_all() -> Vec<Vec<u8>> {
    let mut input = Vec::new();
    std::io::stdin().read_to_end(&mut input).expect("standard input");
    let mut texts = Vec::new();
    let mut at = 0;
    while at < input.len() {
        let end = at + input[at..].iter().position(|&b| b == b'\n').expect("count row");
        let count = std::str::from_utf8(&input[at..end]).expect("count");
        let from = end + 1;
        at = from + count.parse::<usize>().expect("count");
        texts.push(input[from..at].to_vec());
    }
    texts
}

pub fn write_all(texts: impl Iterator<Item = Vec<u8>>) {
    let mut out = std::io::BufWriter::new(std::io::stdout().lock());
    for text in texts {
        writeln!(out, "{}", text.len()).expect("standard output");
        out.write_all(&text).expect("standard output");
    }
    out.flush().expect("standard output");
}
