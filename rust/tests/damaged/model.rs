//! The questions on any tables, said once more, after the words of document 01, "Refused because of the state", and of
//! docs/DECISIONS.md, "Questions" and "Tables". Those words were settled together with the proved code: this finds where code
//! and words part, not where both are wrong.

use flowgraph::Tables;

/// Number and place of a refusal.
pub type Refused = (u8, usize);

const OUTSIDE: Refused = (25, 0);
const NOWHERE: Refused = (26, 0);

const IFS: usize = 16;
const MODULE: u16 = 0;
const LINE: u16 = 1;
const IF: u16 = 2;
const IFELSE: u16 = 3;
const RCOMP: u16 = 4;
const TO: u16 = 5;
const STMTS: u16 = 6;
const GOSUB: u16 = 8;
const RETURN: u16 = 9;
const RUN: u16 = 10;
const ONGOSUB: u16 = 12;
const FOR: u16 = 13;
const NEXT: u16 = 14;
const CLR: u16 = 24;
const LAST_WORD: u16 = 27;

/// "A used count points outside its table if the table cannot hold so many records (25)."
fn holds(len: usize, each: usize, count: u32) -> Result<(), Refused> {
    if (count as u128) * (each as u128) <= len as u128 { Ok(()) } else { Err(OUTSIDE) }
}

/// "24 node id not below the node count (place: the id)."
fn is_node(t: &Tables, id: usize) -> Result<(), Refused> {
    if (id as u128) < u128::from(t.counts[1]) { Ok(()) } else { Err((24, id)) }
}

/// Start and length of a list, "25 if start and count go past the edge table".
fn list(t: &Tables, edges: &[u16], node: usize, column: usize) -> Result<(usize, usize), Refused> {
    let (start, count) = (t.lists[4 * node + column], t.lists[4 * node + column + 1]);
    let end = u32::from(start) + u32::from(count);
    if end as usize <= edges.len() { Ok((start.into(), count.into())) } else { Err(OUTSIDE) }
}

fn edges_of(t: &Tables, edges: &[u16], node: usize, column: usize) -> Result<Vec<u16>, Refused> {
    is_node(t, node)?;
    holds(t.lists.len(), 4, t.counts[1])?;
    let (start, count) = list(t, edges, node, column)?;
    Ok(edges[start..][..count].to_vec())
}

pub fn successors(t: &Tables, node: usize) -> Result<Vec<u16>, Refused> {
    edges_of(t, &t.succ, node, 0)
}

pub fn predecessors(t: &Tables, node: usize) -> Result<Vec<u16>, Refused> {
    edges_of(t, &t.pred, node, 2)
}

/// "Rows of entries are searched from the front"; "25 a line's entry if it is no node".
pub fn entry(t: &Tables, number: u16) -> Result<Option<usize>, Refused> {
    holds(t.entries.len(), 2, t.counts[5])?;
    let mut rows = t.entries.chunks_exact(2).take(t.counts[5] as usize);
    let found = rows.find(|row| row[0] == number).map_or(0, |row| row[1]);
    let Some(node) = usize::from(found).checked_sub(1) else {
        return Ok(None);
    };
    is_node(t, node).map_err(|_| OUTSIDE)?;
    Ok(Some(node))
}

struct Record {
    word: u16,
    line: u16,
    holder: u16,
    index: u16,
}

fn record(t: &Tables, node: usize) -> Record {
    let row = &t.stmts[12 * node..][..12];
    Record { word: row[0], line: row[1], holder: row[2], index: row[3] }
}

/// "A statement's record [points outside] if its word opens no statement or its line index is not below the count of lines (25)."
fn read(t: &Tables, node: usize) -> Result<Record, Refused> {
    let r = record(t, node);
    let opens = r.word <= LAST_WORD && !matches!(r.word, MODULE | LINE | TO | STMTS);
    if opens && u32::from(r.line) < t.counts[0] { Ok(r) } else { Err(OUTSIDE) }
}

/// "Only IF, IFELSE and RCOMP hold statements."
fn holds_statements(r: &Record) -> bool {
    matches!(r.word, IF | IFELSE | RCOMP)
}

/// "A line index that is not below the count of lines is no line, so there is no statement (26)." "Then the path is followed number
/// by number, each time to the first node with that holder and index, the first time with that line index too. Each record found
/// is read before what it holds: 25 if it points outside, else 26 where it holds nothing and a number is left."
pub fn path(t: &Tables, line: usize, path: &[u16]) -> Result<(usize, u16), Refused> {
    holds(t.stmts.len(), 12, t.counts[1])?;
    let nodes = t.counts[1] as usize;
    if line as u128 >= u128::from(t.counts[0]) {
        return Err(NOWHERE);
    }
    let mut at: Option<usize> = None;
    for &number in path {
        if at.is_some_and(|node| !holds_statements(&record(t, node))) {
            return Err(NOWHERE);
        }
        let holder = at.map_or(0, |node| node + 1);
        let stands = |&node: &usize| {
            let r = record(t, node);
            let here = usize::from(r.holder) == holder && r.index == number;
            here && (holder != 0 || usize::from(r.line) == line)
        };
        let node = (0..nodes).find(stands).ok_or(NOWHERE)?;
        read(t, node)?;
        at = Some(node);
    }
    let node = at.ok_or(NOWHERE)?;
    Ok((node, record(t, node).word))
}

/// "From the node to its holder, and on until there is none. A holder that is no node, or whose record points outside, is 25; else
/// one that holds no statements is 26, and so is a seventeenth. The first of these on the way up decides."
fn climb(t: &Tables, node: usize) -> Result<(), Refused> {
    let mut at = node;
    let mut passed = 0;
    while let Some(holder) = usize::from(record(t, at).holder).checked_sub(1) {
        is_node(t, holder).map_err(|_| OUTSIDE)?;
        let r = read(t, holder)?;
        passed += 1;
        if passed > IFS || !holds_statements(&r) {
            return Err(NOWHERE);
        }
        at = holder;
    }
    Ok(())
}

/// "A node's statement is the node itself, if the path in its record can be read"; its own record "is read first".
pub fn statement(t: &Tables, node: usize) -> Result<(usize, u16), Refused> {
    is_node(t, node)?;
    holds(t.stmts.len(), 12, t.counts[1])?;
    let r = read(t, node)?;
    climb(t, node)?;
    Ok((node, r.word))
}

fn is_name(name: &[u8]) -> bool {
    let base = match name {
        [base @ .., b'%' | b'$'] => base,
        _ => name,
    };
    let (Some(first), true) = (base.first(), base.len() <= 8) else {
        return false;
    };
    first.is_ascii_uppercase() && base.iter().all(|b| b.is_ascii_uppercase() || b.is_ascii_digit())
}

/// "Cuts a name to two characters and keeps its `%` or `$`" (document 02, L2); the name is a good one.
fn cut(name: &[u8]) -> Vec<u8> {
    let is_kind = |b: &u8| matches!(b, b'%' | b'$');
    let characters = name.iter().filter(|b| !is_kind(b)).take(2);
    characters.chain(name.last().filter(|b| is_kind(b))).copied().collect()
}

/// "A name's key is its bytes less 32 as digits to the base 64, the first byte lowest."
pub fn key(name: &[u8]) -> u64 {
    name.iter().rev().fold(0, |key, &b| key * 64 + u64::from(b - 32))
}

/// "They check 3 (a bad name, place 0), then 24 (the header first), 25, 26, 28"; "after its own 25 and before 28 it is refused as
/// [the node's statement] is".
pub fn frame(t: &Tables, header: usize, node: usize, name: &[u8], flag: bool, room: usize) -> Result<Vec<u16>, Refused> {
    if !is_name(name) {
        return Err((3, 0));
    }
    is_node(t, header)?;
    is_node(t, node)?;
    for (len, each) in [(t.stmts.len(), 12), (t.args.len(), 64), (t.falls.len(), 3), (t.lists.len(), 4)] {
        holds(len, each, t.counts[1])?;
    }
    let body = successors(t, header)?;
    let own = successors(t, node)?;
    let word = record(t, node).word;
    let kept = match word {
        CLR | RUN | RETURN => Vec::new(),
        FOR if t.args[64 * node] == key(&cut(name)) => Vec::new(),
        NEXT if flag => own.into_iter().filter(|s| body.contains(s)).collect(),
        GOSUB | ONGOSUB => match t.falls[3 * node] {
            0 => Vec::new(),
            fall => {
                is_node(t, usize::from(fall) - 1).map_err(|_| OUTSIDE)?;
                vec![fall - 1]
            }
        },
        _ => own,
    };
    statement(t, node)?;
    if kept.len() > room { Err((28, kept.len())) } else { Ok(kept) }
}
