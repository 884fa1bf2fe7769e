//! How long a build takes, beside the original in the same process; how long a check of a printed graph takes, beside a build and
//! as a program beside `flowlist`; how long a saved program takes beside the listing that it means; how much stack each call takes.
//! Prints tables for docs/SPEED.md. `tests/speed` runs it.
//!
//! The library's time is reading the text and building; the original's is `Cfg::build_with` alone, its module made before.

#[path = "speed/clock.rs"]
mod clock;
#[path = "speed/programs.rs"]
mod programs;
#[path = "speed/stack.rs"]
mod stack;

use flowgraph::{Refusal, Tables, PAGE_SIZE};
use oracle::listing::{self, Form, Line, Listing};
use oracle::{limits, lower};
use std::hint::black_box;
use std::path::Path;
use std::time::Duration;

/// Best of so many rounds; more where they take less than the one time together, fewer where they take more than the other.
const ROUNDS: usize = 30;
const SHORTEST: Duration = Duration::from_millis(300);
const LONGEST: Duration = Duration::from_secs(6);

/// The shapes at the limits whose graphs are checked: long graphs, much work for a short one, one that is refused.
const CHECKED: [&str; 7] = [
    "4,096 plain statements in 1,024 lines",
    "32,768 edges of `any`",
    "32,769 edges of `any`",
    "3,500 calls, 8 RETURNs",
    "1,024 regions",
    "150 nests of depth 16",
    "1,024 empty lines",
];

/// A graph file that no graph fills.
const LARGE: usize = 100_000_000;

fn main() {
    // `cargo bench` and `cargo test` add words of their own.
    let quick = std::env::args().any(|word| word == "--quick");
    let rounds = if quick { 2 } else { ROUNDS };
    println!("Best of at least {rounds} rounds (at least 2 where they take over {} s together); a round is one build of each kind.\n", LONGEST.as_secs());
    println!("### Shop programs\n");
    table(&shop(), rounds);
    println!("\n### At the limits\n");
    table(&shapes(), rounds);
    println!("\n### Growth\n");
    table(&growth(), rounds);
    println!("\n### Checking a graph\n");
    check_table(&checked(), rounds);
    println!("\n### flowcheck beside flowlist\n");
    program_table(&checked(), rounds);
    println!("\n### Saved programs\n");
    saved_table(rounds);
    println!("\n### Stack\n");
    stack_table();
}

// ---- listings

type Named = (String, Listing);

fn shop() -> Vec<Named> {
    let programs = [
        ("stock list", &include_bytes!("stock.listing")[..]),
        ("ledger", include_bytes!("ledger.listing")),
    ];
    programs.iter().map(|(name, text)| (name.to_string(), listing::read(text).expect("a listing"))).collect()
}

fn shapes() -> Vec<Named> {
    limits::SHAPES.iter().map(|(name, make)| (name.to_string(), make())).collect()
}

fn checked() -> Vec<Named> {
    let shapes = shapes().into_iter().filter(|(name, _)| CHECKED.contains(&name.as_str()));
    shop().into_iter().chain(shapes).collect()
}

fn lines(bodies: Vec<Vec<Form>>) -> Listing {
    let lines = bodies.into_iter().zip(0..).map(|(body, number)| Line { number, body });
    Listing { handlers: false, lines: lines.collect() }
}

/// From 256 statements, doubled each time; the greatest growth is that of the regions.
fn growth() -> Vec<Named> {
    let bare = Form::Bare;
    let mut all = Vec::new();
    let sizes = (8..=12).map(|bit| 1usize << bit);
    for n in sizes.clone() {
        all.push((format!("{n} plain statements"), lines(vec![vec![bare("plain"); 4]; n / 4])));
    }
    for n in sizes.clone() {
        let routine = |i: usize| vec![Form::Gosub(i as u16), bare("plain"), bare("plain"), bare("return")];
        all.push((format!("{} routines, {n} statements", n / 4), lines((0..n / 4).map(routine).collect())));
    }
    for n in sizes.clone() {
        let last = |i: usize| bare(if i + 1 == n / 4 { "return" } else { "plain" });
        let region = |i: usize| vec![Form::Gosub(i as u16), bare("plain"), bare("plain"), last(i)];
        all.push((format!("{} regions, {n} statements", n / 4), lines((0..n / 4).map(region).collect())));
    }
    for n in sizes {
        let loops = |_| {
            let slot = vec![Some("I".to_string())];
            vec![Form::For("I".to_string(), "static".to_string()), bare("plain"), bare("plain"), Form::Next("plain".to_string(), slot)]
        };
        all.push((format!("{} loops, {n} statements", n / 4), lines((0..n / 4).map(loops).collect())));
    }
    all
}

// ---- times

/// The shortest time of each kind. They take turns, so that a slow spell of the machine meets all of them.
fn best(rounds: usize, kinds: &mut [&mut dyn FnMut() -> Duration]) -> Vec<Duration> {
    let mut spent = Duration::ZERO;
    let mut best = vec![Duration::MAX; kinds.len()];
    for i in 0.. {
        for (best, run) in best.iter_mut().zip(&mut *kinds) {
            let took = run();
            *best = took.min(*best);
            spent += took;
        }
        let shortest = if rounds < ROUNDS { Duration::ZERO } else { SHORTEST };
        if i > 0 && spent > LONGEST || i + 1 >= rounds && spent > shortest {
            break;
        }
    }
    best
}

fn build_time(tables: &mut Tables, text: &[u8]) -> Duration {
    let start = clock::now();
    keep(black_box(&mut *tables).build(black_box(text)));
    clock::now() - start
}

#[cfg(original)]
fn original_time(module: &oracle::ir::Module) -> Duration {
    let start = clock::now();
    let cfg = oracle::cfg::Cfg::build_with(black_box(module), &module.marks);
    let took = clock::now() - start;
    keep(cfg);
    took
}

/// With commas between thousands.
fn grouped(n: u128) -> String {
    let digits = n.to_string();
    let mut shown = String::new();
    for (i, digit) in digits.chars().enumerate() {
        if i > 0 && (digits.len() - i) % 3 == 0 {
            shown.push(',');
        }
        shown.push(digit);
    }
    shown
}

fn micros(time: Duration) -> String {
    let nanos = time.as_nanos();
    if nanos < 10_000 { format!("{:.1}", nanos as f64 / 1000.0) } else { grouped((nanos + 500) / 1000) }
}

fn ratio(of: Duration, to: Duration) -> String {
    let ratio = of.as_secs_f64() / to.as_secs_f64();
    if ratio < 1.0 { format!("{ratio:.2}") } else { format!("{ratio:.1}") }
}

/// Tables to size, tables at the limits, and the original where it is at hand.
fn times(listing: &Listing, text: &[u8], rounds: usize) -> Vec<Duration> {
    let (mut to_size, mut at_limits) = (Tables::for_listing(text), Tables::at_limits());
    let mut sized = || build_time(&mut to_size, text);
    let mut long = || build_time(&mut at_limits, text);
    let module = lower::module(listing, 0);
    #[cfg(original)]
    let times = best(rounds, &mut [&mut sized, &mut long, &mut || original_time(&module)]);
    #[cfg(not(original))]
    let times = best(rounds, &mut [&mut sized, &mut long]);
    keep(module);
    times
}

fn table(listings: &[Named], rounds: usize) {
    println!("| listing | edges | tables to size | tables at limits | original | original / to size |");
    println!("|---|---:|---:|---:|---:|---:|");
    for (name, listing) in listings {
        let text = listing.text();
        let mut tables = Tables::for_listing(&text);
        let edges = match tables.build(&text) {
            Ok(()) => grouped(tables.counts[3].into()),
            Err(Refusal { number, place }) => format!("{} (refused {number})", grouped(place as u128)),
        };
        let times = times(listing, &text, rounds);
        let original = times.get(2).map_or("not at hand".to_string(), |&t| micros(t));
        let faster = times.get(2).map_or(String::new(), |&t| ratio(t, times[0]));
        println!("| {name} | {edges} | {} | {} | {original} | {faster} |", micros(times[0]), micros(times[1]));
    }
}

// ---- checks

type Page = Box<[u8; PAGE_SIZE]>;

fn page() -> Page {
    vec![0; PAGE_SIZE].try_into().expect("so many bytes")
}

fn check_time(tables: &mut Tables, text: &[u8], graph: &[u8], page: &mut Page) -> Duration {
    let start = clock::now();
    keep(black_box(&mut *tables).check(black_box(text), black_box(graph), page));
    clock::now() - start
}

/// What is printed for a text, from the page that a check leaves; no byte of it is 0.
fn printed(text: &[u8]) -> Vec<u8> {
    let mut page = page();
    keep(Tables::for_listing(text).check(text, b"", &mut page));
    page.iter().copied().take_while(|&b| b != 0).collect()
}

/// Tables to size for both, the listing's own graph.
fn check_table(listings: &[Named], rounds: usize) {
    println!("| listing | bytes of the graph | build | check | check / build |");
    println!("|---|---:|---:|---:|---:|");
    for (name, listing) in listings {
        let text = listing.text();
        let graph = printed(&text);
        let (mut built, mut checked, mut page) = (Tables::for_listing(&text), Tables::for_listing(&text), page());
        assert_eq!(checked.check(&text, &graph, &mut page), built.build(&text), "{name}");
        let times = best(rounds, &mut [
            &mut || build_time(&mut built, &text),
            &mut || check_time(&mut checked, &text, &graph, &mut page),
        ]);
        let bytes = grouped(graph.len() as u128);
        println!("| {name} | {bytes} | {} | {} | {} |", micros(times[0]), micros(times[1]), ratio(times[1], times[0]));
    }
}

/// Whole processes: a listing's graph printed, and that graph checked.
fn program_table(listings: &[Named], rounds: usize) {
    let (Some(list), Some(check)) = (programs::find("flowlist"), programs::find("flowcheck")) else {
        println!("Not measured: flowlist or flowcheck is not built.");
        return;
    };
    let none = Path::new("/dev/null");
    println!("| listing | bytes of the graph | flowlist | flowcheck | flowcheck / flowlist |");
    println!("|---|---:|---:|---:|---:|");
    for (name, listing) in listings {
        let text = programs::file("listing", &listing.text());
        let found = programs::output(&list, &text, &[]);
        let graph = programs::file("graph", &found);
        let due = if found.starts_with(b"(refused") { &found[..] } else { b"(right)\n" };
        assert_eq!(programs::output(&check, none, &[&text, &graph]), due, "{name}");
        let times = best(rounds, &mut [
            &mut || programs::time(&list, &text, &[]),
            &mut || programs::time(&check, none, &[&text, &graph]),
        ]);
        let bytes = grouped(found.len() as u128);
        println!("| {name} | {bytes} | {} | {} | {} |", micros(times[0]), micros(times[1]), ratio(times[1], times[0]));
    }
    large_file(&list, &check);
}

/// One long row, in form to its end, and what a mere reading of the file takes.
fn large_file(list: &Path, check: &Path) {
    let none = Path::new("/dev/null");
    let listing = programs::file("listing", b"(module 0\n)\n");
    let row = format!("(graph 0 0\n(returns{})\n)\n", " 0".repeat(LARGE / 2));
    let graph = programs::file("graph", row.as_bytes());
    assert_eq!(programs::output(check, none, &[&listing, &graph]), b"(refused 32 1)\n");
    let times = best(2, &mut [
        &mut || programs::time(list, &listing, &[]),
        &mut || programs::time(check, none, &[&listing, &graph]),
        &mut || programs::time(Path::new("cat"), none, &[&graph]),
    ]);
    std::fs::remove_file(&graph).expect("the file");
    let each = (times[1].saturating_sub(times[0])).as_secs_f64() * 1e9 / row.len() as f64;
    println!(
        "\nA graph file of {} bytes, one long row: flowcheck {}, {each:.1} ns a byte; `cat` of it {}.",
        grouped(row.len() as u128), micros(times[1]), micros(times[2]),
    );
}

// ---- saved programs

/// A file of so many lines, all alike, numbered from 0; no link of it is followed.
fn saved(count: u16, line: &[u8]) -> Vec<u8> {
    let mut file = vec![1, 8];
    for number in 0..count {
        file.extend([1, 1]);
        file.extend(number.to_le_bytes());
        file.extend(line);
        file.push(0);
    }
    file.extend([0, 0]);
    file
}

fn saved_programs() -> Vec<(&'static str, Vec<u8>)> {
    vec![
        ("the stock list of README", include_bytes!("../../tests/stock.prg").to_vec()),
        ("a stock list as shops send it", include_bytes!("../../crates/prglist/stdin").to_vec()),
        ("1,024 lines `A=1:B=2:C=3:D=4`", saved(1024, b"A\xB21:B\xB22:C\xB23:D\xB24")),
        ("1,024 lines `FORI=1TO9:PRINTI:NEXTI`", saved(1024, b"\x81I\xB21\xA49:\x99I:\x82I")),
        ("1,024 lines `IFA=1THEN10`", saved(1024, b"\x8BA\xB21\xA710")),
        ("1,024 lines `ONAGOSUB10,20,30,40`", saved(1024, b"\x91A\x8D10,20,30,40")),
        ("1,024 lines of PRINT with 40 letters in quotes", saved(1024, &[b"\x99\"", &[b'A'; 40][..], b"\""].concat())),
        ("1,024 lines of REM with 50 letters", saved(1024, &[b"\x8F", &[b'A'; 50][..]].concat())),
    ]
}

fn program_time(tables: &mut Tables, file: &[u8]) -> Duration {
    let start = clock::now();
    keep(black_box(&mut *tables).build_program(black_box(file)));
    clock::now() - start
}

/// A file, and the listing that it means as a text: the same tables after.
fn saved_table(rounds: usize) {
    let Some(list) = programs::find("prglist") else {
        println!("Not measured: prglist is not built.");
        return;
    };
    println!("| program | bytes of the file | bytes of its listing | build of the listing | build of the file | file / listing |");
    println!("|---|---:|---:|---:|---:|---:|");
    for (name, file) in saved_programs() {
        let text = programs::output(&list, &programs::file("program", &file), &[]);
        let (mut of_text, mut of_file) = (Tables::for_listing(&text), Tables::for_listing(&text));
        assert_eq!(of_file.build_program(&file), of_text.build(&text), "{name}");
        assert!(of_file.succ == of_text.succ && of_file.stmts == of_text.stmts, "{name}");
        let times = best(rounds, &mut [
            &mut || build_time(&mut of_text, &text),
            &mut || program_time(&mut of_file, &file),
        ]);
        let (bytes, of_listing) = (grouped(file.len() as u128), grouped(text.len() as u128));
        println!("| {name} | {bytes} | {of_listing} | {} | {} | {} |", micros(times[0]), micros(times[1]), ratio(times[1], times[0]));
    }
}

// ---- stack

/// The greatest of all listings, the calls in Rust included.
fn stack_table() {
    let mut peaks = [0usize; 9];
    let mut page = page();
    for (name, listing) in shop().into_iter().chain(shapes()) {
        let text = listing.text();
        let mut tables = Tables::for_listing(&text);
        let mut note = |i: usize, call: &mut dyn FnMut()| peaks[i] = peaks[i].max(stack::peak(call));
        let graph = printed(&text);
        note(7, &mut || keep(tables.check(&text, &graph, &mut page)));
        note(0, &mut || keep(tables.build(&text)));
        let nodes = tables.counts[1] as usize;
        // The last node, and the deepest.
        let deepest = (0..nodes).max_by_key(|&n| depth(&tables, n)).unwrap_or(0);
        for node in [0, deepest, nodes.saturating_sub(1)] {
            note(1, &mut || keep(tables.successors(node)));
            note(2, &mut || keep(tables.predecessors(node)));
            note(3, &mut || keep(tables.stmt_at(node)));
            note(4, &mut || keep(tables.stmt_at_path(node, &[0; 17])));
            note(5, &mut || keep(tables.line_first(node as u16)));
            let mut out = vec![0; 4096];
            note(6, &mut || keep(tables.frame_successors(node, node, b"ABCDEFGH$", true, &mut out)));
        }
        assert!(peaks[0].max(peaks[7]) < stack::SIZE / 2, "{name}: the painted stack was too short");
    }
    for (_, file) in saved_programs() {
        let mut tables = Tables::for_program(&file);
        peaks[8] = peaks[8].max(stack::peak(&mut || keep(tables.build_program(&file))));
    }
    println!("| call | most bytes written |");
    println!("|---|---:|");
    let calls = ["build", "successors", "predecessors", "statement", "path", "entry", "frame", "check", "build_program"];
    for (call, peak) in calls.iter().zip(peaks) {
        println!("| `flow_{call}` | {} |", grouped(peak as u128));
    }
}

fn keep<T>(answer: T) {
    black_box(answer);
}

fn depth(tables: &Tables, node: usize) -> usize {
    let mut depth = 0;
    let mut at = node;
    while let Some(holder) = usize::from(tables.stmts[12 * at + 2]).checked_sub(1) {
        at = holder;
        depth += 1;
    }
    depth
}
