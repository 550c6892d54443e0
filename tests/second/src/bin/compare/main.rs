//! Compares the second monitor with a program that is to answer the same.
//!   compare trace SEED LINES [P M ROOM]                         writes a trace
//!   compare lines OPTION .. -- PROGRAM ARGUMENT ..              traces for the line program
//!   compare calls OPTION .. -- PROGRAM ARGUMENT ..              scripts of calls, for tests/host/calls.c
//!   compare mutants FILE SOURCE LIBRARY KEPT                    wrong rules, each held to what was kept in that folder
//! Options: seed N; traces N and lines N (of each); seconds N (as many traces as fit); sizes P M ROOM; keep NAME (NAME-..in and NAME-..out have what was asked and answered);
//! all (cases that depend on no seed too; fails where an answer that can be given was not).
mod cases;
mod clauses;
mod makers;
mod mutants;
mod random;
mod rival;
mod seen;
mod spoilt;
mod trace;

use rival::{shrunk, Rival};
use second::board::Board;
use second::line;
use seen::Seen;
use std::io::Write;
use std::process::exit;
use std::time::Instant;

/// Bytes of a payload that a line has room for, beside its longest word and number.
const LINE_PAYLOAD: usize = 985;

struct Options {
    seed: u64,
    traces: usize,
    lines: usize,
    seconds: u64,
    sizes: (u64, u64, usize),
    keep: Option<String>,
    all: bool,
    rival: Rival,
}

fn options(words: &[String]) -> Options {
    let cut = words.iter().position(|word| word == "--").expect("-- PROGRAM");
    let mut options = Options { seed: 1, traces: 1, lines: 1000, seconds: 0, sizes: (8, 1, 4096), keep: None, all: false, rival: Rival(words[cut + 1..].to_vec()) };
    let mut at = 0;
    let number = |at: usize| words[at].parse::<u64>().expect("a number");
    while at < cut {
        match words[at].as_str() {
            "seed" => options.seed = number(at + 1),
            "traces" => options.traces = number(at + 1) as usize,
            "lines" => options.lines = number(at + 1) as usize,
            "seconds" => options.seconds = number(at + 1),
            "sizes" => options.sizes = (number(at + 1), number(at + 2), number(at + 3) as usize),
            "keep" => options.keep = Some(words[at + 1].clone()),
            "all" => options.all = true,
            other => panic!("no such option: {other}"),
        }
        at += match words[at].as_str() {
            "all" => 1,
            "sizes" => 4,
            _ => 2,
        };
    }
    options
}

fn main() {
    let words: Vec<String> = std::env::args().skip(1).collect();
    match words.first().map(String::as_str) {
        Some("trace") => {
            let n: Vec<u64> = words[1..].iter().map(|word| word.parse().expect("a number")).collect();
            let (pages, kept, room) = if n.len() > 2 { (n[2], n[3], n[4] as usize) } else { (8, 1, 4096) };
            let lines = trace(n[0], n[1] as usize, (pages, kept, room));
            std::io::stdout().write_all(&joined(&lines)).unwrap();
        }
        Some("lines") => compare_lines(&options(&words[1..])),
        Some("calls") => compare_calls(&options(&words[1..])),
        Some("mutants") => mutants::find_all(&words[1], &words[2], &words[3], &words[4]),
        _ => panic!("trace, lines, calls or mutants"),
    }
}

fn trace(seed: u64, lines: usize, (pages, kept, room): (u64, u64, usize)) -> Vec<Vec<u8>> {
    let mut maker = trace::Maker::new(seed, Board::start(pages, kept).expect("P and M"), LINE_PAYLOAD);
    (0..lines).map(|_| maker.line(room)).collect()
}

fn joined(lines: &[Vec<u8>]) -> Vec<u8> {
    let mut input = Vec::new();
    for line in lines {
        input.extend(line);
        input.push(b'\n');
    }
    input
}

fn ours(input: &[u8], (pages, kept, room): (u64, u64, usize)) -> Vec<u8> {
    let mut output = Vec::new();
    line::answer_all(pages, kept, room, &mut &input[..], &mut output).unwrap();
    output
}

fn compare_lines(options: &Options) {
    for (i, input) in spoilt::inputs().iter().enumerate() {
        if ours(input, options.sizes) != options.rival.output(input) {
            println!("compare: input {i} of src/bin/compare/spoilt.rs is answered otherwise");
            exit(1);
        }
    }
    let (mut seen, began, mut traces) = (Seen::default(), Instant::now(), 0);
    while if options.seconds > 0 { began.elapsed().as_secs() < options.seconds } else { traces < options.traces } {
        let lines = trace(options.seed.wrapping_add(traces as u64), options.lines, options.sizes);
        let input = joined(&lines);
        let theirs = options.rival.output(&input);
        if ours(&input, options.sizes) != theirs {
            println!("compare: they differ, seed {}", options.seed.wrapping_add(traces as u64));
            show_difference(lines, &|input| ours(input, options.sizes), &options.rival);
            exit(1);
        }
        note(&mut seen, &lines, options.sizes);
        keep(options, traces, &input, &theirs);
        traces += 1;
    }
    println!("compare: seed {}: {traces} traces, {} lines, the same answers", options.seed, seen.lines);
    seen.show(options.all);
    if options.all {
        fail_for(&seen.lacking());
    }
}

fn compare_calls(options: &Options) {
    let mut seen = seen::Numbers::default();
    for (i, script) in cases::scripts(options.seed, options.all).iter().enumerate() {
        let lines: Vec<Vec<u8>> = script.lines.iter().map(|line| line.clone().into_bytes()).collect();
        let input = joined(&lines);
        let theirs = options.rival.output(&input);
        if script.answers.join("\n").as_bytes() != theirs.strip_suffix(b"\n").unwrap_or(&theirs) {
            println!("compare: they differ: {}, seed {}", script.name, options.seed);
            let ours = |input: &[u8]| {
                let mut output = Vec::new();
                second::calls::answer_all(&mut &input[..], &mut output).unwrap();
                output
            };
            show_difference(lines, &ours, &options.rival);
            exit(1);
        }
        let calls = seen.note(&script.lines, &script.answers);
        println!("compare: calls, {}: {calls}, the same answers, states, memory and buffers", script.name);
        keep(options, i, &input, &theirs);
    }
    if options.all {
        seen.show();
        fail_for(&seen.lacking());
    }
}

/// What was asked and answered, in files for the mutants.
fn keep(options: &Options, i: usize, asked: &[u8], answered: &[u8]) {
    if let Some(name) = &options.keep {
        std::fs::write(format!("{name}-{i:02}.in"), asked).unwrap();
        std::fs::write(format!("{name}-{i:02}.out"), answered).unwrap();
    }
}

fn fail_for(lacking: &[String]) {
    if !lacking.is_empty() {
        println!("{}", lacking.join("\n"));
        exit(1);
    }
}

fn note(seen: &mut Seen, lines: &[Vec<u8>], (pages, kept, room): (u64, u64, usize)) {
    let mut board = Board::start(pages, kept).unwrap();
    for line in lines {
        let secure = board.running.is_some();
        let answer = line::answer(&mut board, line, room);
        seen.note(line, secure, &answer, &board);
    }
}

/// Shows the first line that is answered otherwise, and the shortest input found on which they differ.
fn show_difference(lines: Vec<Vec<u8>>, ours: &dyn Fn(&[u8]) -> Vec<u8>, rival: &Rival) {
    let first = |lines: &[Vec<u8>]| {
        let input = joined(lines);
        let (a, b) = (ours(&input), rival.output(&input));
        let pairs = || a.split(|byte| *byte == b'\n').zip(b.split(|byte| *byte == b'\n'));
        let at = pairs().position(|(x, y)| x != y)?;
        let (x, y) = pairs().nth(at)?;
        Some((at, x.to_vec(), y.to_vec()))
    };
    let at = match first(&lines) {
        Some((at, _, _)) => at,
        None => return println!("one of them ends early"),
    };
    let least = shrunk(lines[..=at.min(lines.len() - 1)].to_vec(), |lines| first(lines).is_some());
    let file = std::env::current_exe().unwrap().with_file_name("differs.in");
    std::fs::write(&file, joined(&least)).unwrap();
    println!("line {} of the trace; {} lines are enough, whole in {}:", at + 1, least.len(), file.display());
    for line in &least {
        println!("  {}", short(line, 0));
    }
    if let Some((_, x, y)) = first(&least) {
        let same = x.iter().zip(&y).take_while(|(a, b)| a == b).count();
        println!("second: {}\nproved: {}", short(&x, same), short(&y, same));
    }
}

/// At most 200 characters, about that place.
fn short(line: &[u8], place: usize) -> String {
    let (from, to) = (place.saturating_sub(100), line.len().min(place.saturating_sub(100) + 200));
    let part = String::from_utf8_lossy(&line[from.min(to)..to]).into_owned();
    format!("{}{part}{}", if from > 0 { format!("(from character {from}) ..") } else { String::new() }, if to < line.len() { ".." } else { "" })
}
