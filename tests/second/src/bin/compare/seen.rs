//! What has been seen: each answer to each kind of line, in each mode.
use second::board::Board;
use second::line::event_of;
use std::collections::BTreeMap;

/// Every answer that the line program can give, on P=8, M=1 and a buffer of 4,096 bytes, to a line of that kind in that mode ('l' legacy, 's' secure, by the words that follow).
/// It cannot give 1: every event keeps a well-formed state well formed. It cannot give 7: a codeblock has two pages at least, so seven open pages hold three, in slots 0 to 2. It cannot
/// give 9: no answer is longer than a page. An extend of a payload cannot give 4: a line has at most 2,000 characters, so 996 bytes.
pub const POSSIBLE: [(&str, &str, &str); 13] = [
    ("reg", "slot 0,slot 1,slot 2,no 3,no 6", "no 2"),
    ("unr", "ok,no 8", "no 2"),
    ("call", "in 0,in 1,in 2,no 8,no 4,no 5", "no 2"),
    ("ret", "no 2", "out"),
    ("jmp", "ok,no 4,no 5", "ok,dead 0,dead 1,dead 2"),
    ("get", "hex,no 4,no 5", "hex,no 4,no 5"),
    ("put", "ok,no 4,no 5", "ok,no 4,no 5"),
    ("dget", "hex,no 4,no 5", "hex,no 4,no 5"),
    ("dput", "ok,no 4,no 5", "ok,no 4,no 5"),
    ("extp", "no 2", "ok,no 10"),
    ("extm", "no 2", "ok,no 10,no 4,no 5"),
    ("pcr", "no 2", "hex,no 10"),
    ("other", "no 11", "no 11"),
];

#[derive(Default)]
pub struct Seen {
    answers: BTreeMap<(String, bool, String), usize>,
    /// runs and entries of manifests that were accepted
    shapes: BTreeMap<(usize, usize), usize>,
    pub lines: usize,
}

impl Seen {
    /// `secure`: the mode that the line met; `after`: the board that it left.
    pub fn note(&mut self, line: &[u8], secure: bool, answer: &str, after: &Board) {
        let word = if event_of(line).is_some() { line.split(|byte| *byte == b' ').next().unwrap() } else { b"other" };
        let short = if answer.starts_with("hex") || answer.starts_with("out") { &answer[..3] } else { answer };
        *self.answers.entry((String::from_utf8_lossy(word).into_owned(), secure, short.to_string())).or_default() += 1;
        if let Some(slot) = answer.strip_prefix("slot ") {
            let block = after.slots[slot.parse::<usize>().unwrap()].as_ref().unwrap();
            *self.shapes.entry((block.manifest.runs().len(), block.manifest.entries().len())).or_default() += 1;
        }
        self.lines += 1;
    }

    /// Counts of each answer; below, if all is wanted, by kind of line and mode.
    pub fn show(&self, all: bool) {
        let mut sums: BTreeMap<&str, usize> = BTreeMap::new();
        for ((_, _, answer), count) in &self.answers {
            let form = if answer.starts_with("no") { answer } else { answer.split(' ').next().unwrap() };
            *sums.entry(form).or_default() += count;
        }
        let sums: Vec<String> = sums.iter().map(|(form, count)| format!("{form}: {count}")).collect();
        println!("  {}", sums.join(", "));
        for (word, _, _) in POSSIBLE.iter().filter(|_| all) {
            for secure in [false, true] {
                let of: Vec<String> = self.answers.iter().filter(|(key, _)| key.0 == *word && key.1 == secure).map(|(key, count)| format!("{}: {count}", key.2)).collect();
                println!("  {word:5} {:6}  {}", if secure { "secure" } else { "legacy" }, of.join(", "));
            }
        }
    }

    /// What is possible and has not been seen, and what has been seen and is not possible.
    pub fn lacking(&self) -> Vec<String> {
        let mut lacking = Vec::new();
        let mut possible = Vec::new();
        for (word, legacy, secure) in POSSIBLE {
            for (mode, answers) in [(false, legacy), (true, secure)] {
                possible.extend(answers.split(',').map(|answer| (word.to_string(), mode, answer.to_string())));
            }
        }
        for key in possible.iter().filter(|key| !self.answers.contains_key(key)) {
            lacking.push(format!("never seen: {} {} in {} mode", key.0, key.2, if key.1 { "secure" } else { "legacy" }));
        }
        for key in self.answers.keys().filter(|key| !possible.contains(key)) {
            lacking.push(format!("not possible: {} {} in {} mode", key.0, key.2, if key.1 { "secure" } else { "legacy" }));
        }
        for (r, e) in (2..=4).flat_map(|r| (1..=8).map(move |e| (r, e))).filter(|shape| !self.shapes.contains_key(shape)) {
            lacking.push(format!("never accepted: a manifest of {r} runs and {e} entries"));
        }
        lacking
    }
}

/// The numbers that each function of the host's interface can give; 0 where it accepts.
const CALLS: [(&str, &[u8]); 15] = [
    ("start", &[0, 4]),
    ("register", &[0, 1, 2, 3, 6, 7]),
    ("unregister", &[0, 1, 2, 8]),
    ("call", &[0, 1, 2, 4, 5, 8]),
    ("return", &[0, 1, 2]),
    ("jump", &[0, 1, 4, 5]),
    ("read", &[0, 1, 4, 5, 9]),
    ("write", &[0, 1, 4, 5]),
    ("device read", &[0, 1, 4, 5, 9]),
    ("device write", &[0, 1, 4, 5]),
    ("extend", &[0, 1, 2, 4, 5, 10]),
    ("pcr read", &[0, 1, 2, 9, 10]),
    ("device map", &[0, 1, 9]),
    ("manifest reader", &[0, 3]),
    ("manifest writer", &[0, 3, 9]),
];

#[derive(Default)]
pub struct Numbers(BTreeMap<(usize, u8), usize>);

impl Numbers {
    /// Notes a script's answers, and gives how many calls it made.
    pub fn note(&mut self, lines: &[String], answers: &[String]) -> usize {
        let mut calls = 0;
        for (line, answer) in lines.iter().zip(answers) {
            let mut words = line.split(' ');
            let function = match words.next().unwrap() {
                "start" => 0,
                "event" => words.next().unwrap().parse::<usize>().unwrap(),
                "map" => 12,
                "read" => 13,
                "write" => 14,
                _ => continue,
            };
            *self.0.entry((function, answer.split(' ').next().unwrap().parse().unwrap())).or_default() += 1;
            calls += 1;
        }
        calls
    }

    pub fn show(&self) {
        for (function, (name, _)) in CALLS.iter().enumerate() {
            let of: Vec<String> = self
                .0
                .iter()
                .filter(|(key, _)| key.0 == function)
                .map(|(key, count)| if key.1 == 0 { format!("yes: {count}") } else { format!("no {}: {count}", key.1) })
                .collect();
            if !of.is_empty() {
                println!("  {name:15}  {}", of.join(", "));
            }
        }
    }

    pub fn lacking(&self) -> Vec<String> {
        let mut lacking = Vec::new();
        for (function, (name, numbers)) in CALLS.iter().enumerate() {
            lacking.extend(numbers.iter().filter(|number| !self.0.contains_key(&(function, **number))).map(|number| format!("never seen: {name}, {number}")));
        }
        for (function, number) in self.0.keys().filter(|key| !CALLS[key.0].1.contains(&key.1)) {
            lacking.push(format!("not possible: {}, {number}", CALLS[*function].0));
        }
        lacking
    }
}
