//! Scripts of calls below the line program: what no line can reach.
use crate::clauses;
use crate::makers::{entry, run, Draft};
use crate::trace::Maker;
use second::board::Board;
use second::calls::{event_line, Desk};
use second::event::Event;
use second::line::hex;

/// A script, and a desk that answers it as it is written.
pub struct Script {
    pub name: String,
    pub lines: Vec<String>,
    pub answers: Vec<String>,
    desk: Desk,
}

impl Script {
    pub fn new(name: &str) -> Script {
        Script { name: name.to_string(), lines: Vec::new(), answers: Vec::new(), desk: Desk::default() }
    }

    /// Adds a line, and gives the number that its answer begins with, if it does.
    pub fn say(&mut self, line: impl Into<String>) -> Option<u8> {
        let line = line.into();
        let answer = self.desk.answer(&line);
        let number = answer.split(' ').next().unwrap().parse().ok();
        self.lines.push(line);
        self.answers.push(answer);
        number
    }

    pub fn event(&mut self, event: Event, payload: &[u8]) -> u8 {
        self.say(event_line(event, payload)).unwrap()
    }

    /// A line whose answer's number is known beforehand: a case that is no longer what it says is found at once.
    pub fn must(&mut self, number: u8, event: Event, payload: &[u8]) {
        let given = self.event(event, payload);
        assert_eq!(given, number, "{}: {event:?}", self.name);
    }
}

/// Code on the page, param on the next, one entry at the code's start.
pub fn pair(page: u32, input: u16, output: u16) -> Vec<u8> {
    Draft { runs: vec![run(1, 1, page), run(4, 1, page + 1)], entries: vec![entry(4096 * page, input, output)] }.bytes()
}

/// Random events; before them, if all is wanted, what depends on no seed.
pub fn scripts(seed: u64, all: bool) -> Vec<Script> {
    let mut scripts = if all { vec![starts(), clauses::script(), eight_slots(), rooms(), payloads(), manifests(), writer()] } else { Vec::new() };
    let boards = [(2, 1, 500), (3, 1, 1500), (8, 1, 3000), (9, 7, 1000), (40, 1, 3000), (1024, 1, 250), (1024, 900, 500), (1024, 1023, 100)];
    for (i, (pages, kept, events)) in boards.into_iter().enumerate() {
        scripts.push(random_events(seed.wrapping_add(i as u64), pages, kept, events));
    }
    scripts
}

fn starts() -> Script {
    let mut s = Script::new("start");
    for pages in [0, 1, 2, 3, 7, 1023, 1024, 1025, (1 << 32) + 8, u64::MAX] {
        for kept in [0, 1, 2, pages.wrapping_sub(1), pages, pages.wrapping_add(1), (1 << 32) + 1, u64::MAX] {
            let good = (2..=1024).contains(&pages) && (1..pages).contains(&kept);
            assert_eq!(s.say(format!("start {pages} {kept}")), Some(if good { 0 } else { 4 }));
            s.must(if good { 0 } else { 1 }, Event::Jump { address: 0 }, b"");
            s.say("map");
        }
    }
    s
}

fn eight_slots() -> Script {
    let mut s = Script::new("eight slots");
    s.say("start 1024 1");
    let page = |slot: u32| 1 + 2 * slot;
    for slot in 0..8 {
        s.must(0, Event::Write { address: 4096 * page(slot) as u64 }, &[slot as u8 + 1; 100]);
        s.must(0, Event::Register { mark: slot as u64 % 3 }, &pair(page(slot), 4, 4));
    }
    s.must(7, Event::Register { mark: 0 }, &pair(600, 4, 4));
    s.must(6, Event::Register { mark: 0 }, &pair(2, 4, 4)); // 6 comes before 7, and 3 before both
    s.must(6, Event::Register { mark: 0 }, &pair(1022, 4, 4));
    s.must(3, Event::Register { mark: 0 }, &pair(1023, 4, 4));
    for slot in [7u32, 0, 3, 6, 1] {
        let (mark, address) = (slot as u64 % 3, 4096 * page(slot) as u64);
        s.must(0, Event::Call { mark, address, input: 0, output: 4092 }, b"");
        s.must(0, Event::PcrRead { index: 0 }, b"");
        s.must(0, Event::Return, b"");
        s.must(0, Event::Unregister { mark, slot: slot as u64 }, b"");
        s.must(0, Event::Read { address, length: 4096 }, b"");
        s.must(0, Event::Register { mark }, &pair(1021 - 2 * slot, 4, 4)); // the slot that was freed, and the last open page
        s.must(7, Event::Register { mark }, &pair(600, 4, 4));
        s.say("map");
    }
    for slot in [5, 2] {
        s.must(0, Event::Unregister { mark: slot % 3, slot }, b"");
    }
    // 64 pages, 65 pages, and a page that is another's
    let three = |a: (u16, u32), b: (u16, u32), param: u32| vec![run(1, a.0, a.1), run(2, b.0, b.1), run(4, 1, param)];
    for runs in [three((1, 300), (62, 301), 900), three((1, 400), (63, 401), 901), three((62, 500), (1, 562), 1020)] {
        let entries = vec![entry(4096 * runs[0].first, 0, 0)];
        s.event(Event::Register { mark: 9 }, &Draft { runs, entries }.bytes());
    }
    s.say("map");
    s
}

fn rooms() -> Script {
    let mut s = Script::new("rooms");
    for n in [1u64, 2, 7, 20, 255, 4095, 4096] {
        for room in [0, n - 1, n, n + 1] {
            s.say("start 8 1");
            s.say(format!("room {room}"));
            let number = if room < n { 9 } else { 0 };
            s.must(0, Event::Write { address: 0 }, &[0xa5; 4096]);
            s.must(number, Event::Read { address: 0, length: n }, b"");
            s.must(number, Event::DeviceRead { address: 0, length: n }, b"");
            s.must(4, Event::Read { address: 1, length: 4096 }, b""); // 4 and 5 come before 9
            s.must(5, Event::Read { address: 28672, length: n }, b"");
            s.must(0, Event::Register { mark: 7 }, &pair(2, 0, 0));
            s.must(0, Event::Call { mark: 7, address: 8192, input: 0, output: 0 }, b"");
            s.must(number, Event::Read { address: 8192, length: n }, b"");
            s.must(number, Event::DeviceRead { address: 0, length: n }, b"");
            s.must(5, Event::Read { address: 0, length: n }, b"");
            s.must(if room < 20 { 9 } else { 0 }, Event::PcrRead { index: 7 }, b"");
            s.must(10, Event::PcrRead { index: 8 }, b"");
        }
    }
    for pages in [2, 7, 8, 9, 15, 16, 17, 1023, 1024] {
        s.say(format!("start {pages} 1"));
        let n = (pages + 7) / 8;
        for (room, number) in [(0, 9), (n - 1, 9), (n, 0), (n + 1, 0)] {
            s.say(format!("room {room}"));
            assert_eq!(s.say("map"), Some(number));
        }
    }
    s
}

fn payloads() -> Script {
    let mut s = Script::new("payloads");
    let long: Vec<u8> = (0..4097u32).map(|i| (i * 7 % 251) as u8).collect();
    s.say("start 8 2");
    for n in [0, 1, 4095, 4096, 4097] {
        for address in [0u64, 1, 4095, 4096, 20480, 24575, 24576, 32767, 32768, u64::MAX] {
            s.event(Event::Write { address }, &long[..n]);
            s.event(Event::DeviceWrite { address }, &long[..n]);
        }
    }
    s.must(3, Event::Register { mark: 7 }, &long);
    s.must(3, Event::Register { mark: 7 }, &[&pair(2, 4, 4)[..], &long[..1]].concat());
    s.must(0, Event::Register { mark: 7 }, &pair(2, 2048, 2048));
    s.must(4, Event::Call { mark: 7, address: 8192, input: 2049, output: 0 }, &long);
    s.must(0, Event::Call { mark: 7, address: 8192, input: 2048, output: 0 }, &long);
    for n in [0, 1, 55, 56, 63, 64, 65, 4095, 4096] {
        s.must(0, Event::ExtendPayload { index: n as u64 % 8 }, &long[..n]);
    }
    s.must(4, Event::ExtendPayload { index: 7 }, &long);
    s.must(10, Event::ExtendPayload { index: 8 }, &long);
    for (number, address, length) in [(0, 8192, 4096), (0, 12288, 1), (0, u64::MAX, 0), (4, 8193, 4096), (5, 0, 1), (5, 28672, 1), (4, 32768, 1), (4, 8192, 4097)] {
        // the payload is not looked at
        s.must(number, Event::ExtendMemory { index: 1, address, length }, &long);
    }
    s.must(5, Event::Write { address: 8192 }, &long[..4096]);
    s.must(0, Event::Write { address: 12288 }, &long[..4096]);
    s.must(0, Event::Read { address: 12288, length: 4096 }, &long);
    s.must(0, Event::PcrRead { index: 1 }, &long);
    s.must(0, Event::Jump { address: 12287 }, &long);
    s.must(0, Event::Return, &long);
    s.must(0, Event::Read { address: 0, length: 4096 }, &long);
    s.must(8, Event::Unregister { mark: 8, slot: 0 }, &long);
    s.must(0, Event::Unregister { mark: 7, slot: 0 }, &long);
    s
}

/// Manifests that touch the rules' limits.
fn bases() -> Vec<Draft> {
    let draft = |runs: &[(u8, u16, u32)], entries: &[(u32, u16, u16)]| Draft {
        runs: runs.iter().map(|x| run(x.0, x.1, x.2)).collect(),
        entries: entries.iter().map(|x| entry(x.0, x.1, x.2)).collect(),
    };
    let eight: Vec<(u32, u16, u16)> = (0..8).map(|i| (4096 * (100 + i) + 511 * i, 256 * i as u16, 2048 - 256 * i as u16)).collect();
    vec![
        draft(&[(1, 1, 2), (4, 1, 3)], &[(8192, 4, 4)]),
        draft(&[(4, 1, 0), (1, 3, 1), (2, 2, 4), (3, 1, 6)], &[(4096, 0, 2048), (4097, 2048, 0), (16383, 1, 1)]),
        draft(&[(1, 60, 100), (1, 1, 160), (2, 2, 900), (4, 1, 1023)], &eight),
        draft(&[(2, 30, 1), (1, 32, 31), (4, 1, 64)], &[(31 * 4096 + 255, 2047, 255), (31 * 4096 + 256, 511, 512)]),
        draft(&[(1, 1, 255), (4, 1, 256), (3, 1, 511)], &[(255 * 4096, 1, 2), (256 * 4096 - 1, 3, 4)]),
    ]
}

fn manifests() -> Script {
    let mut s = Script::new("manifests");
    for base in bases() {
        let bytes = base.bytes();
        assert_eq!(s.say(format!("read {}", hex(&bytes))), Some(0));
        for (room, number) in [(bytes.len() - 1, 9), (bytes.len(), 0), (4096, 0)] {
            s.say(format!("room {room}"));
            assert_eq!(s.say("write"), Some(number));
        }
        for at in 0..bytes.len() {
            let was = bytes[at];
            let mut values: Vec<u8> =
                vec![0, 1, 2, 3, 4, 5, 6, 7, 8, 9, 16, 24, 64, 65, 127, 128, 254, 255, was.wrapping_add(1), was.wrapping_sub(1), was.wrapping_add(8), was.wrapping_sub(8)];
            values.extend((0..8).map(|bit| was ^ 1 << bit));
            values.sort_unstable();
            values.dedup();
            for value in values.into_iter().filter(|value| *value != was) {
                let mut changed = bytes.clone();
                changed[at] = value;
                if s.say(format!("read {}", hex(&changed))) == Some(0) {
                    assert_eq!(s.say("write"), Some(0));
                }
            }
        }
        for n in 0..bytes.len() {
            s.say(format!("read {}", if n == 0 { "-".to_string() } else { hex(&bytes[..n]) }));
            s.say(format!("read {}", hex(&bytes[n..])));
            s.say(format!("read {}{}", "00".repeat(n % 9 + 1), hex(&bytes)));
            s.say(format!("read {}{}", hex(&bytes), "00".repeat(n % 9 + 1)));
        }
    }
    s
}

/// The writer on fields that are wrong in one place.
fn writer() -> Script {
    let mut s = Script::new("writer");
    let far = [0u64, 1, 2, 3, 4, 5, 6, 7, 8, 9, 10, 255, 256, (1 << 32) + 2, u64::MAX];
    for base in bases() {
        let read = format!("read {}", hex(&base.bytes()));
        let (mut edits, r, e) = (Vec::new(), base.runs.len(), base.entries.len());
        edits.extend(far.iter().flat_map(|n| [format!("r {n}"), format!("e {n}")]));
        for i in 0..4 {
            edits.extend([0u64, 1, 2, 3, 4, 5, 255].iter().map(|n| format!("kind {i} {n}")));
            edits.extend([0u64, 1, 2, 3, 63, 64, 65, 65535].iter().map(|n| format!("count {i} {n}")));
            edits.extend([0u64, 1, 2, 3, 1022, 1023, 1024, 65536, 4294967295].iter().map(|n| format!("first {i} {n}")));
        }
        for i in 0..8 {
            edits.extend([0u64, 1, 4096, 8192, 8193, 12288, 4294967295].iter().map(|n| format!("address {i} {n}")));
            edits.extend([0u64, 1, 2047, 2048, 2049, 65535].iter().flat_map(|n| [format!("input {i} {n}"), format!("output {i} {n}")]));
        }
        for edit in edits {
            s.say(&read[..]);
            s.say(format!("field {edit}"));
            for room in [0, 8 * (r + e) + 15, 112] {
                s.say(format!("room {room}"));
                s.say("write");
            }
        }
    }
    s
}

fn random_events(seed: u64, pages: u64, kept: u64, events: usize) -> Script {
    let mut s = Script::new(&format!("random events on P={pages}, M={kept}"));
    let mut maker = Maker::new(seed, Board::start(pages, kept).unwrap(), 4100);
    s.say(format!("start {pages} {kept}"));
    let mut room = 4096;
    for _ in 0..events {
        if maker.random.in_hundred(10) {
            room = maker.random.pick(&[0, 1, 19, 20, 100, 4095, 4096, 4096, 4096, 4096, 4097]);
            s.say(format!("room {room}"));
        }
        if maker.random.in_hundred(4) {
            s.say("map");
        }
        let (event, payload) = maker.event();
        maker.take(event, &payload, room);
        s.event(event, &payload);
    }
    s
}
