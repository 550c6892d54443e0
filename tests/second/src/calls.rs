//! Calls below the line program, as a script of text: each line sets something or calls a function of the host's interface, and has one line for an answer. tests/host/calls.c
//! takes the same scripts through the archive. After an event the whole of state, memory and buffer is told as a number (`digest`).
use crate::board::Board;
use crate::digest::digest;
use crate::event::{Answer, Event, No};
use crate::line::{hex, pairs};
use crate::manifest::{Manifest, PAGE};
use crate::picture::{Fields, Picture};
use std::io::{self, BufRead, Write};

const UNTOUCHED: u8 = 0x3c;

/// What a host has: a state that may be spoilt, memory of any length, room for an answer, and a manifest's fields.
#[derive(Clone)]
pub struct Desk {
    pub picture: Picture,
    pub memory: Vec<u8>,
    pub room: usize,
    pub fields: Fields,
    kept: Option<(Picture, Vec<u8>)>,
}

impl Default for Desk {
    fn default() -> Desk {
        Desk { picture: Picture::zero(), memory: Vec::new(), room: PAGE, fields: Fields::default(), kept: None }
    }
}

pub fn answer_all(input: &mut impl BufRead, output: &mut impl Write) -> io::Result<()> {
    let mut desk = Desk::default();
    for line in input.lines() {
        writeln!(output, "{}", desk.answer(&line?))?;
    }
    Ok(())
}

impl Desk {
    /// The answer to one line of a script.
    pub fn answer(&mut self, line: &str) -> String {
        let words: Vec<&str> = line.split(' ').collect();
        let n = |i: usize| words[i].parse::<u64>().expect("a number");
        let bytes = |i: usize| pairs(words[i].as_bytes()).expect("bytes");
        match words[0] {
            "#" => line.to_string(),
            "start" => self.start(n(1), n(2)),
            "memory" => self.done(|desk| desk.memory.resize(n(1) as usize, 0)),
            "room" => self.done(|desk| desk.room = n(1) as usize),
            "keep" => self.done(|desk| desk.kept = Some((desk.picture.clone(), desk.memory.clone()))),
            "back" => self.done(|desk| {
                if let Some((picture, memory)) = &desk.kept {
                    desk.picture.clone_from(picture);
                    desk.memory.clone_from(memory);
                }
            }),
            "set" => self.done(|desk| desk.set(words[1], &(2..words.len()).map(n).collect::<Vec<u64>>())),
            "field" => self.done(|desk| set_field(&mut desk.fields, words[1], &(2..words.len()).map(n).collect::<Vec<u64>>())),
            "event" => self.event(&(1..10).map(n).collect::<Vec<u64>>(), &bytes(10)),
            "map" => {
                let pages = self.picture.pages.min(9999) as usize;
                let board = self.picture.board(vec![0; pages * PAGE]);
                told(board.map_err(|_| 1).and_then(|board| board.device_map(self.room)), self.room)
            }
            "read" => {
                let manifest = Manifest::read(&bytes(1));
                self.fields = manifest.as_ref().map(Fields::of).unwrap_or_default();
                format!("{} {:016x}", if manifest.is_some() { 0 } else { 3 }, digest(&fields_bytes(&self.fields)))
            }
            "write" => {
                let written = self.fields.manifest().map(|manifest| manifest.written());
                let fits = |bytes: Vec<u8>| if bytes.len() > self.room { Err(9) } else { Ok(Answer::Bytes(bytes)) };
                told(written.ok_or(3).and_then(fits), self.room)
            }
            _ => panic!("no such call: {line}"),
        }
    }

    fn done(&mut self, change: impl FnOnce(&mut Desk)) -> String {
        change(self);
        "set".to_string()
    }

    fn start(&mut self, pages: u64, kept: u64) -> String {
        let fresh = Board::start(pages, kept);
        let number = *fresh.as_ref().err().unwrap_or(&0);
        self.picture = fresh.as_ref().map_or(Picture::zero(), Picture::of);
        self.memory = fresh.map_or(Vec::new(), |board| board.memory);
        format!("{number} {:016x}", digest(&state_bytes(&self.picture)))
    }

    /// Kind, mark, slot, address, length, input, output, index, source, as host/monitor.h has them.
    fn event(&mut self, q: &[u64], payload: &[u8]) -> String {
        let event = match (q[0], q[8]) {
            (1, _) => Event::Register { mark: q[1] },
            (2, _) => Event::Unregister { mark: q[1], slot: q[2] },
            (3, _) => Event::Call { mark: q[1], address: q[3], input: q[5], output: q[6] },
            (4, _) => Event::Return,
            (5, _) => Event::Jump { address: q[3] },
            (6, _) => Event::Read { address: q[3], length: q[4] },
            (7, _) => Event::Write { address: q[3] },
            (8, _) => Event::DeviceRead { address: q[3], length: q[4] },
            (9, _) => Event::DeviceWrite { address: q[3] },
            (10, 1) => Event::ExtendPayload { index: q[7] },
            (10, 2) => Event::ExtendMemory { index: q[7], address: q[3], length: q[4] },
            (11, _) => Event::PcrRead { index: q[7] },
            _ => panic!("no such event: {q:?}"),
        };
        let answer = match self.picture.board(std::mem::take(&mut self.memory)) {
            Ok(mut board) => {
                let answer = board.event(event, payload, self.room);
                self.picture = Picture::of(&board);
                self.memory = board.memory;
                answer
            }
            Err(memory) => {
                self.memory = memory;
                Err(1)
            }
        };
        format!("{} {:016x} {:016x}", told(answer, self.room), digest(&state_bytes(&self.picture)), digest(&self.memory))
    }

    fn set(&mut self, name: &str, n: &[u64]) {
        let p = &mut self.picture;
        match name {
            "pages" => p.pages = n[0],
            "kept" => p.kept = n[0],
            "owner" => p.owner[n[0] as usize] = n[1] as u8,
            "mode" => p.mode = n[0],
            "running" => p.running.copy_from_slice(n),
            "registered" => p.slots[n[0] as usize].registered = n[1] != 0,
            "mark" => p.slots[n[0] as usize].mark = n[1],
            "pcr" => p.slots[n[0] as usize].pcrs[n[1] as usize][n[2] as usize] = n[3] as u8,
            _ => set_field(&mut p.slots[n[0] as usize].fields, name, &n[1..]),
        }
    }
}

fn set_field(fields: &mut Fields, name: &str, n: &[u64]) {
    match name {
        "r" => fields.r = n[0],
        "e" => fields.e = n[0],
        "kind" => fields.runs[n[0] as usize].kind = n[1] as u8,
        "count" => fields.runs[n[0] as usize].count = n[1] as u16,
        "first" => fields.runs[n[0] as usize].first = n[1] as u32,
        "address" => fields.entries[n[0] as usize].address = n[1] as u32,
        "input" => fields.entries[n[0] as usize].input = n[1] as u16,
        "output" => fields.entries[n[0] as usize].output = n[1] as u16,
        _ => panic!("no such field: {name}"),
    }
}

/// Number, kind and value of an answer, and the whole buffer that was lent for it.
fn told(answer: Result<Answer, No>, room: usize) -> String {
    let mut buffer = vec![UNTOUCHED; room];
    let (number, kind, value) = match answer {
        Err(number) => (number, 0, 0),
        Ok(Answer::Done) => (0, 1, 0),
        Ok(Answer::Slot(slot)) => (0, 2, slot),
        Ok(Answer::Entered(slot)) => (0, 3, slot),
        Ok(Answer::Left(n)) => (0, 4, n),
        Ok(Answer::Terminated(slot)) => (0, 5, slot),
        Ok(Answer::Bytes(bytes)) => {
            buffer[..bytes.len()].copy_from_slice(&bytes);
            (0, 6, bytes.len())
        }
    };
    format!("{number} {kind} {value} {:016x}", digest(&buffer))
}

fn fields_bytes(fields: &Fields) -> Vec<u8> {
    let mut bytes = [fields.r.to_le_bytes(), fields.e.to_le_bytes()].concat();
    for run in &fields.runs {
        bytes.push(run.kind);
        bytes.extend(run.count.to_le_bytes());
        bytes.extend(run.first.to_le_bytes());
    }
    for entry in &fields.entries {
        bytes.extend(entry.address.to_le_bytes());
        bytes.extend(entry.input.to_le_bytes());
        bytes.extend(entry.output.to_le_bytes());
    }
    bytes
}

fn state_bytes(picture: &Picture) -> Vec<u8> {
    let mut bytes = [picture.pages.to_le_bytes(), picture.kept.to_le_bytes()].concat();
    bytes.extend(picture.owner);
    for slot in &picture.slots {
        bytes.push(slot.registered as u8);
        bytes.extend(slot.mark.to_le_bytes());
        bytes.extend(fields_bytes(&slot.fields));
        bytes.extend(slot.pcrs.concat());
    }
    for number in [picture.mode, picture.running[0], picture.running[1], picture.running[2]] {
        bytes.extend(number.to_le_bytes());
    }
    bytes
}

/// A script's line for an event.
pub fn event_line(event: Event, payload: &[u8]) -> String {
    let q: [u64; 9] = match event {
        Event::Register { mark } => [1, mark, 0, 0, 0, 0, 0, 0, 0],
        Event::Unregister { mark, slot } => [2, mark, slot, 0, 0, 0, 0, 0, 0],
        Event::Call { mark, address, input, output } => [3, mark, 0, address, 0, input, output, 0, 0],
        Event::Return => [4, 0, 0, 0, 0, 0, 0, 0, 0],
        Event::Jump { address } => [5, 0, 0, address, 0, 0, 0, 0, 0],
        Event::Read { address, length } => [6, 0, 0, address, length, 0, 0, 0, 0],
        Event::Write { address } => [7, 0, 0, address, 0, 0, 0, 0, 0],
        Event::DeviceRead { address, length } => [8, 0, 0, address, length, 0, 0, 0, 0],
        Event::DeviceWrite { address } => [9, 0, 0, address, 0, 0, 0, 0, 0],
        Event::ExtendPayload { index } => [10, 0, 0, 0, 0, 0, 0, index, 1],
        Event::ExtendMemory { index, address, length } => [10, 0, 0, address, length, 0, 0, index, 2],
        Event::PcrRead { index } => [11, 0, 0, 0, 0, 0, 0, index, 0],
    };
    let numbers: Vec<String> = q.iter().map(u64::to_string).collect();
    let bytes = if payload.is_empty() { "-".to_string() } else { hex(payload) };
    format!("event {} {bytes}", numbers.join(" "))
}
