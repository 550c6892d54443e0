//! Random traces. A board runs along, so that the lines meet deep states: several slots, calls, releases, pages used again.
use crate::makers::manifest;
use crate::random::Random;
use crate::spoilt::spoilt;
use second::board::{Board, Page, Running};
use second::event::Event;
use second::line::{event_of, hex};
use second::manifest::{Kind, PAGE};

const MARKS: [u64; 7] = [7, 7, 7, 8, 7 + (1 << 32), 0, u64::MAX];
const FAR: [u64; 7] = [u64::MAX, u64::MAX - 4095, 1 << 63, 1 << 32, (1 << 32) + 1, 4096, 4097];

pub struct Maker {
    pub random: Random,
    pub board: Board,
    /// bytes that a payload has at most
    pub most: usize,
    /// pages that were released lately
    released: Vec<usize>,
}

impl Maker {
    pub fn new(seed: u64, board: Board, most: usize) -> Maker {
        Maker { random: Random(seed), board, most, released: Vec::new() }
    }

    /// The next line; the board has answered it.
    pub fn line(&mut self, room: usize) -> Vec<u8> {
        let (event, payload) = self.event();
        let mut line = text(event, &payload).into_bytes();
        if self.random.in_hundred(6) {
            line = spoilt(&mut self.random, line);
        }
        if let Some((event, payload)) = event_of(&line) {
            self.take(event, &payload, room);
        }
        line
    }

    /// Lets the board answer, and remembers the pages that it opens.
    pub fn take(&mut self, event: Event, payload: &[u8], room: usize) {
        let before = self.board.pages.clone();
        let _ = self.board.event(event, payload, room);
        let opened: Vec<usize> = (0..before.len()).filter(|page| before[*page] != self.board.pages[*page] && self.board.is_open(*page)).collect();
        if !opened.is_empty() {
            self.released = opened;
        }
    }

    /// The next event and its payload.
    pub fn event(&mut self) -> (Event, Vec<u8>) {
        match self.board.running {
            None => self.legacy_event(),
            Some(running) => self.secure_event(running),
        }
    }

    fn legacy_event(&mut self) -> (Event, Vec<u8>) {
        let registered = self.board.slots.iter().flatten().count();
        let none = Vec::new();
        match self.random.weighed(&[[45, 16, 12, 4][registered.min(3)], 6, 6 + 7 * registered.min(4), 1, 4, 7, 12, 5, 5, 1, 1, 1, 7]) {
            0 => {
                let mark = self.random.pick(&MARKS);
                (Event::Register { mark }, manifest(&mut self.random, &self.board))
            }
            1 => (self.unregister(), none),
            2 => (self.call(), none),
            3 => (Event::Return, none),
            4 => (Event::Jump { address: self.stretch().0 }, none),
            9 => (Event::PcrRead { index: self.index() }, none),
            10 => (Event::ExtendPayload { index: self.index() }, none),
            11 => (self.extend_memory(), none),
            12 => (self.look(), none),
            kind => self.reading_or_writing(kind),
        }
    }

    fn secure_event(&mut self, running: Running) -> (Event, Vec<u8>) {
        let none = Vec::new();
        match self.random.weighed(&[2, 2, 2, 12, 9, 12, 16, 4, 5, 11, 7, 12, 4, 6]) {
            0 => (Event::Register { mark: 7 }, manifest(&mut self.random, &self.board)),
            1 => (self.unregister(), none),
            2 => (self.call(), none),
            3 => (Event::Return, none),
            4 => (self.jump(running.slot), none),
            9 => (Event::PcrRead { index: self.index() }, none),
            10 => {
                let n = self.random.pick(&[0, 1, 4, 20, 55, 56, 63, 64, 65, 119, 120, 500, 4096, 4097]).min(self.most);
                (Event::ExtendPayload { index: self.index() }, self.payload(n))
            }
            11 => (self.extend_memory(), none),
            12 => (self.look(), none),
            13 => self.output(running.slot),
            kind => self.reading_or_writing(kind),
        }
    }

    fn reading_or_writing(&mut self, kind: usize) -> (Event, Vec<u8>) {
        let (address, length) = self.stretch();
        let most = self.most as u64;
        let n = if length > most && self.random.in_hundred(95) { length % (most + 1) } else { length.min(most + 3) };
        match kind {
            5 => (Event::Read { address, length }, Vec::new()),
            6 => (Event::Write { address }, self.payload(n as usize)),
            7 => (Event::DeviceRead { address, length }, Vec::new()),
            _ => (Event::DeviceWrite { address }, self.payload(n as usize)),
        }
    }

    fn payload(&mut self, n: usize) -> Vec<u8> {
        self.random.bytes(n)
    }

    fn index(&mut self) -> u64 {
        self.random.pick(&[0, 0, 1, 2, 3, 4, 5, 6, 7, 7, 8, 9, 255, 256, (1 << 32) + 1, u64::MAX])
    }

    fn unregister(&mut self) -> Event {
        let taken: Vec<usize> = (0..8).filter(|slot| self.board.slots[*slot].is_some()).collect();
        if taken.is_empty() || self.random.in_hundred(25) {
            return Event::Unregister { mark: self.random.pick(&MARKS), slot: self.random.pick(&[0, 1, 2, 7, 8, 9, 255, 256, 1 << 32, u64::MAX]) };
        }
        let slot = self.random.pick(&taken);
        let mark = self.board.slots[slot].as_ref().unwrap().mark;
        match self.random.below(10) {
            0 => Event::Unregister { mark: mark ^ 1, slot: slot as u64 },
            1 => Event::Unregister { mark: mark ^ 1 << 32, slot: slot as u64 },
            2 => Event::Unregister { mark, slot: slot as u64 + self.random.pick(&[1, 8, 256, 1 << 32]) },
            _ => Event::Unregister { mark, slot: slot as u64 },
        }
    }

    fn call(&mut self) -> Event {
        let mut known = Vec::new();
        for block in self.board.slots.iter().flatten() {
            known.extend(block.manifest.entries().iter().map(|entry| (block.mark, *entry)));
        }
        if known.is_empty() {
            let (address, input) = self.stretch();
            return Event::Call { mark: 7, address, input, output: 0 };
        }
        let (mut mark, entry) = self.random.pick(&known);
        let mut address = entry.address as u64;
        match self.random.below(30) {
            0 => mark ^= 1,
            1 => mark ^= 1 << 32,
            2 => address += 1,
            3 => address = address.wrapping_sub(1),
            4 => address |= 1 << 32,
            5 => mark = self.random.pick(&known).0,
            _ => {}
        }
        let input = self.parameter(entry.input);
        let output = if self.random.in_hundred(10) { input.wrapping_add(self.random.pick(&[0, 1, 3])) } else { self.parameter(entry.output) };
        Event::Call { mark, address, input, output }
    }

    /// An address for a call's input or output: most lie where they may.
    fn parameter(&mut self, length: u16) -> u64 {
        let open: Vec<usize> = (0..self.board.pages.len()).filter(|page| self.board.is_open(*page)).collect();
        if open.is_empty() || self.random.in_hundred(10) {
            return self.stretch().0;
        }
        let spare = PAGE - length as usize;
        let offset = match self.random.below(10) {
            0..=2 => spare,
            3 => spare + 1,
            4 => 0,
            _ => self.random.below(spare + 1),
        };
        (self.random.pick(&open) * PAGE + offset) as u64
    }

    fn jump(&mut self, slot: usize) -> Event {
        let code: Vec<usize> = (0..self.board.pages.len()).filter(|page| self.board.pages[*page] == Page::Of(slot, Kind::Code)).collect();
        let page = self.random.pick(&code);
        let within = self.random.below(PAGE);
        let address = match self.random.below(10) {
            0 => self.stretch().0,
            1 => self.random.pick(&[page * PAGE + PAGE, (page * PAGE).wrapping_sub(1), self.board.memory.len()]) as u64,
            _ => (page * PAGE + self.random.pick(&[0, 1, 4095, within])) as u64,
        };
        Event::Jump { address }
    }

    fn extend_memory(&mut self) -> Event {
        let (address, length) = self.stretch();
        Event::ExtendMemory { index: self.index(), address, length }
    }

    /// A whole page, one that was released lately if there is one.
    fn look(&mut self) -> Event {
        let open: Vec<usize> = (0..self.board.pages.len()).filter(|page| self.board.is_open(*page)).collect();
        let page = match (self.released.pop(), open.is_empty()) {
            (Some(page), _) => page,
            (None, true) => 0,
            _ => self.random.pick(&open),
        };
        let (address, length) = ((page * PAGE) as u64, PAGE as u64);
        if self.random.in_hundred(20) {
            Event::DeviceRead { address, length }
        } else {
            Event::Read { address, length }
        }
    }

    /// Bytes about where a codeblock's output begins and ends.
    fn output(&mut self, slot: usize) -> (Event, Vec<u8>) {
        let param = self.board.pages.iter().position(|page| *page == Page::Of(slot, Kind::Param)).unwrap();
        let offset = self.random.pick(&[0, 1, 2046, 2047, 2048, 2049, 2050, 3000, 4094, 4095]);
        let n = (PAGE - offset).min(1 + self.random.below(200)).min(self.most);
        (Event::Write { address: (param * PAGE + offset) as u64 }, self.payload(n))
    }

    /// An address and a length: a page of some kind, at its edges or within, most often a range.
    fn stretch(&mut self) -> (u64, u64) {
        let pages = self.board.pages.len();
        let wanted = self.random.below(7);
        let running = self.board.running.map(|running| running.slot);
        let some: Vec<usize> = (0..pages)
            .filter(|page| match (wanted, self.board.pages[*page]) {
                (0, found) => found == Page::Open,
                (1, Page::Of(slot, _)) => Some(slot) != running,
                (2..=5, Page::Of(slot, _)) => Some(slot) == running,
                (2..=5, Page::Open) => running == None,
                _ => false,
            })
            .collect();
        let page = if some.is_empty() { self.random.below(pages + 1) } else { self.random.pick(&some) };
        let within = self.random.below(PAGE);
        let offset = self.random.pick(&[0, 0, 1, 2047, 2048, 4000, 4094, 4095, within, within]);
        let left = PAGE - offset;
        let some_of = 1 + self.random.below(left.min(300));
        let length = match self.random.below(20) {
            0..=10 => some_of,
            11..=13 => left,
            14 => left + 1,
            15 => 1,
            16 => 0,
            17 => 4096,
            18 => 4097,
            _ => return (self.random.pick(&[(page * PAGE) as u64, 0, u64::MAX, 1 << 32, 1 << 63]), self.random.pick(&FAR)),
        };
        let address = (page * PAGE + offset) as u64;
        (if self.random.in_hundred(2) { address | 1 << 32 } else { address }, length as u64)
    }
}

/// The line of an event.
pub fn text(event: Event, payload: &[u8]) -> String {
    let bytes = if payload.is_empty() { "-".to_string() } else { hex(payload) };
    match event {
        Event::Register { mark } => format!("reg {mark} {bytes}"),
        Event::Unregister { mark, slot } => format!("unr {mark} {slot}"),
        Event::Call { mark, address, input, output } => format!("call {mark} {address} {input} {output}"),
        Event::Return => "ret".to_string(),
        Event::Jump { address } => format!("jmp {address}"),
        Event::Read { address, length } => format!("get {address} {length}"),
        Event::Write { address } => format!("put {address} {bytes}"),
        Event::DeviceRead { address, length } => format!("dget {address} {length}"),
        Event::DeviceWrite { address } => format!("dput {address} {bytes}"),
        Event::ExtendPayload { index } => format!("extp {index} {bytes}"),
        Event::ExtendMemory { index, address, length } => format!("extm {index} {address} {length}"),
        Event::PcrRead { index } => format!("pcr {index}"),
    }
}
