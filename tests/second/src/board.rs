//! The board: pages, codeblocks, memory, and the eleven events on them.
use crate::event::{Answer, Event, No};
use crate::manifest::{Entry, Kind, Manifest, PAGE};
use crate::sha1::{sha1, Digest};

pub const SLOTS: usize = 8;
pub const PCRS: usize = 8;
const PAYLOAD: usize = 4096;
const OUTPUT_AT: usize = 2048;

/// Who has a page.
#[derive(Clone, Copy, PartialEq, Eq, Debug)]
pub enum Page {
    Open,
    Monitors,
    Of(usize, Kind),
}

#[derive(Clone, PartialEq, Eq, Debug)]
pub struct Codeblock {
    pub mark: u64,
    pub manifest: Manifest,
    pub pcrs: [Digest; PCRS],
}

#[derive(Clone, Copy, PartialEq, Eq, Debug)]
pub struct Running {
    pub slot: usize,
    pub out: u64,
    pub length: u16,
}

#[derive(Clone, PartialEq, Eq, Debug)]
pub struct Board {
    pub pages: Vec<Page>,
    pub slots: [Option<Codeblock>; SLOTS],
    pub running: Option<Running>,
    pub memory: Vec<u8>,
}

/// What is done to a page that is reached.
#[derive(Clone, Copy, PartialEq)]
enum Reach {
    Look,
    Change,
    Device,
}

impl Board {
    pub fn start(pages: u64, kept: u64) -> Result<Board, No> {
        if !(2..=1024).contains(&pages) || kept < 1 || kept >= pages {
            return Err(4);
        }
        let (all, under) = (pages as usize, (pages - kept) as usize);
        let page = |p| if p < under { Page::Open } else { Page::Monitors };
        Ok(Board { pages: (0..all).map(page).collect(), slots: Default::default(), running: None, memory: vec![0; all * PAGE] })
    }

    /// One event, with its payload and as much room for the answer's bytes. Refused, it has changed nothing.
    pub fn event(&mut self, event: Event, payload: &[u8], room: usize) -> Result<Answer, No> {
        match event {
            Event::Register { mark } => self.register(mark, payload),
            Event::Unregister { mark, slot } => self.unregister(mark, slot),
            Event::Call { mark, address, input, output } => self.call(mark, address, input, output),
            Event::Return => self.give_back(),
            Event::Jump { address } => self.jump(address),
            Event::Read { address, length } => self.read(address, length, room, Reach::Look),
            Event::Write { address } => self.write(address, payload, Reach::Change),
            Event::DeviceRead { address, length } => self.read(address, length, room, Reach::Device),
            Event::DeviceWrite { address } => self.write(address, payload, Reach::Device),
            Event::ExtendPayload { index } => self.extend(index, |_, _| if payload.len() > PAYLOAD { Err(4) } else { Ok(payload.to_vec()) }),
            Event::ExtendMemory { index, address, length } => self.extend(index, |board, slot| board.own_bytes(slot, address, length)),
            Event::PcrRead { index } => self.pcr(index, room),
        }
    }

    fn register(&mut self, mark: u64, payload: &[u8]) -> Result<Answer, No> {
        self.legacy()?;
        let manifest = Manifest::read(payload).ok_or(3u8)?;
        if manifest.pages().iter().any(|(page, _)| !self.is_open(*page)) {
            return Err(6);
        }
        let slot = self.slots.iter().position(Option::is_none).ok_or(7u8)?;
        let contents: Vec<&[u8]> = manifest.pages().iter().map(|(page, _)| &self.memory[page * PAGE..(page + 1) * PAGE]).collect();
        let mut pcrs = [[0; 20]; PCRS];
        pcrs[0] = sha1(&[&[0; 20], &sha1(&contents)]);
        for (page, kind) in manifest.pages() {
            self.pages[*page] = Page::Of(slot, *kind);
        }
        self.slots[slot] = Some(Codeblock { mark, manifest, pcrs });
        Ok(Answer::Slot(slot))
    }

    fn unregister(&mut self, mark: u64, slot: u64) -> Result<Answer, No> {
        self.legacy()?;
        match self.slots.get(slot.min(99) as usize) {
            Some(Some(block)) if block.mark == mark => {}
            _ => return Err(8),
        }
        self.release(slot as usize);
        Ok(Answer::Done)
    }

    fn call(&mut self, mark: u64, address: u64, input: u64, output: u64) -> Result<Answer, No> {
        self.legacy()?;
        let (slot, entry) = self.entry(mark, address).ok_or(8u8)?;
        let (from, to) = (self.parameter(input, entry.input)?, self.parameter(output, entry.output)?);
        for place in [from, to].iter().flatten() {
            if !self.is_open(place / PAGE) {
                return Err(5);
            }
        }
        if let Some(at) = from {
            let param = self.param_page(slot);
            self.memory.copy_within(at..at + entry.input as usize, param);
        }
        self.running = Some(Running { slot, out: to.unwrap_or(0) as u64, length: entry.output });
        Ok(Answer::Entered(slot))
    }

    fn give_back(&mut self) -> Result<Answer, No> {
        let running = self.secure()?;
        let (n, from) = (running.length as usize, self.param_page(running.slot) + OUTPUT_AT);
        self.memory.copy_within(from..from + n, running.out as usize);
        self.running = None;
        Ok(Answer::Left(n))
    }

    fn jump(&mut self, address: u64) -> Result<Answer, No> {
        let page = if address < self.memory.len() as u64 { Some(self.pages[address as usize / PAGE]) } else { None };
        match (self.running, page) {
            (None, None) => Err(4),
            (None, Some(Page::Open)) => Ok(Answer::Done),
            (None, Some(_)) => Err(5),
            (Some(running), Some(at)) if at == Page::Of(running.slot, Kind::Code) => Ok(Answer::Done),
            (Some(running), _) => {
                self.release(running.slot);
                Ok(Answer::Terminated(running.slot))
            }
        }
    }

    fn read(&self, address: u64, length: u64, room: usize, reach: Reach) -> Result<Answer, No> {
        let at = self.range(address, length)?;
        self.reach(at / PAGE, reach)?;
        if length as usize > room {
            return Err(9);
        }
        Ok(Answer::Bytes(self.memory[at..at + length as usize].to_vec()))
    }

    fn write(&mut self, address: u64, payload: &[u8], reach: Reach) -> Result<Answer, No> {
        let at = self.range(address, payload.len() as u64)?;
        self.reach(at / PAGE, reach)?;
        self.memory[at..at + payload.len()].copy_from_slice(payload);
        Ok(Answer::Done)
    }

    fn extend(&mut self, index: u64, bytes: impl Fn(&Board, usize) -> Result<Vec<u8>, No>) -> Result<Answer, No> {
        let slot = self.secure()?.slot;
        if index >= PCRS as u64 {
            return Err(10);
        }
        let measured = sha1(&[&bytes(self, slot)?]);
        let pcr = &mut self.slots[slot].as_mut().unwrap().pcrs[index as usize];
        *pcr = sha1(&[&*pcr, &measured]);
        Ok(Answer::Done)
    }

    fn pcr(&self, index: u64, room: usize) -> Result<Answer, No> {
        let slot = self.secure()?.slot;
        if index >= PCRS as u64 {
            return Err(10);
        }
        if room < 20 {
            return Err(9);
        }
        Ok(Answer::Bytes(self.slots[slot].as_ref().unwrap().pcrs[index as usize].to_vec()))
    }

    /// The bits of the device map.
    pub fn device_map(&self, room: usize) -> Result<Answer, No> {
        let mut map = vec![0xffu8; (self.pages.len() + 7) / 8];
        if map.len() > room {
            return Err(9);
        }
        for page in 0..self.pages.len() {
            if self.is_open(page) {
                map[page / 8] &= !(1 << (page % 8));
            }
        }
        Ok(Answer::Bytes(map))
    }

    fn legacy(&self) -> Result<(), No> {
        match self.running {
            None => Ok(()),
            Some(_) => Err(2),
        }
    }

    fn secure(&self) -> Result<Running, No> {
        self.running.ok_or(2)
    }

    pub fn is_open(&self, page: usize) -> bool {
        self.pages.get(page) == Some(&Page::Open)
    }

    /// Where a range begins: 1 to 4,096 bytes, all in one page and in memory.
    pub fn range(&self, address: u64, length: u64) -> Result<usize, No> {
        let most = (PAGE as u64) - address % PAGE as u64;
        if length < 1 || length > most || address >= self.memory.len() as u64 {
            return Err(4);
        }
        Ok(address as usize)
    }

    /// A call's range; of length 0 it is none, and its address is not looked at.
    fn parameter(&self, address: u64, length: u16) -> Result<Option<usize>, No> {
        if length == 0 {
            return Ok(None);
        }
        self.range(address, length as u64).map(Some)
    }

    fn reach(&self, page: usize, reach: Reach) -> Result<(), No> {
        let may = match (self.pages[page], self.running) {
            (Page::Open, _) if reach == Reach::Device => true,
            (Page::Open, None) => true,
            (Page::Of(slot, kind), Some(running)) if reach != Reach::Device => slot == running.slot && (reach == Reach::Look || kind != Kind::Code),
            _ => false,
        };
        if may {
            Ok(())
        } else {
            Err(5)
        }
    }

    fn own_bytes(&self, slot: usize, address: u64, length: u64) -> Result<Vec<u8>, No> {
        if length == 0 {
            return Ok(Vec::new());
        }
        let at = self.range(address, length)?;
        match self.pages[at / PAGE] {
            Page::Of(of, _) if of == slot => Ok(self.memory[at..at + length as usize].to_vec()),
            _ => Err(5),
        }
    }

    fn entry(&self, mark: u64, address: u64) -> Option<(usize, Entry)> {
        for (slot, block) in self.slots.iter().enumerate() {
            if let Some(block) = block {
                let found = block.manifest.entries().iter().find(|entry| entry.address as u64 == address);
                if let (true, Some(entry)) = (block.mark == mark, found) {
                    return Some((slot, *entry));
                }
            }
        }
        None
    }

    /// Where the codeblock's param page begins.
    fn param_page(&self, slot: usize) -> usize {
        self.pages.iter().position(|page| *page == Page::Of(slot, Kind::Param)).unwrap() * PAGE
    }

    fn release(&mut self, slot: usize) {
        for (page, place) in self.pages.iter_mut().enumerate() {
            match *place {
                Page::Of(of, _) if of == slot => {
                    self.memory[page * PAGE..(page + 1) * PAGE].fill(0);
                    *place = Page::Open;
                }
                _ => {}
            }
        }
        self.slots[slot] = None;
        self.running = None;
    }
}
