//! The state as document 01's "Machine and numbers" has it, with an owner table: what a host keeps. It may hold anything; well formed it is
//! when it is the picture of a board.
use crate::board::{Board, Codeblock, Page, Running, PCRS, SLOTS};
use crate::manifest::{Entry, Manifest, Run, PAGE};
use crate::sha1::Digest;

#[derive(Clone, PartialEq, Eq, Debug, Default)]
pub struct Fields {
    pub r: u64,
    pub e: u64,
    pub runs: [Run; 4],
    pub entries: [Entry; 8],
}

#[derive(Clone, PartialEq, Eq, Debug, Default)]
pub struct Slot {
    pub registered: bool,
    pub mark: u64,
    pub fields: Fields,
    pub pcrs: [Digest; PCRS],
}

#[derive(Clone, PartialEq, Eq, Debug)]
pub struct Picture {
    pub pages: u64,
    pub kept: u64,
    pub owner: [u8; 1024],
    pub slots: [Slot; SLOTS],
    /// 0 legacy, n + 1 secure in slot n
    pub mode: u64,
    /// the running record: slot, out address, out length
    pub running: [u64; 3],
}

impl Fields {
    pub fn of(manifest: &Manifest) -> Fields {
        let mut fields = Fields { r: manifest.runs().len() as u64, e: manifest.entries().len() as u64, ..Fields::default() };
        fields.runs[..manifest.runs().len()].copy_from_slice(manifest.runs());
        fields.entries[..manifest.entries().len()].copy_from_slice(manifest.entries());
        fields
    }

    /// The manifest that has these fields, if the rules are kept and unused places are zero.
    pub fn manifest(&self) -> Option<Manifest> {
        let (r, e) = (self.r.min(5) as usize, self.e.min(9) as usize);
        let manifest = Manifest::new(self.runs.get(..r)?, self.entries.get(..e)?)?;
        if Fields::of(&manifest) == *self {
            Some(manifest)
        } else {
            None
        }
    }
}

impl Picture {
    /// Start's state where P or M is out of range.
    pub fn zero() -> Picture {
        Picture { pages: 0, kept: 0, owner: [0; 1024], slots: Default::default(), mode: 0, running: [0; 3] }
    }

    pub fn of(board: &Board) -> Picture {
        let mut picture = Picture::zero();
        picture.pages = board.pages.len() as u64;
        picture.kept = board.pages.iter().filter(|page| **page == Page::Monitors).count() as u64;
        picture.owner = owners(&board.pages);
        for (slot, block) in picture.slots.iter_mut().zip(&board.slots) {
            if let Some(block) = block {
                *slot = Slot { registered: true, mark: block.mark, fields: Fields::of(&block.manifest), pcrs: block.pcrs };
            }
        }
        if let Some(running) = board.running {
            picture.mode = running.slot as u64 + 1;
            picture.running = [running.slot as u64, running.out, running.length as u64];
        }
        picture
    }

    /// The board that this is the picture of, on that memory: none where the state is not well formed. The bytes of memory are handed back with it.
    pub fn board(&self, memory: Vec<u8>) -> Result<Board, Vec<u8>> {
        let mut board = match Board::start(self.pages, self.kept) {
            Ok(board) if board.memory.len() == memory.len() => board,
            _ => return Err(memory),
        };
        for (k, slot) in self.slots.iter().enumerate() {
            if !slot.registered {
                if *slot != Slot::default() {
                    return Err(memory);
                }
                continue;
            }
            match slot.fields.manifest() {
                Some(manifest) if manifest.pages().iter().all(|(page, _)| board.is_open(*page)) => {
                    for (page, kind) in manifest.pages() {
                        board.pages[*page] = Page::Of(k, *kind);
                    }
                    board.slots[k] = Some(Codeblock { mark: slot.mark, manifest, pcrs: slot.pcrs });
                }
                _ => return Err(memory),
            }
        }
        if self.owner != owners(&board.pages) || !self.running_right(&board) {
            return Err(memory);
        }
        if self.mode > 0 {
            board.running = Some(Running { slot: self.mode as usize - 1, out: self.running[1], length: self.running[2] as u16 });
        }
        board.memory = memory;
        Ok(board)
    }

    fn running_right(&self, board: &Board) -> bool {
        let [slot, out, length] = self.running;
        if self.mode == 0 {
            return self.running == [0; 3];
        }
        let block = match board.slots.get((self.mode - 1).min(99) as usize) {
            Some(Some(block)) if slot == self.mode - 1 => block,
            _ => return false,
        };
        if !block.manifest.entries().iter().any(|entry| entry.output as u64 == length) {
            return false;
        }
        if length == 0 {
            return out == 0;
        }
        matches!(board.range(out, length), Ok(at) if board.is_open(at / PAGE))
    }
}

fn owners(pages: &[Page]) -> [u8; 1024] {
    let mut owner = [0; 1024];
    for (place, page) in owner.iter_mut().zip(pages) {
        *place = match page {
            Page::Open => 0,
            Page::Monitors => 255,
            Page::Of(slot, _) => *slot as u8 + 1,
        };
    }
    owner
}
