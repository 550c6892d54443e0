//! The manifest: "body first, trailer last".

pub const PAGE: usize = 4096;
const LAST_PAGES: usize = 1024;
const MOST_PAGES: usize = 64;
const MOST_BYTES: u16 = 2048;
const TRAILER: usize = 16;

#[derive(Clone, Copy, PartialEq, Eq, Debug)]
pub enum Kind {
    Code,
    Data,
    Stack,
    Param,
}

impl Kind {
    pub fn of(byte: u8) -> Option<Kind> {
        match byte {
            1 => Some(Kind::Code),
            2 => Some(Kind::Data),
            3 => Some(Kind::Stack),
            4 => Some(Kind::Param),
            _ => None,
        }
    }
}

#[derive(Clone, Copy, PartialEq, Eq, Debug, Default)]
pub struct Run {
    pub kind: u8,
    pub count: u16,
    pub first: u32,
}

#[derive(Clone, Copy, PartialEq, Eq, Debug, Default)]
pub struct Entry {
    pub address: u32,
    pub input: u16,
    pub output: u16,
}

/// Runs and entries that keep every rule: there is no other way to make one than `new`.
#[derive(Clone, PartialEq, Eq, Debug)]
pub struct Manifest {
    runs: Vec<Run>,
    entries: Vec<Entry>,
    pages: Vec<(usize, Kind)>,
}

impl Manifest {
    pub fn new(runs: &[Run], entries: &[Entry]) -> Option<Manifest> {
        if !(2..=4).contains(&runs.len()) || !(1..=8).contains(&entries.len()) {
            return None;
        }
        let pages = pages_of(runs)?;
        if !pages.iter().any(|page| page.1 == Kind::Code) || pages.iter().filter(|page| page.1 == Kind::Param).count() != 1 {
            return None;
        }
        let mut before = None;
        for entry in entries {
            let page = entry.address as usize / PAGE;
            if !pages.contains(&(page, Kind::Code)) || entry.input > MOST_BYTES || entry.output > MOST_BYTES {
                return None;
            }
            if before >= Some(entry.address) {
                return None;
            }
            before = Some(entry.address);
        }
        Some(Manifest { runs: runs.to_vec(), entries: entries.to_vec(), pages })
    }

    pub fn read(bytes: &[u8]) -> Option<Manifest> {
        let body = bytes.len().checked_sub(TRAILER)?;
        let trailer = &bytes[body..];
        if trailer[..5] != [0x53, 0x53, 0x43, 0x42, 1] || trailer[7] != 0 {
            return None;
        }
        let (r, e) = (trailer[5] as usize, trailer[6] as usize);
        if body != 8 * (r + e) || number(&trailer[8..12]) as usize != 8 * (r + e) || number(&trailer[12..16]) as usize != 8 * e {
            return None;
        }
        let (mut runs, mut entries) = (Vec::new(), Vec::new());
        for field in bytes[..8 * r].chunks(8) {
            if field[1] != 0 {
                return None;
            }
            runs.push(Run { kind: field[0], count: number(&field[2..4]) as u16, first: number(&field[4..8]) });
        }
        for field in bytes[8 * r..body].chunks(8) {
            entries.push(Entry { address: number(&field[..4]), input: number(&field[4..6]) as u16, output: number(&field[6..8]) as u16 });
        }
        Manifest::new(&runs, &entries)
    }

    pub fn written(&self) -> Vec<u8> {
        let mut bytes = Vec::new();
        for run in &self.runs {
            bytes.extend([run.kind, 0]);
            bytes.extend(run.count.to_le_bytes());
            bytes.extend(run.first.to_le_bytes());
        }
        for entry in &self.entries {
            bytes.extend(entry.address.to_le_bytes());
            bytes.extend(entry.input.to_le_bytes());
            bytes.extend(entry.output.to_le_bytes());
        }
        let back = bytes.len() as u32;
        bytes.extend([0x53, 0x53, 0x43, 0x42, 1, self.runs.len() as u8, self.entries.len() as u8, 0]);
        bytes.extend(back.to_le_bytes());
        bytes.extend((8 * self.entries.len() as u32).to_le_bytes());
        bytes
    }

    pub fn runs(&self) -> &[Run] {
        &self.runs
    }

    pub fn entries(&self) -> &[Entry] {
        &self.entries
    }

    /// Its pages in run order, each with its kind.
    pub fn pages(&self) -> &[(usize, Kind)] {
        &self.pages
    }
}

/// The runs' pages one by one, where they rise without overlap and are few enough.
fn pages_of(runs: &[Run]) -> Option<Vec<(usize, Kind)>> {
    let mut pages: Vec<(usize, Kind)> = Vec::new();
    for run in runs {
        let kind = Kind::of(run.kind)?;
        let after = run.first as usize + run.count as usize;
        if run.count == 0 || after > LAST_PAGES || pages.len() + run.count as usize > MOST_PAGES {
            return None;
        }
        if let Some(last) = pages.last() {
            if run.first as usize <= last.0 {
                return None;
            }
        }
        pages.extend((run.first as usize..after).map(|page| (page, kind)));
    }
    Some(pages)
}

fn number(bytes: &[u8]) -> u32 {
    bytes.iter().rev().fold(0, |sum, byte| sum << 8 | *byte as u32)
}
