//! Manifests: of every shape, on the board's open pages or near them, and with one thing wrong.
use crate::random::Random;
use second::board::Board;
use second::manifest::{Entry, Run, PAGE};

/// Runs and entries that need not keep a rule.
#[derive(Clone)]
pub struct Draft {
    pub runs: Vec<Run>,
    pub entries: Vec<Entry>,
}

pub fn run(kind: u8, count: u16, first: u32) -> Run {
    Run { kind, count, first }
}

pub fn entry(address: u32, input: u16, output: u16) -> Entry {
    Entry { address, input, output }
}

impl Draft {
    pub fn bytes(&self) -> Vec<u8> {
        let mut bytes = Vec::new();
        for run in &self.runs {
            bytes.extend([run.kind, 0]);
            bytes.extend(run.count.to_le_bytes());
            bytes.extend(run.first.to_le_bytes());
        }
        for entry in &self.entries {
            bytes.extend(entry.address.to_le_bytes());
            bytes.extend(entry.input.to_le_bytes());
            bytes.extend(entry.output.to_le_bytes());
        }
        let (r, e) = (self.runs.len() as u8, self.entries.len() as u8);
        bytes.extend(b"SSCB\x01");
        bytes.extend([r, e, 0]);
        bytes.extend((8 * (r as u32 + e as u32)).to_le_bytes());
        bytes.extend((8 * e as u32).to_le_bytes());
        bytes
    }
}

/// A manifest for a registration: most are accepted, the others nearly so.
pub fn manifest(random: &mut Random, board: &Board) -> Vec<u8> {
    let everywhere: Vec<usize> = (0..board.pages.len() + 2).collect();
    let open: Vec<usize> = everywhere.iter().copied().filter(|page| board.is_open(*page)).collect();
    let among = if open.len() >= 2 && random.in_hundred(90) { open } else { everywhere };
    let mut draft = good(random, &among);
    match random.weighed(&[58, 22, 14, 6]) {
        0 => draft.bytes(),
        1 => wrong(random, &mut draft),
        2 => changed(random, draft.bytes()),
        _ => resized(random, draft.bytes()),
    }
}

/// One that keeps every rule, with its pages among those given (rising, two at least).
pub fn good(random: &mut Random, among: &[usize]) -> Draft {
    let small = random.in_hundred(40);
    let r = if small { 2 } else { random.pick(&[2, 3, 4]) }.min(among.len());
    let mut kinds = vec![1, 4];
    while kinds.len() < r {
        kinds.push(random.pick(&[1, 2, 3]));
    }
    random.shuffle(&mut kinds);
    let mut places: Vec<usize> = (0..among.len()).collect();
    random.shuffle(&mut places);
    places.truncate(r);
    places.sort_unstable();
    let mut runs = Vec::new();
    for i in 0..r {
        let limit = places.get(i + 1).copied().unwrap_or(among.len());
        let mut count = 1;
        while kinds[i] != 4 && !small && count < 12 && places[i] + count < limit && among[places[i] + count] == among[places[i]] + count && random.in_hundred(50) {
            count += 1;
        }
        runs.push(run(kinds[i], count as u16, among[places[i]] as u32));
    }
    let entries = entries(random, &runs);
    Draft { runs, entries }
}

fn entries(random: &mut Random, runs: &[Run]) -> Vec<Entry> {
    let code: Vec<Run> = runs.iter().copied().filter(|run| run.kind == 1).collect();
    let e = 1 + random.below(8);
    let mut addresses = Vec::new();
    while addresses.len() < e {
        let part = random.pick(&code);
        let page = part.first as usize + random.below(part.count as usize);
        let other = random.below(PAGE);
        addresses.push((page * PAGE + random.pick(&[0, 0, 1, 4, 2048, 4094, 4095, other])) as u32);
        addresses.sort_unstable();
        addresses.dedup();
    }
    let lengths = [0, 0, 1, 2, 4, 20, 64, 255, 256, 1000, 2047, 2048, 2048];
    addresses.into_iter().map(|address| entry(address, random.pick(&lengths), random.pick(&lengths))).collect()
}

/// One rule broken, or just kept.
fn wrong(random: &mut Random, draft: &mut Draft) -> Vec<u8> {
    let (i, k) = (random.below(draft.runs.len()), random.below(draft.entries.len()));
    let (runs, entries) = (&mut draft.runs, &mut draft.entries);
    match random.below(24) {
        0 => runs[i].kind = random.pick(&[0, 5, 255]),
        1 => runs[i].count = random.pick(&[0, 2, 64, 65, 256, 257, 65535]),
        2 => runs.reverse(),
        3 => runs[i].first = runs[0].first,
        4 => runs[i] = run(runs[i].kind, random.pick(&[1, 2]), random.pick(&[1022, 1023, 1024, 65536, u32::MAX])),
        5 => *runs = vec![run(1, 1, 0), run(2, random.pick(&[62, 63]), 1), run(4, 1, 900)],
        6 => runs.iter_mut().for_each(|run| run.kind = if run.kind == 1 { 2 } else { run.kind }),
        7 => runs.iter_mut().for_each(|run| run.kind = if run.kind == 4 { 3 } else { run.kind }),
        8 => runs[i].kind = 4,
        9 => runs.iter_mut().for_each(|run| run.count += if run.kind == 4 { 1 } else { 0 }),
        10 => entries[k].input = random.pick(&[2049, 2050, 4096, 65535]),
        11 => entries[k].output = random.pick(&[2049, 2050, 4096, 65535]),
        12 => entries.reverse(),
        13 => entries[k].address = entries[0].address,
        14 => entries[k].address = (runs[i].first.wrapping_add(runs[i].count as u32)).wrapping_mul(PAGE as u32),
        15 => entries[k].address = (runs[i].first.wrapping_mul(PAGE as u32)).wrapping_sub(1),
        16 => entries[k].address = runs[i].first.wrapping_mul(PAGE as u32),
        17 => entries[k].address |= 1 << random.pick(&[24, 31]),
        18 => runs.truncate(1),
        19 => entries.clear(),
        20 => runs.push(run(2, 1, 1023)),
        21 => entries.push(entry(entries[0].address + 1, 0, 0)),
        22 => runs[i].first += 1,
        _ => runs[i].count += 1,
    }
    draft.bytes()
}

/// One byte changed, most often in the trailer or to a value near by.
fn changed(random: &mut Random, mut bytes: Vec<u8>) -> Vec<u8> {
    let n = bytes.len();
    let at = if random.in_hundred(40) { n - 1 - random.below(16) } else { random.below(n) };
    bytes[at] = match random.below(4) {
        0 => bytes[at] ^ 1 << random.below(8),
        1 => bytes[at].wrapping_add(1),
        2 => bytes[at].wrapping_sub(1),
        _ => random.number() as u8,
    };
    bytes
}

/// Bytes missing or too many, or a trailer that says another number of runs and entries than the length does.
fn resized(random: &mut Random, mut bytes: Vec<u8>) -> Vec<u8> {
    let n = bytes.len();
    match random.below(7) {
        0 => bytes.truncate(n - 1),
        1 => bytes.push(0),
        2 => bytes.truncate(random.below(n)),
        3 => drop(bytes.drain(..8)),
        4 => drop(bytes.splice(..0, [0; 8])),
        5 => (bytes[n - 11], bytes[n - 10]) = (bytes[n - 11] + 1, bytes[n - 10].wrapping_sub(1)),
        _ => bytes.clear(),
    }
    bytes
}
