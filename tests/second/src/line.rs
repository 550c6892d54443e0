//! The line program: one line in, one answer out.
use crate::board::Board;
use crate::event::{Answer, Event, No};
use std::io::{self, BufRead, Read, Write};

const MOST: usize = 2000;

/// Answers every line of the input on a board of P pages, M of them kept, and as much room for an answer's bytes.
pub fn answer_all(pages: u64, kept: u64, room: usize, input: &mut impl BufRead, output: &mut impl Write) -> io::Result<()> {
    let mut board = Board::start(pages, kept).expect("P or M is out of range");
    let mut line = Vec::new();
    loop {
        line.clear();
        // of a line that is too long, two characters too many are enough to see it
        if input.by_ref().take(MOST as u64 + 2).read_until(b'\n', &mut line)? == 0 {
            return Ok(());
        }
        if line.last() == Some(&b'\n') {
            line.pop();
        } else if line.len() > MOST {
            skip_line(input)?;
        }
        writeln!(output, "{}", answer(&mut board, &line, room))?;
    }
}

fn skip_line(input: &mut impl BufRead) -> io::Result<()> {
    loop {
        let block = input.fill_buf()?;
        let end = block.iter().position(|byte| *byte == b'\n');
        let used = end.map_or(block.len(), |at| at + 1);
        input.consume(used);
        if end.is_some() || used == 0 {
            return Ok(());
        }
    }
}

/// What the program answers to one line.
pub fn answer(board: &mut Board, line: &[u8], room: usize) -> String {
    match event_of(line) {
        Some((event, payload)) => text(board.event(event, &payload, room)),
        None => text(Err(11)),
    }
}

pub fn text(answer: Result<Answer, No>) -> String {
    match answer {
        Ok(Answer::Done) => "ok".to_string(),
        Ok(Answer::Slot(slot)) => format!("slot {slot}"),
        Ok(Answer::Entered(slot)) => format!("in {slot}"),
        Ok(Answer::Left(n)) => format!("out {n}"),
        Ok(Answer::Terminated(slot)) => format!("dead {slot}"),
        Ok(Answer::Bytes(bytes)) => format!("hex {}", hex(&bytes)),
        Err(number) => format!("no {number}"),
    }
}

pub fn hex(bytes: &[u8]) -> String {
    const DIGITS: &[u8; 16] = b"0123456789abcdef";
    let mut text = String::with_capacity(2 * bytes.len());
    for byte in bytes {
        text.push(DIGITS[*byte as usize / 16] as char);
        text.push(DIGITS[*byte as usize % 16] as char);
    }
    text
}

/// A readable line's event and payload.
pub fn event_of(line: &[u8]) -> Option<(Event, Vec<u8>)> {
    if line.len() > MOST {
        return None;
    }
    let fields: Vec<&[u8]> = line.split(|byte| *byte == b' ').collect();
    let number = |i: usize| decimal(fields[i]);
    let mut payload = Vec::new();
    let event = match (fields[0], fields.len() - 1) {
        (b"reg", 2) => {
            payload = pairs(fields[2])?;
            Event::Register { mark: number(1)? }
        }
        (b"unr", 2) => Event::Unregister { mark: number(1)?, slot: number(2)? },
        (b"call", 4) => Event::Call { mark: number(1)?, address: number(2)?, input: number(3)?, output: number(4)? },
        (b"ret", 0) => Event::Return,
        (b"jmp", 1) => Event::Jump { address: number(1)? },
        (b"get", 2) => Event::Read { address: number(1)?, length: number(2)? },
        (b"dget", 2) => Event::DeviceRead { address: number(1)?, length: number(2)? },
        (b"put", 2) => {
            payload = pairs(fields[2])?;
            Event::Write { address: number(1)? }
        }
        (b"dput", 2) => {
            payload = pairs(fields[2])?;
            Event::DeviceWrite { address: number(1)? }
        }
        (b"extp", 2) => {
            payload = pairs(fields[2])?;
            Event::ExtendPayload { index: number(1)? }
        }
        (b"extm", 3) => Event::ExtendMemory { index: number(1)?, address: number(2)?, length: number(3)? },
        (b"pcr", 1) => Event::PcrRead { index: number(1)? },
        _ => return None,
    };
    Some((event, payload))
}

fn decimal(field: &[u8]) -> Option<u64> {
    if field.is_empty() || (field[0] == b'0' && field.len() > 1) {
        return None;
    }
    let mut value = 0u64;
    for byte in field {
        if !byte.is_ascii_digit() {
            return None;
        }
        value = value.checked_mul(10)?.checked_add((byte - b'0') as u64)?;
    }
    Some(value)
}

pub fn pairs(field: &[u8]) -> Option<Vec<u8>> {
    if field == b"-" {
        return Some(Vec::new());
    }
    if field.is_empty() || field.len() % 2 != 0 {
        return None;
    }
    let digit = |byte: u8| match byte {
        b'0'..=b'9' => Some(byte - b'0'),
        b'a'..=b'f' => Some(byte - b'a' + 10),
        _ => None,
    };
    field.chunks(2).map(|pair| Some(16 * digit(pair[0])? + digit(pair[1])?)).collect()
}
