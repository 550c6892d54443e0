//! `second [P M ROOM]`: the line program, on P=8, M=1 and room of 4,096 bytes where no numbers are given. `second calls`: scripts of calls.
use crate::{calls, line};
use std::io::{self, BufReader, BufWriter, Write};

pub fn run() -> io::Result<()> {
    let words: Vec<String> = std::env::args().skip(1).collect();
    let (mut input, mut output) = (BufReader::new(io::stdin()), BufWriter::new(io::stdout()));
    if words == ["calls"] {
        calls::answer_all(&mut input, &mut output)?;
    } else {
        let sizes: Vec<u64> = words.iter().map(|word| word.parse().expect("P M ROOM")).collect();
        let (pages, kept, room) = if sizes.is_empty() { (8, 1, 4096) } else { (sizes[0], sizes[1], sizes[2] as usize) };
        line::answer_all(pages, kept, room, &mut input, &mut output)?;
    }
    output.flush()
}
