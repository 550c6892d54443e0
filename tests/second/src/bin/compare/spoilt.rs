//! Lines that are not readable, or only just.
use crate::random::Random;

/// The line with one thing changed.
pub fn spoilt(random: &mut Random, line: Vec<u8>) -> Vec<u8> {
    let place = random.below(line.len());
    match random.below(20) {
        0 => [&line[..], b" "].concat(),
        1 => [b" ", &line[..]].concat(),
        2 => line.to_ascii_uppercase(),
        3 => [&line[..], b" 0"].concat(),
        4 => replaced(line, place, random.pick(b"\r\t\0\x0b\xa0\xff/:`g@G-+ ")),
        5 => [&line[..], &[random.pick(b"\r\t\0 \xff-0")]].concat(),
        6 => line[..line.len() - 1].to_vec(),
        7 => Vec::new(),
        8 => [&line[..], b"a"].concat(),
        9 => vec![b'x'; random.pick(&[1, 1999, 2000, 2001, 2002, 4000, 70000])],
        10 => long(random),
        11 => replaced(line, 0, b'G'),
        12 => random.pick(&LINES).as_bytes().to_vec(),
        13 => line.iter().map(|byte| if *byte == b' ' { b'\t' } else { *byte }).collect(),
        _ => one_field(random, &line),
    }
}

/// One field doubled in its space, left out, begun otherwise, or another.
fn one_field(random: &mut Random, line: &[u8]) -> Vec<u8> {
    let mut fields: Vec<Vec<u8>> = line.split(|byte| *byte == b' ').map(<[u8]>::to_vec).collect();
    let at = random.below(fields.len());
    match random.below(6) {
        0 => fields[at].insert(0, b' '),
        1 => drop(fields.remove(at)),
        2 => fields[at].insert(0, random.pick(b"0+-")),
        3 => fields[at] = random.pick(&NUMBERS).as_bytes().to_vec(),
        4 => fields[0] = random.pick(&WORDS).as_bytes().to_vec(),
        _ => fields[at].clear(),
    }
    fields.join(&b' ')
}

const LINES: [&str; 13] = ["put 100 -", "put 100 --", "put 100 AB", "put 100 aB", "put 100 a", "put 100 0g", "extp 8 -", "reg 7 -", "pcr 00", "pcr 7", "unr 7 08", "ret ", "ret 0"];
const NUMBERS: [&str; 9] = ["18446744073709551615", "18446744073709551616", "18446744073709551617", "99999999999999999999", "184467440737095516150", "00", "1e3", "0x10", ""];
const WORDS: [&str; 13] = ["get", "dget", "put", "dput", "reg", "unr", "call", "ret", "jmp", "extp", "extm", "pcr", "new"];

fn replaced(mut line: Vec<u8>, at: usize, byte: u8) -> Vec<u8> {
    line[at] = byte;
    line
}

/// A write of 1,999 to 2,002 characters; up to 2,000 it is readable.
fn long(random: &mut Random) -> Vec<u8> {
    let mut line = random.pick(&["put 0 ", "put 11 ", "dput 1 ", "put 4096 ", "extp 0 ", "extp 10 "]).as_bytes().to_vec();
    let length = random.pick(&[1998, 1999, 2000, 2000, 2001, 2001, 2002]);
    while line.len() < length {
        line.push(random.pick(b"0123456789abcdef"));
    }
    line
}

/// Whole inputs: how they begin and end, and lines longer than any buffer.
pub fn inputs() -> Vec<Vec<u8>> {
    let long = vec![b'x'; 3_000_000];
    let digits = vec![b'a'; 1994];
    let mut all: Vec<Vec<u8>> =
        ["", "\n", "\n\n", "ret", "ret\n", "get 0 1", "get 0 1\n\nget 0 1", "get 0 1\n\n\n", "get 0 1\r\n", "\0", "\0\n\0"].iter().map(|text| text.as_bytes().to_vec()).collect();
    all.push(long.clone());
    all.push([&long[..], b"\nget 0 1\n"].concat());
    all.push([b"put 0 ", &digits[..], b"\nget 996 2"].concat());
    all.push([b"put 0 ", &digits[..], b"a\nget 996 2"].concat());
    all.push([b"put 0 ", &digits[..], b"a"].concat());
    all.push([b"put 0 ", &digits[..]].concat());
    all.push([b"get 0 1\n".repeat(20_000), b"get 0 1".to_vec(), vec![b'1'; 2000]].concat());
    all
}
