//! The program that the second monitor is compared with, and the search for the shortest input on which they differ.
use std::io::Write;
use std::process::{Command, Stdio};
use std::time::{Duration, Instant};

pub struct Rival(pub Vec<String>);

impl Rival {
    /// All that the program writes for that input.
    pub fn output(&self, input: &[u8]) -> Vec<u8> {
        let mut child = Command::new(&self.0[0]).args(&self.0[1..]).stdin(Stdio::piped()).stdout(Stdio::piped()).spawn().expect("the program does not start");
        let mut stdin = child.stdin.take().unwrap();
        std::thread::scope(|scope| {
            scope.spawn(move || stdin.write_all(input)); // a program that ends early is seen by its output
            let output = child.wait_with_output().expect("the program's output");
            if output.status.success() {
                output.stdout
            } else {
                format!("the program ended with {}\n", output.status).into_bytes()
            }
        })
    }
}

/// The lines that are left when as many as possible are taken away and the answers still differ: halves first, then smaller parts, one line at last.
pub fn shrunk(mut lines: Vec<Vec<u8>>, differ: impl Fn(&[Vec<u8>]) -> bool) -> Vec<Vec<u8>> {
    let end = Instant::now() + Duration::from_secs(30);
    let mut part = (lines.len() / 2).max(1);
    loop {
        let (mut at, mut fewer) = (0, false);
        while at < lines.len() && Instant::now() < end {
            let mut rest = lines.clone();
            rest.drain(at..(at + part).min(lines.len()));
            if differ(&rest) {
                lines = rest;
                fewer = true;
            } else {
                at += part;
            }
        }
        if Instant::now() >= end || (part == 1 && !fewer) {
            return lines;
        }
        part = (part / 2).max(1);
    }
}
