//! The program `ridefile` as a function from input bytes to output bytes.

use crate::{create, insert, join, reply, scan, search, split};
use std::fmt::Write;

/// How much of the input is read.
pub const LONGEST_INPUT: usize = 4_096;

const CAPACITY: u64 = 2;
const SLOTS: usize = 4;
const BUCKETS: usize = 16;
const CLIENTS: usize = 4;
const FILE_LENGTH: usize = 16 + BUCKETS * (8 + 24 * SLOTS);

enum Command {
    Split,
    Insert { client: u64, key: u64 },
    Search { client: u64, key: u64 },
    Scan { client: u64, lift: u32 },
}

/// A decimal number below 2^64 without spare zeros.
fn number(text: &[u8]) -> Option<u64> {
    let spare_zero = text.len() > 1 && text[0] == b'0';
    if text.is_empty() || spare_zero {
        return None;
    }
    text.iter().try_fold(0u64, |value, byte| {
        let digit = byte.is_ascii_digit().then(|| u64::from(byte - b'0'))?;
        value.checked_mul(10)?.checked_add(digit)
    })
}

fn command(line: &[u8]) -> Option<Command> {
    let words: Vec<&[u8]> = line.split(|&byte| byte == b' ').collect();
    match words[..] {
        [b"G"] => Some(Command::Split),
        [b"I", client, key] => Some(Command::Insert { client: number(client)?, key: number(key)? }),
        [b"S", client, key] => Some(Command::Search { client: number(client)?, key: number(key)? }),
        [b"A", client, lift] => {
            let lift = u32::try_from(number(lift)?).ok()?;
            Some(Command::Scan { client: number(client)?, lift })
        }
        _ => None,
    }
}

fn joined(numbers: impl Iterator<Item = u32>, mark: &str) -> String {
    let texts: Vec<String> = numbers.map(|number| number.to_string()).collect();
    texts.join(mark)
}

struct RideFile {
    file: [u8; FILE_LENGTH],
    table: [u8; CLIENTS * 8],
}

impl RideFile {
    fn new() -> RideFile {
        let mut made = RideFile { file: [0; FILE_LENGTH], table: [0; CLIENTS * 8] };
        create(&mut made.file, CAPACITY, SLOTS as u64, BUCKETS as u64);
        for client in 0..CLIENTS {
            join(&mut made.table, client as u64);
        }
        made
    }

    fn run(&mut self, command: Command) -> String {
        match command {
            Command::Split => self.split(),
            Command::Scan { client, lift } => self.scan(client, lift),
            Command::Insert { client, key } => {
                let mut answer = [0; 24];
                insert(&mut self.file, &mut self.table, client, key, &[0; 14], &mut answer);
                ride_line('I', &answer)
            }
            Command::Search { client, key } => {
                let mut answer = [0; 24];
                search(&self.file, &mut self.table, client, key, &mut answer);
                ride_line('S', &answer)
            }
        }
    }

    fn split(&mut self) -> String {
        let answer = split(&mut self.file);
        if answer.reply == u32::from(reply::DONE) {
            format!("G 0 {}>{}", answer.old_bucket, answer.new_bucket)
        } else {
            format!("G {} -", answer.reply)
        }
    }

    fn scan(&self, client: u64, lift: u32) -> String {
        let mut visits = [0; BUCKETS];
        let mut matches = [0; BUCKETS * SLOTS];
        let answer = scan(&self.file, &self.table, client, lift, &mut visits, &mut matches);
        if answer.reply != u32::from(reply::DONE) {
            return format!("A {} -", answer.reply);
        }
        let visited = visits[..answer.visits as usize].iter().map(|&bucket| bucket.into());
        format!("A 0 {} {}", joined(visited, ","), answer.matches)
    }
}

fn ride_line(letter: char, answer: &[u8; 24]) -> String {
    let numbers = answer[2..8].chunks_exact(2).map(|pair| u32::from(u16::from_le_bytes([pair[0], pair[1]])));
    let route = joined(numbers.take(answer[1].into()), ">");
    let route = if route.is_empty() { "-" } else { &route };
    format!("{letter} {} {route}", answer[0])
}

/// What `ridefile` prints for an input.
pub fn run(input: &[u8]) -> Vec<u8> {
    let input = &input[..input.len().min(LONGEST_INPUT)];
    let mut rides = RideFile::new();
    let mut output = String::new();
    for line in input.split_inclusive(|&byte| byte == b'\n') {
        let printed = match line.strip_suffix(b"\n").and_then(command) {
            Some(command) => rides.run(command),
            None => "?".to_string(),
        };
        writeln!(output, "{printed}").expect("a string takes every line");
    }
    output.into_bytes()
}
