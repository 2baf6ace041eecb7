//! `compare_ridefile PROGRAM [CASES] [SEED]`: runs the program on random inputs
//! and compares what it prints with the twin's function, byte for byte.

use std::collections::BTreeMap;
use std::io::{ErrorKind, Write};
use std::process::{Command, ExitCode, Stdio};
use std::sync::atomic::{AtomicU64, Ordering};
use std::thread;
use std::time::Duration;
use twin::random::Random;
use twin::ridefile::{run, LONGEST_INPUT};

const DEFAULT_CASES: u64 = 100_000;
const DEFAULT_SEED: u64 = 20_240_611;
/// More than the cores: each thread waits now and then, for its process or in a pause.
const THREADS: u64 = 4;
const PAUSE: Duration = Duration::from_millis(2);

/// How often each letter came with each reply.
type Tally = BTreeMap<String, u64>;

/// How one program's answer to an input differs.
struct Difference {
    case: u64,
    input: Vec<u8>,
    text: String,
}

fn main() -> ExitCode {
    let arguments: Vec<String> = std::env::args().skip(1).collect();
    let number = |at: usize, otherwise: u64| arguments.get(at).map_or(Ok(otherwise), |text| text.parse());
    match (arguments.first(), number(1, DEFAULT_CASES), number(2, DEFAULT_SEED)) {
        (Some(program), Ok(cases), Ok(seed)) if arguments.len() <= 3 => compare(program, cases, seed),
        _ => {
            eprintln!("usage: compare_ridefile PROGRAM [CASES] [SEED]");
            ExitCode::FAILURE
        }
    }
}

fn compare(program: &str, cases: u64, seed: u64) -> ExitCode {
    if let Err(error) = output_of(program, &[b""]) {
        eprintln!("compare_ridefile: `{program}` cannot be run: {error}");
        return ExitCode::FAILURE;
    }
    let lowest_failing = AtomicU64::new(u64::MAX);
    let results: Vec<(Tally, Option<Difference>)> = thread::scope(|scope| {
        let start = |first| {
            let lowest_failing = &lowest_failing;
            scope.spawn(move || run_share(program, cases, seed, first, lowest_failing))
        };
        let threads: Vec<_> = (0..THREADS).map(start).collect();
        threads.into_iter().map(|thread| thread.join().expect("a thread ends by itself")).collect()
    });
    let mut tally = Tally::new();
    let mut differences = Vec::new();
    for (part, difference) in results {
        part.into_iter().for_each(|(name, count)| *tally.entry(name).or_default() += count);
        differences.extend(difference);
    }
    match differences.into_iter().min_by_key(|difference| difference.case) {
        None => {
            let counts: Vec<String> = tally.iter().map(|(name, count)| format!("{name}: {count}")).collect();
            println!("lines printed: {}", counts.join(", "));
            println!("twin: {cases} inputs agree");
            ExitCode::SUCCESS
        }
        Some(Difference { case, input, text }) => {
            println!("seed {seed}, case {case}: program and twin differ");
            println!("input of {} bytes: {}", input.len(), input.escape_ascii());
            println!("{text}");
            ExitCode::FAILURE
        }
    }
}

/// Runs every case of one thread's share, up to its first difference.
fn run_share(
    program: &str,
    cases: u64,
    seed: u64,
    first: u64,
    lowest_failing: &AtomicU64,
) -> (Tally, Option<Difference>) {
    let mut tally = Tally::new();
    let mut case = first;
    while case < cases && case < lowest_failing.load(Ordering::Relaxed) {
        let mut random = Random::new(seed, case);
        let input = random_input(&mut random);
        // Some inputs come in two parts with a pause between them.
        let cut = if random.chance(1, 10) { random.below(input.len() + 1) } else { input.len() };
        match compare_one(program, &input, cut) {
            Ok(output) => count_lines(&output, &mut tally),
            Err(text) => {
                lowest_failing.fetch_min(case, Ordering::Relaxed);
                return (tally, Some(Difference { case, input, text }));
            }
        }
        case += THREADS;
    }
    (tally, None)
}

fn count_lines(output: &[u8], tally: &mut Tally) {
    for line in String::from_utf8_lossy(output).lines() {
        let words: Vec<&str> = line.split(' ').take(2).collect();
        *tally.entry(words.join(" ")).or_default() += 1;
    }
}

fn compare_one(program: &str, input: &[u8], cut: usize) -> Result<Vec<u8>, String> {
    let (first, rest) = input.split_at(cut);
    let parts = if rest.is_empty() { &[first][..] } else { &[first, rest] };
    let printed = output_of(program, parts).map_err(|error| format!("the program failed: {error}"))?;
    let expected = run(input);
    if printed == expected {
        return Ok(printed);
    }
    let mut lines = printed.split(|&byte| byte == b'\n').zip(expected.split(|&byte| byte == b'\n')).enumerate();
    let shown = match lines.find(|(_, (left, right))| left != right) {
        None => String::new(),
        Some((at, (left, right))) => {
            format!(", first in line {}: program `{}`, twin `{}`", at + 1, left.escape_ascii(), right.escape_ascii())
        }
    };
    Err(format!("output of {} bytes, twin's of {}{shown}", printed.len(), expected.len()))
}

/// What the program prints; it must end well. It need not read all of its input.
fn output_of(program: &str, parts: &[&[u8]]) -> std::io::Result<Vec<u8>> {
    let mut child = Command::new(program).stdin(Stdio::piped()).stdout(Stdio::piped()).spawn()?;
    let mut stdin = child.stdin.take().expect("its standard input is a pipe");
    // Input and output both fit a pipe, so writing first cannot block for ever.
    for (at, part) in parts.iter().enumerate() {
        if at > 0 {
            thread::sleep(PAUSE);
        }
        match stdin.write_all(part) {
            Err(error) if error.kind() != ErrorKind::BrokenPipe => return Err(error),
            _ => {}
        }
    }
    drop(stdin);
    let output = child.wait_with_output()?;
    if output.status.success() {
        Ok(output.stdout)
    } else {
        Err(std::io::Error::other(output.status.to_string()))
    }
}

/// An input: a few lines or very many, with a last line that may be cut.
fn random_input(random: &mut Random) -> Vec<u8> {
    let style = Style::random(random);
    let mut input = Vec::new();
    match random.below(12) {
        // Around the longest input.
        0 => {
            let length = LONGEST_INPUT - 40 + random.below(80);
            while input.len() < length {
                input.extend(line(&style, random));
            }
            if random.chance(1, 2) {
                input.truncate(length);
            }
        }
        // Exactly the longest, or one byte more or less.
        1 => {
            let length = LONGEST_INPUT - 1 + random.below(3);
            while input.len() < length {
                input.extend(line(&style, random));
            }
            input.truncate(length);
            if random.chance(2, 3) {
                input[length - 1] = b'\n';
            }
        }
        size => {
            for _ in 0..random.below(1 << size.min(9)) {
                input.extend(line(&style, random));
            }
        }
    }
    if random.chance(1, 6) {
        input.truncate(random.below(input.len() + 1));
    }
    if random.chance(1, 8) && input.last() == Some(&b'\n') {
        input.pop();
    }
    input
}

/// What an input is made of, so that some are all good and some are not.
struct Style {
    bad_in_hundred: usize,
    splits_in_hundred: usize,
    key_limit: usize,
}

impl Style {
    fn random(random: &mut Random) -> Style {
        Style {
            bad_in_hundred: random.pick(&[0, 0, 3, 20, 80]),
            splits_in_hundred: random.pick(&[0, 2, 10, 40]),
            key_limit: random.pick(&[4, 20, 100, 1_000]),
        }
    }
}

fn line(style: &Style, random: &mut Random) -> Vec<u8> {
    let good = good_line(style, random);
    if random.chance(style.bad_in_hundred, 100) {
        spoiled(good, random)
    } else {
        good
    }
}

fn good_line(style: &Style, random: &mut Random) -> Vec<u8> {
    if random.chance(style.splits_in_hundred, 100) {
        return b"G\n".to_vec();
    }
    let client = match random.below(20) {
        0 => 4,
        1 => random.number(),
        2 => random.pick(&[255, 256, 1 << 32, u64::MAX, 1 << 61]),
        _ => random.below(4) as u64,
    };
    if random.chance(1, 6) {
        let any = random.number() as u32;
        return format!("A {client} {}\n", random.pick(&[0, 0, 0, 1, u32::MAX, any])).into_bytes();
    }
    let key = match random.below(12) {
        0 => random.number(),
        1 => u64::MAX - random.below(3) as u64,
        2 => (random.below(3) as u64) << 32 | random.below(style.key_limit) as u64,
        _ => random.below(style.key_limit) as u64,
    };
    format!("{} {client} {key}\n", random.pick(&["I", "I", "S"])).into_bytes()
}

/// A line that is no longer well formed, in most ways.
fn spoiled(mut line: Vec<u8>, random: &mut Random) -> Vec<u8> {
    let end = line.len() - 1;
    match random.below(14) {
        0 => b"\n".to_vec(),
        1 => with_insert(line, end, b"\r"),
        2 => with_insert(line, end, b" "),
        3 => with_insert(line, 0, b" "),
        4 => doubled_space(line, random),
        5 => {
            line[0] = random.pick(b"giasXZ?0 ");
            line
        }
        6 => spare_zero(line, random),
        7 => huge_number(random),
        8 => with_insert(line, end, b" 1"),
        9 => {
            line.remove(random.below(end));
            line
        }
        10 => {
            line[random.below(end)] = random.number() as u8;
            line
        }
        11 => {
            with_insert(line, random.below(end + 1), random.pick(&[b"\t", b"-", b"+", b"\0", b".", b"_", b"/", b":"]))
        }
        12 => b"I 0\n".to_vec(),
        _ => {
            let length = random.below(40);
            let mut bytes = vec![0; length];
            random.fill(&mut bytes);
            bytes
        }
    }
}

fn with_insert(mut line: Vec<u8>, at: usize, more: &[u8]) -> Vec<u8> {
    line.splice(at..at, more.iter().copied());
    line
}

/// The places just after a space, if there are any.
fn number_starts(line: &[u8]) -> Vec<usize> {
    (1..line.len()).filter(|&at| line[at - 1] == b' ').collect()
}

fn doubled_space(line: Vec<u8>, random: &mut Random) -> Vec<u8> {
    match number_starts(&line)[..] {
        [] => with_insert(line, 1, b"  "),
        ref starts => {
            let at = random.pick(starts);
            with_insert(line, at, b" ")
        }
    }
}

fn spare_zero(line: Vec<u8>, random: &mut Random) -> Vec<u8> {
    match number_starts(&line)[..] {
        [] => b"I 00 0\n".to_vec(),
        ref starts => {
            let at = random.pick(starts);
            with_insert(line, at, random.pick(&[&b"0"[..], b"00"]))
        }
    }
}

/// Numbers at and past their limits, some of them good.
fn huge_number(random: &mut Random) -> Vec<u8> {
    let huge = random.pick(&[
        "18446744073709551615",
        "18446744073709551616",
        "18446744073709551617",
        "18446744073709551625",
        "28446744073709551615",
        "36893488147419103232",
        "99999999999999999999",
        "184467440737095516160",
        "340282366920938463463374607431768211456",
        "4294967295",
        "4294967296",
        "4294967297",
        "8589934592",
    ]);
    let text = match random.below(4) {
        0 => format!("A 0 {huge}\n"),
        1 => format!("A {huge} 0\n"),
        2 => format!("I 0 {huge}\n"),
        _ => format!("S {huge} 1\n"),
    };
    text.into_bytes()
}
