//! `compare [CASES] [SEED]`: random calls, answered by the proved library and by
//! the twin from equal buffers; every returned value and every byte of every
//! lent buffer must be equal afterwards.

mod call;
mod damage;
mod world;

use call::{perform, Call, Lent, Returned, KINDS};
use damage::{damage, Way};
use std::cell::Cell;
use std::collections::BTreeMap;
use std::process::ExitCode;
use std::sync::atomic::{AtomicU64, Ordering};
use std::thread;
use twin::random::Random;
use twin::sides::{LIBRARY, TWIN};
use world::World;

const DEFAULT_CASES: u64 = 1_000_000;
const DEFAULT_SEED: u64 = 20_240_611;
/// Calls in a run on one file; a run depends on the seed and its number alone.
const RUN_LENGTH: u64 = 50;
const THREADS: u64 = 2;
/// With fewer cases than this an ending may be missing by chance.
const CASES_FOR_EVERY_ENDING: u64 = 100_000;

/// How often each kind of call ended in each way.
#[derive(Default)]
struct Tally([BTreeMap<String, u64>; KINDS.len()]);

impl Tally {
    fn count(&mut self, kind: usize, ending: String, times: u64) {
        *self.0[kind].entry(ending).or_default() += times;
    }

    fn add(&mut self, other: Tally) {
        for (kind, counts) in other.0.into_iter().enumerate() {
            counts.into_iter().for_each(|(ending, times)| self.count(kind, ending, times));
        }
    }

    fn print(&self) {
        println!("replies by call:");
        for (kind, counts) in KINDS.iter().zip(&self.0) {
            let counted = kind.endings.iter().filter_map(|&ending| Some((ending, counts.get(ending)?)));
            let texts: Vec<String> = counted.map(|(ending, count)| format!("{ending}: {count}")).collect();
            println!("  {:12} {}", kind.name, texts.join(", "));
        }
    }

    /// The ways in which no call ended though its kind can.
    fn missing(&self) -> Vec<String> {
        let kinds = KINDS.iter().zip(&self.0);
        let missing = kinds.flat_map(|(kind, counts)| {
            let never = kind.endings.iter().filter(|&&ending| !counts.contains_key(ending));
            never.map(|ending| format!("{} {ending}", kind.name))
        });
        missing.collect()
    }

    /// The ways in which calls ended though their kind cannot.
    fn strange(&self) -> Vec<String> {
        let kinds = KINDS.iter().zip(&self.0);
        let strange = kinds.flat_map(|(kind, counts)| {
            let unknown = counts.keys().filter(|ending| !kind.endings.contains(&ending.as_str()));
            unknown.map(|ending| format!("{} {ending}", kind.name))
        });
        strange.collect()
    }
}

/// The buffers of one case: before the call, and after it on each side.
#[derive(Default)]
struct Bench {
    before: Lent,
    library: Lent,
    twin: Lent,
}

/// A case on which the two sides differ.
struct Difference {
    case: u64,
    text: String,
}

fn main() -> ExitCode {
    let mut arguments = std::env::args().skip(1).map(|text| text.parse::<u64>());
    let (cases, seed) = match (arguments.next(), arguments.next(), arguments.next()) {
        (None, None, None) => (DEFAULT_CASES, DEFAULT_SEED),
        (Some(Ok(cases)), None, None) => (cases, DEFAULT_SEED),
        (Some(Ok(cases)), Some(Ok(seed)), None) => (cases, seed),
        _ => {
            eprintln!("usage: compare [CASES] [SEED]");
            return ExitCode::FAILURE;
        }
    };
    name_case_on_panic(seed);
    println!("compare: {cases} cases, seed {seed}");
    compare(cases, seed)
}

thread_local! {
    static CURRENT_CASE: Cell<u64> = const { Cell::new(0) };
}

/// A call that panics is a failure too; its case is then printed likewise.
fn name_case_on_panic(seed: u64) {
    std::panic::set_hook(Box::new(move |panic| {
        println!("seed {seed}, case {}: {panic}", CURRENT_CASE.get());
    }));
}

fn compare(cases: u64, seed: u64) -> ExitCode {
    let (tally, difference) = run_all(cases, seed);
    if let Some(Difference { case, text }) = difference {
        println!("seed {seed}, case {case}: library and twin differ");
        println!("{text}");
        return ExitCode::FAILURE;
    }
    tally.print();
    let strange = tally.strange();
    if !strange.is_empty() {
        println!("must not come: {}", strange.join(", "));
        return ExitCode::FAILURE;
    }
    let missing = tally.missing();
    if cases >= CASES_FOR_EVERY_ENDING && !missing.is_empty() {
        println!("never came: {}", missing.join(", "));
        return ExitCode::FAILURE;
    }
    println!("twin: {cases} cases agree");
    ExitCode::SUCCESS
}

/// Shares the runs among the threads; the difference of the lowest case, if any.
fn run_all(cases: u64, seed: u64) -> (Tally, Option<Difference>) {
    let lowest_failing = AtomicU64::new(u64::MAX);
    let results: Vec<_> = thread::scope(|scope| {
        let start = |first| {
            let lowest_failing = &lowest_failing;
            scope.spawn(move || run_share(cases, seed, first, lowest_failing))
        };
        let threads: Vec<_> = (0..THREADS).map(start).collect();
        threads.into_iter().map(|thread| thread.join().expect("a thread ends by itself")).collect()
    });
    let mut tally = Tally::default();
    let mut differences = Vec::new();
    for (part, difference) in results {
        tally.add(part);
        differences.extend(difference);
    }
    (tally, differences.into_iter().min_by_key(|difference| difference.case))
}

/// Every run of one thread's share, up to its first difference.
fn run_share(cases: u64, seed: u64, first: u64, lowest_failing: &AtomicU64) -> (Tally, Option<Difference>) {
    let mut tally = Tally::default();
    let mut bench = Bench::default();
    let mut run = first;
    while run * RUN_LENGTH < cases && run < lowest_failing.load(Ordering::Relaxed) {
        let length = RUN_LENGTH.min(cases - run * RUN_LENGTH);
        if let Err(difference) = run_calls(seed, run, length, &mut bench, &mut tally) {
            lowest_failing.fetch_min(run, Ordering::Relaxed);
            return (tally, Some(difference));
        }
        run += THREADS;
    }
    (tally, None)
}

/// A run of calls on one file and table.
fn run_calls(seed: u64, run: u64, length: u64, bench: &mut Bench, tally: &mut Tally) -> Result<(), Difference> {
    let mut random = Random::new(seed, run);
    let mut world = World::random(&mut random);
    for step in 0..length {
        CURRENT_CASE.set(run * RUN_LENGTH + step);
        let mut call = random_call(&world, &mut random);
        prepare(&world, &mut call, &mut bench.before, &mut random);
        let ways = damage_some(&world, &mut call, &mut bench.before, &mut random);
        bench.library.copy_from(&bench.before);
        bench.twin.copy_from(&bench.before);
        let library = perform(&LIBRARY, &call, &mut bench.library);
        let twin = perform(&TWIN, &call, &mut bench.twin);
        let differences = bench.library.differences(&bench.twin);
        if library != twin || !differences.is_empty() {
            let text = describe(&call, &ways, &bench.before, library, twin, &differences);
            return Err(Difference { case: run * RUN_LENGTH + step, text });
        }
        tally.count(call.kind(), call.ending(twin, &bench.twin), 1);
        if goes_on(&call, &ways, bench, &mut random) {
            std::mem::swap(&mut world.file, &mut bench.twin.file);
            std::mem::swap(&mut world.table, &mut bench.twin.table);
        }
    }
    Ok(())
}

/// Whether the run goes on with what the call left: always after a fair call,
/// seldom after a damaged one, and then only with the same lengths.
fn goes_on(call: &Call, ways: &[Way], bench: &Bench, random: &mut Random) -> bool {
    match call {
        Call::Create { .. } => ways.is_empty() && random.chance(1, 4),
        _ if ways.is_empty() => true,
        _ => {
            let sound = twin::file::Header::read(&bench.twin.file).is_some();
            let table = &bench.twin.table;
            sound && table.len().is_multiple_of(8) && !table.is_empty() && random.chance(1, 10)
        }
    }
}

fn random_call(world: &World, random: &mut Random) -> Call {
    let client = random.below(world.clients()) as u64;
    match random.below(100) {
        0..=13 => Call::Insert { client, key: world.key(random) },
        14..=43 => random_insert_split(world, client, random),
        44..=56 => Call::Search { client, key: world.key(random) },
        57..=63 => Call::Split,
        64..=73 => Call::Check,
        74..=85 => Call::Scan { client, lift: world.lift(random) },
        86..=90 => Call::View { bucket: random_bucket(world, random) },
        91..=94 => Call::Join { client },
        95..=97 => random_create(world),
        98 => Call::Parent { bucket: random_number(random) },
        _ => Call::Forwards,
    }
}

/// Mostly with a threshold that is in range, often near the one at which the decision turns.
fn random_insert_split(world: &World, client: u64, random: &mut Random) -> Call {
    let key = world.loading_key(random);
    let any = random.number();
    let in_range = 1 + any % 100;
    let threshold = match random.below(20) {
        0 => random.pick(&[0, 101, 255, 256, 1 << 32, in_range + (1 << 32), 1 << 63, any, u64::MAX]),
        1..=3 => in_range,
        4..=8 => 100,
        9 => 1,
        _ => (world.turning_threshold(key) + any % 2).clamp(1, 100),
    };
    Call::InsertSplit { client, key, threshold }
}

fn random_bucket(world: &World, random: &mut Random) -> u64 {
    let buckets = world.header().map_or(1, |header| header.state.bucket_count());
    random.below(buckets as usize) as u64
}

fn random_create(world: &World) -> Call {
    let shape = world.shape;
    Call::Create { capacity: shape.capacity as u64, slots: shape.slots as u64, most: shape.most as u64 }
}

/// A 16-bit number of any size, often next to a power of two.
fn random_number(random: &mut Random) -> u16 {
    let power = 1u16 << random.below(16);
    let any = random.number() as u16;
    random.pick(&[0, power, power - 1, power.wrapping_add(1), any, power | any])
}

/// Lends the world's file and table, and blocks and lists that fit the call.
fn prepare(world: &World, call: &mut Call, lent: &mut Lent, random: &mut Random) {
    lent.file.clone_from(&world.file);
    lent.table.clone_from(&world.table);
    lent.payload.resize(14, 0);
    random.fill(&mut lent.payload);
    lent.answer.resize(24, 0);
    random.fill(&mut lent.answer);
    if matches!(call, Call::Forwards) && random.chance(3, 4) {
        lent.answer[1] = random.below(5) as u8;
    }
    lent.visits.clear();
    lent.matches.clear();
    if let Call::Scan { lift, .. } = *call {
        let buckets = world.header().map_or(1, |header| header.state.bucket_count() as usize);
        let spare = [0, 0, 1, random.below(6)];
        let visits = buckets + random.pick(&spare);
        let matches = world.match_count(lift) + random.pick(&spare);
        lent.visits.extend((0..visits).map(|_| random.number() as u16));
        lent.matches.extend((0..matches).map(|_| random.number()));
    }
}

/// Damages about half of the cases, in one way or in up to three.
fn damage_some(world: &World, call: &mut Call, lent: &mut Lent, random: &mut Random) -> Vec<Way> {
    let times = match random.below(40) {
        0..=20 => 0,
        21..=34 => 1,
        35..=38 => 2,
        _ => 3,
    };
    let match_count = match *call {
        Call::Scan { lift, .. } if times > 0 => world.match_count(lift),
        _ => 0,
    };
    (0..times).filter_map(|_| damage(call, lent, match_count, random)).collect()
}

fn hex(bytes: &[u8]) -> String {
    bytes.iter().map(|byte| format!("{byte:02X} ")).collect()
}

fn describe(
    call: &Call,
    ways: &[Way],
    before: &Lent,
    library: Returned,
    twin: Returned,
    differences: &[String],
) -> String {
    let mut lines = vec![
        format!("call: {call:?}"),
        format!("damage: {ways:?}"),
        format!(
            "lengths: file {}, table {}, payload {}, answer {}, visits {}, matches {}",
            before.file.len(),
            before.table.len(),
            before.payload.len(),
            before.answer.len(),
            before.visits.len(),
            before.matches.len()
        ),
        format!("header: {}", hex(&before.file[..before.file.len().min(16)])),
    ];
    let client = call.client().and_then(|client| usize::try_from(client).ok());
    if let Some(record) = client.and_then(|client| before.table.chunks(8).nth(client)) {
        lines.push(format!("client record: {}", hex(record)));
    }
    lines.push(format!("returned: library {library:?}, twin {twin:?}"));
    lines.extend(differences.iter().cloned());
    lines.join("\n")
}
