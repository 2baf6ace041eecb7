//! `bench`: the proved library and the twin on the same buffers, by turns in
//! one run. The table has the median nanoseconds of one call for each, "ours"
//! being the library, and the ratio of the two.
//!
//! Files: "in cache" has 16 regions and is warm; "out of cache" has 4,096, and
//! before each timed part a long buffer is walked through, so that the file is
//! in no near cache. Buckets are three quarters full on average. The repeats go
//! through several small files, so that no branch is foretold by heart.
//!
//! - search hit, search miss: a batch of searches over the whole file with an
//!   image that is right, so each needs one bucket.
//! - insert: a batch of accepted inserts, likewise. File and table are restored
//!   before each batch, outside of the timed part.
//! - split: a whole round of splits, from state (i, 0) to (i + 1, 0) where the
//!   file has all its buckets; restored likewise.
//! - load insert: the inserts again with load control, none of them overfull.
//! - load split: inserts with load control, all of them overfull, that do the
//!   round of splits; the image learns on the way.
//! - check, scan, scan old: calls on the whole file. A scan finds one key in
//!   eight; it has a right image, the old one the image (0, 0).

use std::hint::black_box;
use std::time::{Duration, Instant};
use twin::bucket::SLOT_LENGTH;
use twin::file::Header;
use twin::load::outcome;
use twin::random::Random;
use twin::sides::{Side, LIBRARY, TWIN};

const LIFTS: usize = 8;
const PAYLOAD: [u8; 14] = [9; 14];
const LONG_BUFFER: usize = 64 << 20;
/// Where the header has the capacity.
const CAPACITY: usize = 3;
const THRESHOLD: u64 = 80;

/// A place to measure in: how large, and how often.
struct Setting {
    slots: usize,
    most: usize,
    cold: bool,
    files: usize,
    repeats: usize,
    batch: usize,
    calls_on_whole: usize,
}

/// The lent buffers and the keys to use on them.
#[derive(Clone)]
struct Buffers {
    file: Vec<u8>,
    table: [u8; 8],
    held: Vec<u64>,
    absent: Vec<u64>,
    fresh: Vec<u64>,
    splitting: Vec<u64>,
    visits: Vec<u16>,
    matches: Vec<u64>,
}

fn random_key(random: &mut Random) -> u64 {
    (random.below(LIFTS) as u64) << 32 | u64::from(random.number() as u32)
}

fn shuffle(keys: &mut [u64], random: &mut Random) {
    for at in (1..keys.len()).rev() {
        keys.swap(at, random.below(at + 1));
    }
}

impl Buffers {
    /// A file of so many buckets, a power of two, filled by the calls themselves.
    fn new(setting: &Setting, buckets: usize, random: &mut Random) -> Buffers {
        let (slots, most) = (setting.slots, setting.most);
        let mut file = vec![0; 16 + most * (8 + 24 * slots)];
        assert_eq!(twin::create(&mut file, slots as u64, slots as u64, most as u64), 0);
        for _ in 1..buckets {
            assert_eq!(twin::split(&mut file).reply, 0);
        }
        let mut table = *b"LC\0\0\0\0\0\0";
        table[2] = buckets.ilog2() as u8;
        let mut held = Vec::new();
        while held.len() < buckets * slots * 3 / 4 {
            let key = random_key(random);
            if twin::insert(&mut file, &mut table, 0, key, &PAYLOAD, &mut [0; 24]) == 0 {
                held.push(key);
            }
        }
        let fresh = fresh_keys(&file, &mut table.clone(), setting.batch, random);
        let splitting = splitting_keys(&file, &mut table.clone(), most - buckets, random);
        let absent = (0..setting.batch).map(|_| random_key(random) | 1 << 63).collect();
        shuffle(&mut held, random);
        let (visits, matches) = (vec![0; most], vec![0; most * slots]);
        Buffers { file, table, held, absent, fresh, splitting, visits, matches }
    }
}

impl Buffers {
    /// Takes over the content of others, in the same memory.
    fn restore(&mut self, start: &Buffers) {
        self.file.copy_from_slice(&start.file);
        self.table = start.table;
        self.held.clone_from(&start.held);
        self.absent.clone_from(&start.absent);
        self.fresh.clone_from(&start.fresh);
        self.splitting.clone_from(&start.splitting);
    }
}

/// Keys that the file accepts one after another.
fn fresh_keys(file: &[u8], table: &mut [u8], count: usize, random: &mut Random) -> Vec<u64> {
    let mut file = file.to_vec();
    let mut fresh = Vec::new();
    for _ in 0..count * 100 {
        let key = random_key(random);
        if fresh.len() < count && twin::insert(&mut file, table, 0, key, &PAYLOAD, &mut [0; 24]) == 0 {
            fresh.push(key);
        }
    }
    fresh
}

/// Makes every insert into a bucket that holds records overfull, and its split due.
fn lower_capacity(file: &mut [u8]) {
    file[CAPACITY] = 1;
}

/// Keys by which so many splits are done one after another.
fn splitting_keys(file: &[u8], table: &mut [u8], count: usize, random: &mut Random) -> Vec<u64> {
    let mut file = file.to_vec();
    lower_capacity(&mut file);
    let mut splitting = Vec::new();
    while splitting.len() < count {
        let key = random_key(random);
        if splits(&file, key) && twin::search(&file, table, 0, key, &mut [0; 24]) == 1 {
            let given = twin::insert_split(&mut file, table, 0, key, &PAYLOAD, THRESHOLD, &mut [0; 24]);
            assert_eq!((given.reply, given.split), (0, 1));
            splitting.push(key);
        }
    }
    splitting
}

/// Whether a key's bucket holds a record and has room for another.
fn splits(file: &[u8], key: u64) -> bool {
    let header = Header::read(file).expect("the file is sound");
    let used = twin::view(file, header.state.address(key).into()).length as usize;
    (1..header.slots).contains(&(used / SLOT_LENGTH))
}

/// What one side does in the timed part; how many calls that were.
type Work = fn(&Side, &mut Buffers, &Setting) -> usize;

fn search_all(side: &Side, buffers: &mut Buffers, setting: &Setting, keys: fn(&Buffers) -> &[u64]) -> usize {
    let mut answer = [0; 24];
    let mut table = buffers.table;
    let keys = keys(buffers);
    for &key in keys.iter().cycle().take(setting.batch) {
        black_box((side.search)(&buffers.file, &mut table, 0, key, &mut answer));
    }
    setting.batch
}

fn search_hit(side: &Side, buffers: &mut Buffers, setting: &Setting) -> usize {
    search_all(side, buffers, setting, |buffers| &buffers.held)
}

fn search_miss(side: &Side, buffers: &mut Buffers, setting: &Setting) -> usize {
    search_all(side, buffers, setting, |buffers| &buffers.absent)
}

fn insert(side: &Side, buffers: &mut Buffers, _: &Setting) -> usize {
    let mut answer = [0; 24];
    for &key in &buffers.fresh {
        let reply = (side.insert)(&mut buffers.file, &mut buffers.table, 0, key, &PAYLOAD, &mut answer);
        assert_eq!(reply, 0);
    }
    buffers.fresh.len()
}

fn split(side: &Side, buffers: &mut Buffers, setting: &Setting) -> usize {
    for _ in 0..setting.most / 2 {
        assert_eq!((side.split)(&mut buffers.file).reply, 0);
    }
    setting.most / 2
}

/// Inserts keys with load control; each has the outcome.
fn load_all(side: &Side, file: &mut [u8], table: &mut [u8], keys: &[u64], outcome: u32) -> usize {
    let mut answer = [0; 24];
    for &key in keys {
        let given = (side.insert_split)(file, table, 0, key, &PAYLOAD, THRESHOLD, &mut answer);
        assert_eq!((given.reply, given.split), (0, outcome));
    }
    keys.len()
}

fn load_insert(side: &Side, buffers: &mut Buffers, _: &Setting) -> usize {
    let Buffers { file, table, fresh, .. } = buffers;
    load_all(side, file, table, fresh, outcome::NOT_DUE)
}

fn load_split(side: &Side, buffers: &mut Buffers, _: &Setting) -> usize {
    let Buffers { file, table, splitting, .. } = buffers;
    lower_capacity(file);
    load_all(side, file, table, splitting, outcome::DONE)
}

fn check(side: &Side, buffers: &mut Buffers, setting: &Setting) -> usize {
    for _ in 0..setting.calls_on_whole {
        assert_eq!((side.check)(&buffers.file).reply, 0);
    }
    setting.calls_on_whole
}

fn scan_by(side: &Side, buffers: &mut Buffers, setting: &Setting, table: [u8; 8]) -> usize {
    let Buffers { file, visits, matches, .. } = buffers;
    for _ in 0..setting.calls_on_whole {
        assert_eq!((side.scan)(file, &table, 0, 3, visits, matches).reply, 0);
    }
    setting.calls_on_whole
}

fn scan(side: &Side, buffers: &mut Buffers, setting: &Setting) -> usize {
    scan_by(side, buffers, setting, buffers.table)
}

fn scan_old(side: &Side, buffers: &mut Buffers, setting: &Setting) -> usize {
    scan_by(side, buffers, setting, *b"LC\0\0\0\0\0\0")
}

/// Takes the near caches away from whatever was used before.
fn walk_through(long_buffer: &mut [u8]) {
    for byte in long_buffer.iter_mut().step_by(64) {
        *byte = byte.wrapping_add(1);
    }
    black_box(long_buffer);
}

fn median(mut times: Vec<f64>) -> f64 {
    times.sort_by(f64::total_cmp);
    times[times.len() / 2]
}

/// The median nanoseconds of one call, for the library and for the twin.
fn measure(setting: &Setting, starts: &[Buffers], buffers: &mut Buffers, long: &mut [u8], work: Work) -> [f64; 2] {
    let mut times = [Vec::new(), Vec::new()];
    for repeat in 0..setting.repeats + 1 {
        for turn in 0..2 {
            // Each side goes first in every other repeat.
            let which = (turn + repeat) % 2;
            buffers.restore(&starts[repeat / 2 % starts.len()]);
            if setting.cold {
                walk_through(long);
            }
            let begin = Instant::now();
            let calls = work([&LIBRARY, &TWIN][which], buffers, setting);
            let passed: Duration = begin.elapsed();
            // The first repeat only warms up.
            if repeat > 0 {
                times[which].push(passed.as_nanos() as f64 / calls as f64);
            }
        }
    }
    times.map(median)
}

fn print_line(setting: &Setting, name: &str, [library, twin]: [f64; 2]) {
    let place = if setting.cold { "out of cache" } else { "in cache" };
    println!("{:11} {:>2}  {:12}  {library:>12.1}  {twin:>12.1}  {:>10.2}", name, setting.slots, place, library / twin);
}

fn bench(setting: &Setting, long: &mut [u8]) {
    let mut random = Random::new(7, setting.slots as u64);
    // Half of the regions are in use, so that there is room to split.
    let mut start = |_| Buffers::new(setting, setting.most / 2, &mut random);
    let starts: Vec<Buffers> = (0..setting.files).map(&mut start).collect();
    let mut buffers = starts[0].clone();
    let works: &[(&str, Work)] = &[
        ("search hit", search_hit),
        ("search miss", search_miss),
        ("insert", insert),
        ("split", split),
        ("load insert", load_insert),
        ("load split", load_split),
        ("check", check),
        ("scan", scan),
        ("scan old", scan_old),
    ];
    for &(name, work) in works {
        print_line(setting, name, measure(setting, &starts, &mut buffers, long, work));
    }
}

fn main() {
    let mut long = vec![1; LONG_BUFFER];
    println!("call         S  file             ours (ns)     twin (ns)   ours/twin");
    for slots in [8, 64] {
        let small = Setting { slots, most: 16, cold: false, files: 32, repeats: 401, batch: 500, calls_on_whole: 20 };
        bench(&small, &mut long);
        let large = Setting { slots, most: 4_096, cold: true, files: 1, repeats: 41, batch: 2_000, calls_on_whole: 1 };
        bench(&large, &mut long);
    }
}
