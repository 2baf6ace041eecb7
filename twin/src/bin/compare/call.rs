//! One call, the buffers lent to it, and the two sides that answer it.

use twin::file::Header;
use twin::load::outcome;
use twin::sides::Side;
use twin::{reply, NONE};

#[derive(Clone, Copy, Debug)]
pub enum Call {
    Create { capacity: u64, slots: u64, most: u64 },
    Join { client: u64 },
    Insert { client: u64, key: u64 },
    Search { client: u64, key: u64 },
    Split,
    InsertSplit { client: u64, key: u64, threshold: u64 },
    Check,
    Scan { client: u64, lift: u32 },
    View { bucket: u64 },
    Parent { bucket: u16 },
    Forwards,
}

/// A call's name, and all the ways in which it can end: its replies, and words where a reply does not tell enough.
pub struct Kind {
    pub name: &'static str,
    pub endings: &'static [&'static str],
}

pub const KINDS: [Kind; 11] = [
    Kind { name: "create", endings: &["0", "13"] },
    Kind { name: "join", endings: &["0", "2", "3"] },
    Kind { name: "insert", endings: &["0", "2", "3", "4", "5", "6", "7", "8", "9", "14"] },
    Kind { name: "search", endings: &["0", "1", "2", "3", "4", "5", "6", "7", "14"] },
    Kind { name: "split", endings: &["0", "5", "7", "10"] },
    Kind {
        name: "insert_split",
        endings: &[
            "0 not overfull",
            "0 overfull, not due",
            "0 its own bucket split",
            "0 another bucket split",
            "0 no room",
            "2",
            "3",
            "4",
            "5",
            "6",
            "7 on the route",
            "7 of bucket n",
            "7 of the new region",
            "8",
            "9",
            "14",
            "15",
        ],
    },
    Kind { name: "check", endings: &["0", "5", "7"] },
    Kind { name: "scan", endings: &["0", "2", "3", "4", "5", "6", "7", "11", "12"] },
    Kind { name: "view", endings: &["empty", "some"] },
    Kind { name: "parent", endings: &["none", "some"] },
    Kind { name: "forwards", endings: &["none", "some"] },
];

fn or_some(empty: bool, word: &str) -> String {
    if empty { word } else { "some" }.to_string()
}

/// How an insert with load control ended, by what it returned and what it left.
fn load_ending([reply, split, old_bucket, _]: Returned, after: &Lent) -> String {
    let header = || Header::read(&after.file).expect("with this reply the header is sound");
    match reply as u8 {
        reply::DONE => {
            let overfull = u32::from(after.answer[8]) > header().capacity;
            let own = old_bucket == last_of_route(&after.answer);
            accepted_ending(split as u32, overfull, own).to_string()
        }
        reply::UNSOUND => unsound_ending(old_bucket, header().state.pointer.into()).to_string(),
        _ => reply.to_string(),
    }
}

fn accepted_ending(split: u32, overfull: bool, own: bool) -> &'static str {
    match split {
        outcome::NO_ROOM => "0 no room",
        outcome::DONE if own => "0 its own bucket split",
        outcome::DONE => "0 another bucket split",
        _ if overfull => "0 overfull, not due",
        _ => "0 not overfull",
    }
}

fn unsound_ending(told: u64, pointer: u64) -> &'static str {
    if told == u64::from(NONE) {
        "7 on the route"
    } else if told == pointer {
        "7 of bucket n"
    } else {
        "7 of the new region"
    }
}

/// The last bucket of an answer block's route.
fn last_of_route(answer: &[u8]) -> u64 {
    let last = 2 * usize::from(answer[1]);
    u64::from(u16::from_le_bytes([answer[last], answer[last + 1]]))
}

impl Call {
    /// The call's place among the kinds.
    pub fn kind(&self) -> usize {
        match self {
            Call::Create { .. } => 0,
            Call::Join { .. } => 1,
            Call::Insert { .. } => 2,
            Call::Search { .. } => 3,
            Call::Split => 4,
            Call::InsertSplit { .. } => 5,
            Call::Check => 6,
            Call::Scan { .. } => 7,
            Call::View { .. } => 8,
            Call::Parent { .. } => 9,
            Call::Forwards => 10,
        }
    }

    /// How the call ended, in the words of its kind.
    pub fn ending(&self, returned: Returned, after: &Lent) -> String {
        match self {
            Call::InsertSplit { .. } => load_ending(returned, after),
            Call::View { .. } => or_some(returned[1] == 0, "empty"),
            Call::Parent { .. } => or_some(returned[0] == u64::from(NONE), "none"),
            Call::Forwards => or_some(returned[0] == 0, "none"),
            _ => returned[0].to_string(),
        }
    }

    pub fn client(&self) -> Option<u64> {
        match *self {
            Call::Join { client }
            | Call::Insert { client, .. }
            | Call::InsertSplit { client, .. }
            | Call::Search { client, .. }
            | Call::Scan { client, .. } => Some(client),
            _ => None,
        }
    }

    pub fn set_client(&mut self, number: u64) {
        if let Call::Join { client }
        | Call::Insert { client, .. }
        | Call::InsertSplit { client, .. }
        | Call::Search { client, .. }
        | Call::Scan { client, .. } = self
        {
            *client = number;
        }
    }
}

/// Every buffer that a call may be lent.
#[derive(Default)]
pub struct Lent {
    pub file: Vec<u8>,
    pub table: Vec<u8>,
    pub payload: Vec<u8>,
    pub answer: Vec<u8>,
    pub visits: Vec<u16>,
    pub matches: Vec<u64>,
}

impl Lent {
    pub fn copy_from(&mut self, other: &Lent) {
        self.file.clone_from(&other.file);
        self.table.clone_from(&other.table);
        self.payload.clone_from(&other.payload);
        self.answer.clone_from(&other.answer);
        self.visits.clone_from(&other.visits);
        self.matches.clone_from(&other.matches);
    }

    /// What differs, buffer by buffer; empty if nothing does.
    pub fn differences(&self, other: &Lent) -> Vec<String> {
        let found = [
            buffer_difference("file", &self.file, &other.file),
            buffer_difference("table", &self.table, &other.table),
            buffer_difference("payload", &self.payload, &other.payload),
            buffer_difference("answer", &self.answer, &other.answer),
            buffer_difference("visits", &self.visits, &other.visits),
            buffer_difference("matches", &self.matches, &other.matches),
        ];
        found.into_iter().flatten().collect()
    }
}

fn buffer_difference<T: PartialEq + std::fmt::Debug>(name: &str, library: &[T], twin: &[T]) -> Option<String> {
    if library == twin {
        return None;
    }
    let pairs = || library.iter().zip(twin).enumerate().filter(|(_, (left, right))| left != right);
    let shown: Vec<String> =
        pairs().take(8).map(|(at, (left, right))| format!("[{at}] library {left:?}, twin {right:?}")).collect();
    Some(format!("{name}: {} entries differ: {}", pairs().count(), shown.join("; ")))
}

/// All the values that a call returns, the reply first.
pub type Returned = [u64; 4];

/// Has one side answer a call on the lent buffers.
pub fn perform(side: &Side, call: &Call, lent: &mut Lent) -> Returned {
    let Lent { file, table, payload, answer, visits, matches } = lent;
    match *call {
        Call::Create { capacity, slots, most } => [(side.create)(file, capacity, slots, most).into(), 0, 0, 0],
        Call::Join { client } => [(side.join)(table, client).into(), 0, 0, 0],
        Call::Insert { client, key } => [(side.insert)(file, table, client, key, payload, answer).into(), 0, 0, 0],
        Call::Search { client, key } => [(side.search)(file, table, client, key, answer).into(), 0, 0, 0],
        Call::Split => {
            let given = (side.split)(file);
            [given.reply.into(), given.old_bucket.into(), given.new_bucket.into(), 0]
        }
        Call::InsertSplit { client, key, threshold } => {
            let given = (side.insert_split)(file, table, client, key, payload, threshold, answer);
            [given.reply.into(), given.split.into(), given.old_bucket.into(), given.new_bucket.into()]
        }
        Call::Check => {
            let given = (side.check)(file);
            [given.reply.into(), given.bucket.into(), 0, 0]
        }
        Call::Scan { client, lift } => {
            let given = (side.scan)(file, table, client, lift, visits, matches);
            [given.reply.into(), given.bucket.into(), given.visits.into(), given.matches.into()]
        }
        Call::View { bucket } => {
            let given = (side.view)(file, bucket);
            [given.start, given.length, 0, 0]
        }
        Call::Parent { bucket } => [(side.parent)(bucket).into(), 0, 0, 0],
        Call::Forwards => [(side.forwards)(answer).into(), 0, 0, 0],
    }
}
