//! Load control, worked by hand from document 02's rule, through the twin's calls.

use twin::{check, create, insert, insert_split, split, view, LoadAnswer};

const NONE: u32 = 65_535;
const NOT_DUE: LoadAnswer = LoadAnswer { reply: 0, split: 0, old_bucket: NONE, new_bucket: NONE };
const NO_ROOM: LoadAnswer = LoadAnswer { split: 2, ..NOT_DUE };

fn refused(reply: u32) -> LoadAnswer {
    LoadAnswer { reply, ..NOT_DUE }
}

/// With 7 for a region of the split.
fn stopped(region: u32) -> LoadAnswer {
    LoadAnswer { old_bucket: region, ..refused(7) }
}

fn done(old_bucket: u32, new_bucket: u32) -> LoadAnswer {
    LoadAnswer { reply: 0, split: 1, old_bucket, new_bucket }
}

const HEADER_LENGTH: usize = 16;
const SLOTS: usize = 4;
const REGION_LENGTH: usize = 8 + 24 * SLOTS;

/// A file of capacity 2 and four slots, one client, and the last answer block.
#[derive(Clone, PartialEq, Debug)]
struct Rides {
    file: Vec<u8>,
    table: [u8; 8],
    answer: [u8; 24],
}

impl Rides {
    /// A file of so many buckets with some keys, and a client that knows its state.
    fn new(most: usize, buckets: usize, keys: &[u64]) -> Rides {
        let mut file = vec![0xAA; HEADER_LENGTH + most * REGION_LENGTH];
        assert_eq!(create(&mut file, 2, SLOTS as u64, most as u64), 0);
        for _ in 1..buckets {
            assert_eq!(split(&mut file).reply, 0);
        }
        let table = [b'L', b'C', file[2], 0, file[4], 0, 0, 0];
        let mut rides = Rides { file, table, answer: [0xAA; 24] };
        for &key in keys {
            assert_eq!(insert(&mut rides.file, &mut rides.table, 0, key, &[3; 14], &mut rides.answer), 0);
        }
        rides
    }

    /// The same with a client that still has the image (0, 0).
    fn with_old_client(most: usize, buckets: usize, keys: &[u64]) -> Rides {
        Rides { table: *b"LC\0\0\0\0\0\0", ..Rides::new(most, buckets, keys) }
    }

    fn load(&mut self, key: u64, threshold: u64) -> LoadAnswer {
        insert_split(&mut self.file, &mut self.table, 0, key, &[3; 14], threshold, &mut self.answer)
    }

    /// Makes a region unsound by its last byte.
    fn spoil(&mut self, region: usize) {
        self.file[HEADER_LENGTH + (region + 1) * REGION_LENGTH - 1] ^= 1;
    }

    fn keys(&self, bucket: u64) -> Vec<u8> {
        let part = view(&self.file, bucket);
        self.file[part.start as usize..][..part.length as usize].chunks(24).map(|slot| slot[2]).collect()
    }

    /// The answer block up to its count.
    fn block(&self) -> [u8; 9] {
        *self.answer.first_chunk().unwrap()
    }
}

/// Three records in a bucket of capacity 2: f * 300 * 2^i against t * 2 * (2^i + n).
#[test]
fn the_decision() {
    let cases = [
        // (0, 0), bucket 0: 300 against 2t.
        (1, [0, 1, 2], 100, done(0, 1)),
        // (1, 0), bucket 0: 600 against 4t.
        (2, [0, 2, 4], 100, done(0, 2)),
        // (1, 1), bucket 1, which is n: 600 against 6t.
        (3, [1, 3, 5], 100, NOT_DUE),
        (3, [1, 3, 5], 99, done(1, 3)),
        // (1, 1), buckets 0 and 2, which are of the next level: 1200 against 6t.
        (3, [0, 4, 8], 100, done(1, 3)),
        (3, [2, 6, 10], 100, done(1, 3)),
        // (2, 2), bucket 3: 1200 against 12t.
        (6, [3, 7, 11], 100, NOT_DUE),
        (6, [3, 7, 11], 99, done(2, 6)),
        (6, [3, 7, 11], 1, done(2, 6)),
        // (2, 3), bucket 3, which is n: 1200 against 14t.
        (7, [3, 7, 11], 86, NOT_DUE),
        (7, [3, 7, 11], 85, done(3, 7)),
        // (2, 3), buckets 2 and 4: 2400 against 14t.
        (7, [2, 10, 18], 100, done(3, 7)),
        (7, [4, 12, 20], 100, done(3, 7)),
    ];
    for (buckets, keys, threshold, answer) in cases {
        let mut rides = Rides::new(16, buckets, &keys[..2]);
        assert_eq!(rides.load(keys[2], threshold), answer, "{buckets} buckets, {keys:?}, {threshold}");
        assert_eq!((rides.answer[0], rides.answer[8]), (0, 3));
        assert_eq!(check(&rides.file).reply, 0);
    }
}

#[test]
fn a_bucket_within_its_capacity_is_never_due() {
    let mut rides = Rides::new(16, 1, &[]);
    assert_eq!([rides.load(0, 1), rides.load(1, 1)], [NOT_DUE; 2]);
    assert_eq!(rides.block(), [0, 1, 0, 0, 255, 255, 255, 255, 2]);
}

/// The count decides, not only that it is above the capacity: 1600 against 14t in state (2, 3).
#[test]
fn a_fourth_record_weighs_more() {
    let mut rides = Rides::new(16, 7, &[3, 7]);
    assert_eq!([rides.load(11, 100), rides.load(15, 100)], [NOT_DUE, done(3, 7)]);
    assert_eq!((rides.keys(3), rides.keys(7)), (vec![3, 11], vec![7, 15]));
}

#[test]
fn the_new_record_is_divided_with_its_bucket() {
    let mut rides = Rides::new(2, 1, &[2, 1]);
    assert_eq!(rides.load(5, 80), done(0, 1));
    assert_eq!((rides.keys(0), rides.keys(1)), (vec![2], vec![1, 5]));
    let mut parts = Rides::new(2, 1, &[2, 1, 5]);
    split(&mut parts.file);
    assert_eq!(rides.file, parts.file);
}

#[test]
fn another_bucket_is_divided() {
    let mut rides = Rides::with_old_client(16, 5, &[3, 7, 1, 5]);
    assert_eq!(rides.load(11, 80), done(1, 5));
    assert_eq!(rides.block(), [0, 2, 0, 0, 3, 0, 255, 255, 3]);
    assert_eq!(rides.table, *b"LC\x02\0\x01\0\0\0");
    assert_eq!([1, 3, 5].map(|bucket| rides.keys(bucket)), [vec![1], vec![3, 7, 11], vec![5]]);
    assert_eq!(check(&rides.file).reply, 0);
}

/// There no region of a split is needed, so none is judged.
#[test]
fn without_room_it_only_inserts() {
    let mut rides = Rides::new(3, 3, &[0, 4]);
    rides.spoil(1);
    assert_eq!([rides.load(8, 80), rides.load(12, 80)], [NO_ROOM; 2]);
    assert_eq!(rides.keys(0), [0, 4, 8, 12]);
    assert_eq!(rides.load(16, 80), refused(9));
    assert_eq!(Rides::new(1, 1, &[0, 1]).load(2, 100), NO_ROOM);
}

#[test]
fn where_none_is_due_no_region_is_judged() {
    let mut rides = Rides::new(16, 6, &[3, 7]);
    rides.spoil(2);
    rides.spoil(6);
    assert_eq!(rides.load(11, 100), NOT_DUE);
    assert_eq!(rides.load(15, 100), stopped(2));
}

#[test]
fn an_unsound_region_of_the_split_stops_all() {
    for (spoiled, told) in [(&[1][..], 1), (&[5], 5), (&[5, 1], 1), (&[6], NONE)] {
        let mut rides = Rides::with_old_client(16, 5, &[3, 7]);
        spoiled.iter().for_each(|&region| rides.spoil(region));
        let before = rides.clone();
        if told == NONE {
            assert_eq!(rides.load(11, 80), done(1, 5));
        } else {
            assert_eq!(rides.load(11, 80), stopped(told));
            assert_eq!(rides.answer, *b"\x07\x02\0\0\x03\0\xFF\xFF\0\0\0\0\0\0\0\0\0\0\0\0\0\0\0\0");
            assert_eq!((rides.file, rides.table), (before.file, before.table));
        }
    }
}

/// The key's own bucket is the one to split: it is judged on the route, and the new region after it.
#[test]
fn the_split_of_its_own_bucket_stopped() {
    for (spoiled, answer) in [(&[1, 3][..], refused(7)), (&[3], stopped(3))] {
        let mut rides = Rides::new(16, 3, &[1, 3]);
        spoiled.iter().for_each(|&region| rides.spoil(region));
        let before = rides.clone();
        assert_eq!(rides.load(5, 80), answer);
        assert_eq!(rides.block(), [7, 1, 1, 0, 255, 255, 255, 255, 0]);
        assert_eq!((rides.file, rides.table), (before.file, before.table));
    }
}

/// Held keys and full buckets are told before the split's regions, and the image learns.
#[test]
fn a_refused_insert_needs_no_region_of_the_split() {
    for (keys, key, reply) in [(&[3, 7, 11][..], 7, 8), (&[3, 7, 11, 15], 19, 9), (&[3, 7, 11, 15], 15, 8)] {
        let mut rides = Rides::with_old_client(16, 5, keys);
        rides.spoil(1);
        rides.spoil(5);
        let file = rides.file.clone();
        assert_eq!(rides.load(key, 80), refused(reply));
        assert_eq!(rides.block(), [reply as u8, 2, 0, 0, 3, 0, 255, 255, 0]);
        assert_eq!((rides.file, rides.table), (file, *b"LC\x02\0\x01\0\0\0"));
    }
}

/// 15 is told after 14 and before 2; it fills the block and touches nothing else.
#[test]
fn a_threshold_out_of_range() {
    for threshold in [0, 101, 1 << 32 | 50, u64::MAX] {
        let mut rides = Rides::new(16, 1, &[]);
        let Rides { file, table, answer } = &mut rides;
        for (payload, length) in [(&[0; 13][..], 24), (&[0; 14], 23)] {
            let given = insert_split(file, table, 0, 5, payload, threshold, &mut answer[..length]);
            assert_eq!(given, refused(14));
        }
        assert_eq!(*answer, [0xAA; 24]);
        for (file, table) in [(&mut file[..], &mut table[..7]), (&mut [], &mut [])] {
            assert_eq!(insert_split(file, table, 9, 5, &[0; 14], threshold, answer), refused(15));
            assert_eq!(*answer, *b"\x0F\0\xFF\xFF\xFF\xFF\xFF\xFF\0\0\0\0\0\0\0\0\0\0\0\0\0\0\0\0");
        }
        assert_eq!(rides.file, Rides::new(16, 1, &[]).file);
    }
    for threshold in [1, 100] {
        assert_eq!(insert_split(&mut [], &mut [], 9, 5, &[0; 14], threshold, &mut [0; 24]), refused(2));
    }
}
