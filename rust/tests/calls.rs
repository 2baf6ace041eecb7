//! Document 01's worked examples, load control and every reply, by the calls of this crate.

use lhstar::{ANSWER_BYTES, CLIENT_BYTES, HEADER_BYTES, NO_BUCKET, PAYLOAD_BYTES, SLOT_BYTES, THRESHOLD_MOST};
use lhstar::{AnswerBlock, CheckAnswer, Control, LoadAnswer, SplitAnswer};
use lhstar::{Reply, file_bytes, raw, region_bytes};
use lhstar::{check, create, forwards, insert, insert_split, join, parent, scan, search, split, view};

const CAPACITY: u64 = 2;
const SLOTS: u64 = 4;
const MOST: u64 = 16;
const PAYLOAD: &[u8; PAYLOAD_BYTES] = b"a ride, uphill";

/// A file with 16 buckets at most and one client.
struct Rides {
    file: [u8; file_bytes(SLOTS, MOST)],
    table: [u8; CLIENT_BYTES],
}

impl Rides {
    /// A file after so many splits, and a client with an image.
    fn new(splits: usize, (level, pointer): (u8, u8)) -> Rides {
        let mut file = [0xAA; file_bytes(SLOTS, MOST)];
        assert_eq!(create(&mut file, CAPACITY, SLOTS, MOST), Reply::Done);
        for _ in 0..splits {
            assert_eq!(split(&mut file).reply, Reply::Done);
        }
        Rides { file, table: [b'L', b'C', level, 0, pointer, 0, 0, 0] }
    }

    fn image(&self) -> (u8, u8) {
        (self.table[2], self.table[4])
    }

    fn insert(&mut self, key: u64) -> AnswerBlock {
        insert(&mut self.file, &mut self.table, 0, key, PAYLOAD)
    }

    fn insert_split(&mut self, key: u64, threshold: u64) -> LoadAnswer {
        insert_split(&mut self.file, &mut self.table, 0, key, PAYLOAD, threshold)
    }

    /// Inserts keys that are accepted, without splitting, by an image that knows the file's state.
    fn put(&mut self, keys: &[u64]) {
        let mut knowing = [b'L', b'C', self.file[2], 0, self.file[4], 0, 0, 0];
        for &key in keys {
            assert_eq!(insert(&mut self.file, &mut knowing, 0, key, PAYLOAD).reply(), Reply::Done);
        }
    }

    fn search(&mut self, key: u64) -> AnswerBlock {
        search(&self.file, &mut self.table, 0, key)
    }

    /// The low bytes of a bucket's keys, in slot order.
    fn keys(&self, bucket: u64) -> Vec<u8> {
        view(&self.file, bucket).chunks_exact(SLOT_BYTES).map(|slot| slot[2]).collect()
    }

    fn region(&mut self, bucket: usize) -> &mut [u8] {
        &mut self.file[HEADER_BYTES + bucket * region_bytes(SLOTS)..][..region_bytes(SLOTS)]
    }

    /// A search's reply on this file and table.
    fn search_reply(&mut self) -> Reply {
        self.search(5).reply()
    }

    /// A scan's reply on this file and table, for lists of so many entries.
    fn scan_reply(&self, visits: usize, matches: usize) -> Reply {
        scan(&self.file, &self.table, 0, 0, &mut vec![0; visits], &mut vec![0; matches]).reply
    }
}

#[test]
fn a_key_comes_by_its_route_and_the_image_learns() {
    let mut rides = Rides::new(5, (0, 0));
    for (route, image) in [(&[0, 1, 5][..], (2, 1)), (&[1, 5], (2, 2)), (&[5], (2, 2))] {
        let answer = rides.search(5);
        assert_eq!(answer.reply(), Reply::Absent);
        assert_eq!(answer.route().collect::<Vec<_>>(), route);
        assert_eq!(answer.route().len(), route.len());
        assert_eq!(answer.route().next_back(), Some(5));
        assert_eq!(answer.forwards() as usize, route.len() - 1);
        assert_eq!(forwards(&answer), answer.forwards());
        assert_eq!(rides.image(), image);
    }
}

#[test]
fn an_inserted_record_is_found_and_seen() {
    let mut rides = Rides::new(5, (2, 2));
    let answer = rides.insert(5);
    assert_eq!((answer.reply(), answer.count(), answer.payload()), (Reply::Done, 1, &[0; PAYLOAD_BYTES]));
    let answer = rides.search(5);
    assert_eq!((answer.reply(), answer.count(), answer.payload()), (Reply::Done, 0, PAYLOAD));
    assert_eq!(&answer.as_bytes()[..10], &[0, 1, 5, 0, 255, 255, 255, 255, 0, 0]);
    assert_eq!(view(&rides.file, 5), b"LR\x05\0\0\0\0\0\0\0a ride, uphill");
    assert!(view(&rides.file, 1).is_empty());
    assert!(view(&rides.file, 6).is_empty());
    assert!(view(&rides.file, u64::MAX).is_empty());
}

#[test]
fn an_accepted_insert_answers_the_count() {
    let mut rides = Rides::new(0, (0, 0));
    assert_eq!([1, 2, 3, 4].map(|key| rides.insert(key).count()), [1, 2, 3, 4]);
    assert_eq!(rides.insert(5).reply(), Reply::BucketFull);
    assert_eq!(rides.insert(5).count(), 0);
    assert_eq!(rides.insert(4).reply(), Reply::KeyHeld);
    assert_eq!(rides.insert(4).count(), 0);
}

/// What a load answer says of its split.
fn split_of(answer: LoadAnswer) -> (Control, Option<u16>, Option<u16>) {
    (answer.split, answer.old_bucket, answer.new_bucket)
}

const NOT_DUE: (Control, Option<u16>, Option<u16>) = (Control::NotDue, None, None);
const NO_ROOM: (Control, Option<u16>, Option<u16>) = (Control::NoRoom, None, None);

#[test]
fn an_overfull_bucket_is_split_itself() {
    let mut rides = Rides::new(0, (0, 0));
    assert_eq!([1, 2].map(|key| split_of(rides.insert_split(key, 80))), [NOT_DUE; 2]);
    let answer = rides.insert_split(3, 80);
    assert_eq!((answer.reply(), answer.insert.count()), (Reply::Done, 3));
    assert_eq!(split_of(answer), (Control::Done, Some(0), Some(1)));
    assert_eq!((rides.keys(0), rides.keys(1)), (vec![2], vec![1, 3]));
    assert_eq!(check(&rides.file).reply, Reply::Done);
}

#[test]
fn an_overfull_bucket_makes_another_split() {
    let mut rides = Rides::new(1, (0, 0));
    rides.put(&[1, 2, 3, 4]);
    let answer = rides.insert_split(5, 80);
    assert_eq!((answer.reply(), answer.insert.count()), (Reply::Done, 3));
    assert_eq!((answer.insert.route().collect::<Vec<_>>(), rides.image()), (vec![0, 1], (1, 0)));
    assert_eq!(split_of(answer), (Control::Done, Some(0), Some(2)));
    assert_eq!([0, 1, 2].map(|bucket| rides.keys(bucket)), [vec![4], vec![1, 3, 5], vec![2]]);
    assert_eq!(check(&rides.file).reply, Reply::Done);
}

/// In state (1, 1) bucket 1 of three records has 100 * 2 * 3 on the one side and threshold * 2 * 3 on the other.
#[test]
fn an_overfull_bucket_may_not_be_due() {
    for (threshold, split) in [(THRESHOLD_MOST, NOT_DUE), (99, (Control::Done, Some(1), Some(3)))] {
        let mut rides = Rides::new(2, (1, 1));
        rides.put(&[1, 3]);
        let answer = rides.insert_split(5, threshold);
        assert_eq!((answer.reply(), answer.insert.count(), split_of(answer)), (Reply::Done, 3, split));
    }
}

#[test]
fn a_file_of_its_most_buckets_only_inserts() {
    let mut rides = Rides::new(15, (4, 0));
    rides.put(&[1, 17]);
    assert_eq!([33, 49].map(|key| split_of(rides.insert_split(key, 80))), [NO_ROOM; 2]);
    assert_eq!(rides.keys(1), [1, 17, 33, 49]);
    let full = rides.insert_split(65, 80);
    assert_eq!((full.reply(), full.insert.count(), split_of(full)), (Reply::BucketFull, 0, NOT_DUE));
    let held = rides.insert_split(17, 80);
    assert_eq!((held.reply(), held.insert.count(), split_of(held)), (Reply::KeyHeld, 0, NOT_DUE));
}

#[test]
fn a_threshold_is_1_to_100() {
    for threshold in [0, THRESHOLD_MOST + 1, 1 << 32, u64::MAX] {
        let mut rides = Rides::new(2, (13, 0));
        let file = rides.file;
        let answer = rides.insert_split(5, threshold);
        assert_eq!((answer.reply(), split_of(answer)), (Reply::Threshold, NOT_DUE));
        assert_eq!(&answer.insert.as_bytes()[..10], &[15, 0, 255, 255, 255, 255, 255, 255, 0, 0]);
        assert!(rides.file == file && rides.image() == (13, 0));
    }
    for threshold in [1, THRESHOLD_MOST] {
        assert_eq!(Rides::new(2, (13, 0)).insert_split(5, threshold).reply(), Reply::ClientUnsound);
    }
}

/// Key 11 comes by buckets 0 and 3, which is then overfull; bucket 1 would be split and bucket 5 born.
#[test]
fn with_an_unsound_region_of_the_split_nothing_is_placed() {
    for (spoiled, told) in [(&[1][..], 1), (&[5], 5), (&[1, 5], 1)] {
        let mut rides = Rides::new(4, (0, 0));
        rides.put(&[3, 7]);
        for &region in spoiled {
            rides.region(region)[7] = 1;
        }
        let file = rides.file;
        let answer = rides.insert_split(11, 80);
        assert_eq!((answer.reply(), answer.insert.count()), (Reply::BucketUnsound, 0));
        assert_eq!(answer.insert.route().collect::<Vec<_>>(), [0, 3]);
        assert_eq!(split_of(answer), (Control::NotDue, Some(told), None));
        assert!(rides.file == file && rides.image() == (0, 0));
    }
}

#[test]
fn an_unsound_bucket_on_the_route_is_told_by_the_route() {
    let mut rides = Rides::new(4, (0, 0));
    rides.put(&[3, 7]);
    rides.region(3)[7] = 1;
    let answer = rides.insert_split(11, 80);
    assert_eq!((answer.reply(), split_of(answer)), (Reply::BucketUnsound, NOT_DUE));
    assert_eq!(answer.insert.route().collect::<Vec<_>>(), [0, 3]);
}

#[test]
fn a_scan_hands_back_what_it_wrote() {
    let mut rides = Rides::new(5, (1, 1));
    for key in [4, 1 << 32 | 4, 5] {
        assert_eq!(rides.insert(key).reply(), Reply::Done);
    }
    rides.table = *b"LC\x01\0\x01\0\0\0";
    let (mut visits, mut matches) = ([99; 8], [99; 3]);
    let answer = scan(&rides.file, &rides.table, 0, 0, &mut visits, &mut matches);
    assert_eq!((answer.reply, answer.bucket), (Reply::Done, None));
    assert_eq!(answer.visits, [0, 1, 2, 4, 3, 5]);
    assert_eq!(answer.matches, [4, 5]);
    assert_eq!((visits[6..].to_vec(), matches[2]), (vec![99, 99], 99));

    rides.region(3)[0] = 0;
    let answer = scan(&rides.file, &rides.table, 0, 0, &mut visits, &mut matches);
    assert_eq!((answer.reply, answer.bucket), (Reply::BucketUnsound, Some(3)));
    assert!(answer.visits.is_empty() && answer.matches.is_empty());
}

#[test]
fn file_and_table_of_a_scan_may_be_one_slice() {
    let rides = Rides::new(0, (0, 0));
    let answer = scan(&rides.file, &rides.file, 0, 0, &mut [], &mut []);
    assert_eq!(answer.reply, Reply::ClientUnsound);
}

#[test]
fn splits_and_parents() {
    let mut rides = Rides::new(2, (0, 0));
    let done = SplitAnswer { reply: Reply::Done, old_bucket: Some(1), new_bucket: Some(3) };
    assert_eq!(split(&mut rides.file), done);
    let unsound = SplitAnswer { reply: Reply::BucketUnsound, old_bucket: Some(4), new_bucket: None };
    rides.region(4)[7] = 1;
    assert_eq!(split(&mut rides.file), unsound);
    assert_eq!(check(&rides.file), CheckAnswer { reply: Reply::BucketUnsound, bucket: Some(4) });
    assert_eq!([0, 1, 5, 4096, 65_535].map(parent), [None, Some(0), Some(1), Some(0), Some(32_767)]);
}

#[test]
fn every_refusal() {
    let mut rides = Rides::new(0, (0, 0));
    assert_eq!(join(&mut [0; 12], 0), Reply::TableLength);
    assert_eq!(join(&mut rides.table, 1), Reply::NoClient);
    assert_eq!(Rides::new(0, (13, 0)).search_reply(), Reply::ClientUnsound);
    assert_eq!(Rides::new(0, (0, 1)).search_reply(), Reply::ClientUnsound);
    assert_eq!(check(&rides.file[1..]), CheckAnswer { reply: Reply::HeaderUnsound, bucket: None });
    assert_eq!(Rides::new(0, (1, 0)).search_reply(), Reply::ClientAhead);
    rides.region(0)[2] = 1;
    assert_eq!(rides.search_reply(), Reply::BucketUnsound);
    assert_eq!(rides.insert(5).route().collect::<Vec<_>>(), [0]);
    let full = SplitAnswer { reply: Reply::FileFull, old_bucket: None, new_bucket: None };
    assert_eq!(split(&mut Rides::new(15, (0, 0)).file), full);
    assert_eq!(Rides::new(3, (0, 0)).scan_reply(3, 0), Reply::VisitsShort);
    let mut rides = Rides::new(3, (0, 0));
    assert_eq!(rides.insert(5).reply(), Reply::Done);
    assert_eq!([rides.scan_reply(4, 0), rides.scan_reply(4, 1)], [Reply::MatchesShort, Reply::Done]);
    assert_eq!(create(&mut rides.file[1..], CAPACITY, SLOTS, MOST), Reply::Figures);
}

#[test]
fn raw_calls_take_every_length() {
    let mut rides = Rides::new(0, (0, 0));
    let mut long = [7; ANSWER_BYTES + 1];
    let reply = raw::insert(&mut rides.file, &mut rides.table, 0, 5, PAYLOAD, &mut long);
    assert_eq!((Reply::try_from(reply), long), (Ok(Reply::BlockLength), [7; ANSWER_BYTES + 1]));
    assert_eq!(raw::insert(&mut rides.file, &mut rides.table, 0, 5, &[], &mut long[1..]), 14);
    let refused = raw::LoadAnswer { reply: 14, split: 0, old_bucket: NO_BUCKET, new_bucket: NO_BUCKET };
    assert_eq!(raw::insert_split(&mut rides.file, &mut rides.table, 0, 5, PAYLOAD, 0, &mut long), refused);
    assert_eq!(raw::insert_split(&mut rides.file, &mut rides.table, 0, 5, &[], 80, &mut long[1..]), refused);
    assert_eq!(long, [7; ANSWER_BYTES + 1]);
    assert_eq!(raw::search(&rides.file, &mut rides.table, 0, 5, &mut []), 14);
    assert_eq!(raw::forwards(&long), 0);
    assert_eq!(raw::create(&mut [], 0, 0, 0), 13);
    assert_eq!(raw::join(&mut [], u64::MAX), 2);
    assert_eq!(raw::split(&mut []), raw::SplitAnswer { reply: 5, old_bucket: NO_BUCKET, new_bucket: NO_BUCKET });
    assert_eq!(raw::check(&[]), raw::CheckAnswer { reply: 5, bucket: NO_BUCKET });
    assert_eq!(raw::view(&[], 0), raw::ViewAnswer { start: 0, length: 0 });
    let refused = raw::ScanAnswer { reply: 2, bucket: NO_BUCKET, visits: 0, matches: 0 };
    assert_eq!(raw::scan(&[], &[], 0, 0, &mut [], &mut []), refused);
    assert_eq!([raw::parent(5), raw::parent(0)], [1, NO_BUCKET]);
}

#[test]
fn refusals_are_errors_in_words() {
    let words = |reply: Reply| -> Result<(), Box<dyn std::error::Error>> {
        if reply.is_refusal() { Err(reply.into()) } else { Ok(()) }
    };
    assert!(words(Reply::Done).is_ok() && words(Reply::Absent).is_ok());
    assert_eq!(words(Reply::NoClient).unwrap_err().to_string(), "no such client");
}
