//! The document's examples, run through the twin's calls.

use twin::{check, create, insert, join, parent, scan, search, split, view};
use twin::{CheckAnswer, ScanAnswer, SplitAnswer, ViewAnswer};

/// A file with 16 buckets at most and one client.
struct Rides {
    file: Vec<u8>,
    table: [u8; 8],
}

fn new_file(capacity: u64, slots: u64, most: u64) -> Vec<u8> {
    let mut file = vec![0xAA; 16 + most as usize * (8 + 24 * slots as usize)];
    assert_eq!(create(&mut file, capacity, slots, most), 0);
    file
}

impl Rides {
    /// A file after so many splits, and a client with an image.
    fn new(splits: usize, image: (u8, u16)) -> Rides {
        let mut file = new_file(2, 4, 16);
        for _ in 0..splits {
            assert_eq!(split(&mut file).reply, 0);
        }
        let [low, high] = image.1.to_le_bytes();
        Rides { file, table: [0x4C, 0x43, image.0, 0, low, high, 0, 0] }
    }

    fn state(&self) -> (u8, u16) {
        (self.file[2], u16::from_le_bytes([self.file[4], self.file[5]]))
    }

    fn image(&self) -> (u8, u16) {
        (self.table[2], u16::from_le_bytes([self.table[4], self.table[5]]))
    }

    fn route_of(&mut self, key: u64) -> Vec<u16> {
        let mut answer = [0xAA; 24];
        assert_eq!(search(&self.file, &mut self.table, 0, key, &mut answer), 1);
        let numbers = answer[2..8].chunks(2).map(|pair| u16::from_le_bytes([pair[0], pair[1]]));
        numbers.take(answer[1].into()).collect()
    }

    fn visits(&self) -> Vec<u16> {
        let mut visits = [0xAAAA; 16];
        let answer = scan(&self.file, &self.table, 0, 0, &mut visits, &mut []);
        assert_eq!((answer.reply, answer.bucket, answer.matches), (0, 65_535, 0));
        visits[..answer.visits as usize].to_vec()
    }
}

#[test]
fn p1_to_p3_three_rides_to_bucket_5() {
    let mut rides = Rides::new(5, (0, 0));
    assert_eq!(rides.state(), (2, 2));
    assert_eq!((rides.route_of(5), rides.image()), (vec![0, 1, 5], (2, 1)));
    assert_eq!((rides.route_of(5), rides.image()), (vec![1, 5], (2, 2)));
    assert_eq!((rides.route_of(5), rides.image()), (vec![5], (2, 2)));
}

#[test]
fn p4_never_to_a_bucket_that_is_not_there() {
    let mut rides = Rides::new(4, (0, 0));
    assert_eq!(rides.state(), (2, 1));
    assert_eq!((rides.route_of(7), rides.image()), (vec![0, 3], (2, 1)));
}

#[test]
fn p5_the_pointer_is_carried() {
    let mut rides = Rides::new(7, (2, 3));
    assert_eq!(rides.state(), (3, 0));
    assert_eq!((rides.route_of(7), rides.image()), (vec![3, 7], (3, 0)));
}

#[test]
fn p6_and_p7_visits() {
    assert_eq!(Rides::new(5, (1, 1)).visits(), [0, 1, 2, 4, 3, 5]);
    assert_eq!(Rides::new(7, (0, 0)).visits(), [0, 1, 2, 4, 3, 5, 6, 7]);
}

#[test]
fn p8_one_bucket_keeps_every_key() {
    for key in [0, 1, 7, 1 << 32, u64::MAX] {
        let mut rides = Rides::new(0, (0, 0));
        assert_eq!((rides.route_of(key), rides.image()), (vec![0], (0, 0)));
    }
}

#[test]
fn p9_parents() {
    assert_eq!(parent(5), 1);
    assert_eq!(parent(0), 65_535);
    assert_eq!((parent(1), parent(2), parent(3), parent(4_096)), (0, 0, 1, 0));
    assert_eq!(parent(65_535), 32_767);
}

#[test]
fn p10_split_in_1_1() {
    let mut rides = Rides::new(2, (0, 0));
    assert_eq!(rides.state(), (1, 1));
    assert_eq!(split(&mut rides.file), SplitAnswer { reply: 0, old_bucket: 1, new_bucket: 3 });
    assert_eq!(rides.state(), (2, 0));
}

#[test]
fn a_file_of_one_bucket_cannot_split() {
    let mut file = new_file(1, 1, 1);
    let before = file.clone();
    assert_eq!(split(&mut file), SplitAnswer { reply: 10, old_bucket: 65_535, new_bucket: 65_535 });
    assert_eq!(file, before);
    let mut file = new_file(1, 1, 2);
    assert_eq!(split(&mut file), SplitAnswer { reply: 0, old_bucket: 0, new_bucket: 1 });
    assert_eq!(split(&mut file).reply, 10);
}

#[test]
fn a_full_bucket_refuses_but_knows_what_it_holds() {
    let mut file = new_file(2, 3, 1);
    let mut table = [0; 8];
    assert_eq!(join(&mut table, 0), 0);
    let mut answer = [0; 24];
    let mut put = |key| {
        let reply = insert(&mut file, &mut table, 0, key, &[7; 14], &mut answer);
        (reply, answer[8])
    };
    assert_eq!([put(10), put(20), put(30)], [(0, 1), (0, 2), (0, 3)]);
    assert_eq!(put(40), (9, 0));
    assert_eq!(put(20), (8, 0));
    assert_eq!(search(&file, &mut table, 0, 30, &mut answer), 0);
    assert_eq!(answer[10..], [7; 14]);
    assert_eq!(view(&file, 0), ViewAnswer { start: 24, length: 72 });
    assert_eq!(view(&file, 1), ViewAnswer { start: 0, length: 0 });
}

#[test]
fn a_split_divides_in_order() {
    let mut file = new_file(4, 4, 2);
    let mut table = *b"LC\0\0\0\0\0\0";
    for key in [3, 2, 5, 4] {
        assert_eq!(insert(&mut file, &mut table, 0, key, &[0; 14], &mut [0; 24]), 0);
    }
    assert_eq!(split(&mut file).reply, 0);
    let keys = |bucket| {
        let part = view(&file, bucket);
        let slots = &file[part.start as usize..(part.start + part.length) as usize];
        slots.chunks(24).map(|slot| slot[2]).collect::<Vec<u8>>()
    };
    assert_eq!((keys(0), keys(1)), (vec![2, 4], vec![3, 5]));
    assert_eq!(check(&file), CheckAnswer { reply: 0, bucket: 65_535 });
    let mut matches = [0; 5];
    let answer = scan(&file, &table, 0, 0, &mut [0; 2], &mut matches);
    assert_eq!(answer, ScanAnswer { reply: 0, bucket: 65_535, visits: 2, matches: 4 });
    assert_eq!(matches, [2, 4, 3, 5, 0]);
    assert_eq!(scan(&file, &table, 0, 0, &mut [0; 2], &mut [0; 3]).reply, 12);
    assert_eq!(scan(&file, &table, 0, 0, &mut [0; 1], &mut matches).reply, 11);
}

#[test]
fn a_double_key_is_found_at_every_pair() {
    for (slots, count) in [(2, 2), (8, 3), (8, 8), (9, 9), (64, 2), (64, 17), (64, 64)] {
        let mut file = new_file(slots, slots, 1);
        let mut table = *b"LC\0\0\0\0\0\0";
        for key in 0..count {
            assert_eq!(insert(&mut file, &mut table, 0, key << 40, &[0; 14], &mut [0; 24]), 0);
        }
        assert_eq!(check(&file).reply, 0);
        for (first, second) in (0..count).flat_map(|second| (0..second).map(move |first| (first, second))) {
            let mut damaged = file.clone();
            let [from, to] = [first, second].map(|slot| 16 + 8 + 24 * slot as usize + 2);
            damaged.copy_within(from..from + 8, to);
            assert_eq!(check(&damaged), CheckAnswer { reply: 7, bucket: 0 });
            assert_eq!(search(&damaged, &mut table, 0, first << 40, &mut [0; 24]), 7);
            assert_eq!(scan(&damaged, &table, 0, 0, &mut [0], &mut [0; 64]).reply, 7);
        }
    }
}

/// Keys that are equal but for their upper two bytes, or when their halves are laid over one another; and 0, which is
/// in every unused slot.
#[test]
fn keys_that_look_alike_are_kept_apart() {
    let keys = [5, 5 | 1 << 48, 5 | 2 << 48, 1 << 32, 1, 0];
    for slots in [6, 7, 8, 9, 64] {
        let mut file = new_file(slots, slots, 1);
        let mut table = *b"LC\0\0\0\0\0\0";
        let mut answer = [0; 24];
        for (place, &key) in keys.iter().enumerate() {
            assert_eq!(search(&file, &mut table, 0, key, &mut answer), 1);
            assert_eq!(insert(&mut file, &mut table, 0, key, &[place as u8; 14], &mut answer), 0);
            assert_eq!(insert(&mut file, &mut table, 0, key, &[place as u8; 14], &mut answer), 8);
        }
        for (place, &key) in keys.iter().enumerate() {
            assert_eq!(search(&file, &mut table, 0, key, &mut answer), 0);
            assert_eq!(answer[10..], [place as u8; 14]);
        }
        assert_eq!(search(&file, &mut table, 0, 5 | 3 << 48, &mut answer), 1);
        assert_eq!(check(&file).reply, 0);
        let mut matches = [9; 7];
        assert_eq!(scan(&file, &table, 0, 0, &mut [0], &mut matches).matches, 3);
        assert_eq!(matches, [5, 1, 0, 9, 9, 9, 9]);
    }
}

/// A file of 4,096 buckets, of which a scan does not note all.
#[test]
fn a_scan_of_many_buckets() {
    for slots in [1, 9] {
        let mut rides = Rides { file: new_file(slots, slots, 4_096), table: *b"LC\0\0\0\0\0\0" };
        for _ in 1..3_000 {
            assert_eq!(split(&mut rides.file).reply, 0);
        }
        for key in (0..4_096).step_by(7) {
            let lift = key % 2;
            let reply = insert(&mut rides.file, &mut rides.table, 0, lift << 32 | key, &[0; 14], &mut [0; 24]);
            assert!(reply == 0 || reply == 9);
        }
        for image in [*b"LC\0\0\0\0\0\0", *b"LC\x05\0\x11\0\0\0", *b"LC\x0B\0\xB8\x03\0\0"] {
            let (mut visits, mut matches) = ([0; 3_000], [0; 600]);
            let answer = scan(&rides.file, &image, 0, 1, &mut visits, &mut matches);
            assert_eq!((answer.reply, answer.visits), (0, 3_000));
            let held = visits.iter().flat_map(|&bucket| {
                let part = view(&rides.file, bucket.into());
                rides.file[part.start as usize..][..part.length as usize].chunks(24)
            });
            let keys = held.map(|slot| u64::from_le_bytes(slot[2..10].try_into().unwrap()));
            let expected: Vec<u64> = keys.filter(|key| key >> 32 == 1).collect();
            assert_eq!(matches[..answer.matches as usize], expected);
            visits.sort();
            assert!(visits.iter().copied().eq(0..3_000));
        }
    }
}

#[test]
fn the_transcript() {
    let input = b"G\nG\nG\nG\nG\nI 0 5\nI 0 5\nS 0 5\nS 3 6\nS 9 6\nA 1 0\n";
    let output = "G 0 0>1\nG 0 0>2\nG 0 1>3\nG 0 0>4\nG 0 1>5\nI 0 0>1>5\nI 8 1>5\nS 0 5\nS 1 0>2\nS 3 -\n\
                  A 0 0,1,2,4,3,5 1\n";
    assert_eq!(String::from_utf8_lossy(&twin::ridefile::run(input)), output);
}

#[test]
fn lines_not_so_formed() {
    let lines = [
        "",
        "?",
        "G ",
        " G",
        "g",
        "G\r",
        "I 0",
        "I 0 1 2",
        "I 00 1",
        "I 0 01",
        "I  0 1",
        "I 0 1 ",
        "I 0 -1",
        "I 0 +1",
        "I 18446744073709551616 1",
        "S 0 18446744073709551616",
        "A 0 4294967296",
        "A 0",
        "X 0 0",
    ];
    for line in lines {
        assert_eq!(twin::ridefile::run(format!("{line}\n").as_bytes()), b"?\n", "{line}");
    }
    assert_eq!(twin::ridefile::run(b""), b"");
    assert_eq!(twin::ridefile::run(b"G\nG"), b"G 0 0>1\n?\n");
    assert_eq!(twin::ridefile::run(b"A 18446744073709551615 4294967295\n"), b"A 3 -\n");
    assert_eq!(twin::ridefile::run(b"A 0 4294967295\n"), b"A 0 0 0\n");
}

#[test]
fn input_is_cut_at_4096_bytes() {
    let whole = "G\n".repeat(2_048);
    let cut = format!("\n{}", "G\n".repeat(2_048));
    let lines = |input: &str| twin::ridefile::run(input.as_bytes()).split(|&byte| byte == b'\n').count() - 1;
    assert_eq!(lines(&whole), 2_048);
    assert_eq!(lines(&cut), 2_049);
    assert!(twin::ridefile::run(cut.as_bytes()).ends_with(b"G 10 -\n?\n"));
}
