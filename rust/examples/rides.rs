use lhstar::{CLIENT_BYTES, Reply, file_bytes};

fn main() {
    let mut file = vec![0; file_bytes(4, 16)];
    let mut table = [0; 4 * CLIENT_BYTES];
    assert_eq!(lhstar::create(&mut file, 2, 4, 16), Reply::Done);
    assert_eq!(lhstar::join(&mut table, 0), Reply::Done);
    assert_eq!(lhstar::join(&mut table, 1), Reply::Done);

    for key in [5, 3, 9, 14, 7] {
        let answer = lhstar::insert_split(&mut file, &mut table, 0, key, b"a ride, uphill", 80);
        assert_eq!(answer.reply(), Reply::Done);
    }

    let answer = lhstar::search(&file, &mut table, 1, 9);
    println!("{}, by buckets {:?}", answer.reply(), answer.route().collect::<Vec<_>>());
}
