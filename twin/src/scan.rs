//! The scan: every key of one lift, bucket by bucket, first come, first served. It needs no memory that grows with the
//! file: what is lent is written only when nothing can be refused any more, and then the visit list is the queue.

use crate::client;
use crate::file::Header;
use crate::rules::{self, State};
use crate::{bucket, judge, reply, NONE};

/// Of so many buckets the matching slots are noted as the buckets are judged; the others are read a second time.
const NOTES: usize = 1024;
/// Enough for a small file, which has no time to spare for clearing more.
const FEW_NOTES: usize = 64;

#[derive(Clone, Copy, Debug, PartialEq, Eq)]
pub struct ScanAnswer {
    pub reply: u32,
    pub bucket: u32,
    pub visits: u32,
    pub matches: u32,
}

/// A scan that stops: its reply, and the unsound bucket or none.
struct Refusal(u8, u32);

impl From<u8> for Refusal {
    fn from(reply: u8) -> Refusal {
        Refusal(reply, NONE.into())
    }
}

/// Judges every bucket, in number order, and notes a bit for each matching slot; how many match.
fn judge_all(header: &Header, file: &[u8], image: State, lift: u32, notes: &mut [u64]) -> Result<usize, Refusal> {
    let mut found = 0;
    for bucket in 0..header.state.bucket_count() {
        let (region, level) = (header.region(file, bucket), header.state.level_of(bucket));
        let count = bucket::count_of(region, level);
        let Some(matching) = count.and_then(|count| judge::matching(region, count, bucket, level, lift)) else {
            return Err(Refusal(reply::UNSOUND, first_unsound(header, file, image.bucket_count(), bucket)));
        };
        found += matching.count_ones() as usize;
        if let Some(note) = notes.get_mut(bucket as usize) {
            *note = matching;
        }
    }
    Ok(found)
}

/// The unsound bucket that the scan visits first; the lowest one is known.
fn first_unsound(header: &Header, file: &[u8], believed: u32, lowest: u32) -> u32 {
    if lowest < believed {
        return lowest;
    }
    let unsound = (lowest + 1..header.state.bucket_count()).filter(|&bucket| header.judge(file, bucket).is_none());
    unsound.fold(lowest, |first, bucket| if earlier(bucket, first, believed) { bucket } else { first })
}

/// Whether the scan visits one bucket before the other: as their messages were sent, so as their senders were visited.
fn earlier(mut one: u32, mut other: u32, believed: u32) -> bool {
    while one >= believed && other >= believed && rules::origin(one) != rules::origin(other) {
        (one, other) = (rules::origin(one), rules::origin(other));
    }
    one < other
}

/// The level that a bucket's message has: the image's where the client sent it, else that of the bucket's birth.
fn told_level(image: State, bucket: u32) -> u32 {
    if bucket < image.bucket_count() {
        image.level_of(bucket)
    } else {
        32 - bucket.leading_zeros()
    }
}

/// Writes the visits, of which there are as many as entries. Each is written before it is its turn to send.
fn write_visits(state: State, image: State, visits: &mut [u16]) {
    let mut sent = 0;
    for bucket in 0..image.bucket_count() {
        visits[sent] = bucket as u16;
        sent += 1;
    }
    for handled in 0..visits.len() {
        let bucket = u32::from(visits[handled]);
        for level in told_level(image, bucket)..state.level_of(bucket) {
            visits[sent] = (bucket + (1 << level)) as u16;
            sent += 1;
        }
    }
}

/// Writes the keys of the slots that are noted; how many they are.
#[inline]
fn write_noted(region: &[u8], mut matching: u64, matches: &mut [u64]) -> usize {
    let mut written = 0;
    while matching != 0 {
        matches[written] = bucket::key_at(region, matching.trailing_zeros() as usize);
        written += 1;
        matching &= matching - 1;
    }
    written
}

/// Writes the keys of a lift; how many they are. Each key of the bucket is written, and stays if it matches, so that no
/// branch depends on it.
#[inline]
fn write_matching(region: &[u8], lift: u32, matches: &mut [u64]) -> usize {
    let mut written = 0;
    for slot in bucket::used_slots(region) {
        let Some(place) = matches.get_mut(written) else {
            break;
        };
        *place = bucket::key_of(slot);
        written += usize::from(judge::lift_of(*place) == lift);
    }
    written
}

/// Judges all buckets, then fills both lists; how many keys match.
fn fill<const NOTED: usize>(
    header: &Header,
    file: &[u8],
    image: State,
    lift: u32,
    visits: &mut [u16],
    matches: &mut [u64],
) -> Result<usize, Refusal> {
    let mut notes = [0; NOTED];
    let found = judge_all(header, file, image, lift, &mut notes)?;
    let matches = matches.get_mut(..found).ok_or(reply::MATCHES_SHORT)?;
    write_visits(header.state, image, visits);
    let mut written = 0;
    for &mut visit in visits {
        let region = header.region(file, visit.into());
        let rest = &mut matches[written..];
        written += match notes.get(usize::from(visit)) {
            Some(&matching) => write_noted(region, matching, rest),
            None => write_matching(region, lift, rest),
        };
    }
    Ok(found)
}

fn try_scan(
    file: &[u8],
    table: &[u8],
    client: u64,
    lift: u32,
    visits: &mut [u16],
    matches: &mut [u64],
) -> Result<ScanAnswer, Refusal> {
    let image = client::image_of(table, client)?;
    let header = Header::read(file).ok_or(reply::HEADER)?;
    let buckets = header.state.bucket_count() as usize;
    if image.bucket_count() as usize > buckets {
        return Err(reply::AHEAD.into());
    }
    let visits = visits.get_mut(..buckets).ok_or(reply::VISITS_SHORT)?;
    let fill = if buckets <= FEW_NOTES { fill::<FEW_NOTES> } else { fill::<NOTES> };
    let found = fill(&header, file, image, lift, visits, matches)?;
    Ok(ScanAnswer { reply: reply::DONE.into(), bucket: NONE.into(), visits: buckets as u32, matches: found as u32 })
}

/// Scans the file for one lift by the client's image.
pub fn scan(file: &[u8], table: &[u8], client: u64, lift: u32, visits: &mut [u16], matches: &mut [u64]) -> ScanAnswer {
    match try_scan(file, table, client, lift, visits, matches) {
        Ok(answer) => answer,
        Err(Refusal(reply, bucket)) => ScanAnswer { reply: reply.into(), bucket, visits: 0, matches: 0 },
    }
}

#[cfg(test)]
mod tests {
    use super::*;

    fn state_of(buckets: u32) -> State {
        State { level: buckets.ilog2(), pointer: buckets - (1 << buckets.ilog2()) }
    }

    #[test]
    fn earlier_is_as_the_visits_are_written() {
        for buckets in (1..=40).chain([64, 75]) {
            for believed in 1..=buckets {
                let mut visits = vec![0; buckets as usize];
                write_visits(state_of(buckets), state_of(believed), &mut visits);
                for (at, &one) in visits.iter().enumerate() {
                    for &other in &visits[at + 1..] {
                        assert!(earlier(one.into(), other.into(), believed));
                        assert!(!earlier(other.into(), one.into(), believed));
                    }
                }
            }
        }
    }
}
