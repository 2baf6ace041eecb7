//! The client table: its judgments, the images in it, and join.

use crate::reply;
use crate::rules::State;

const RECORD_LENGTH: usize = 8;
const MOST_RECORDS: usize = 256;
const MARK: u64 = u16::from_le_bytes(*b"LC") as u64;
const HIGHEST_LEVEL: u32 = 12;
const LEVEL_SHIFT: u32 = 16;
const POINTER_SHIFT: u32 = 32;
/// A record's bits that are neither level nor pointer.
const FIXED_BITS: u64 = !(0xFF << LEVEL_SHIFT | 0xFFFF << POINTER_SHIFT);

type Record = [u8; RECORD_LENGTH];

fn record_of(image: State) -> Record {
    let number = MARK | u64::from(image.level) << LEVEL_SHIFT | u64::from(image.pointer) << POINTER_SHIFT;
    number.to_le_bytes()
}

/// A client's place in the table, or the refusal 2 or 3.
#[inline]
fn place_of(table: &[u8], client: u64) -> Result<usize, u8> {
    let (records, rest) = table.as_chunks::<RECORD_LENGTH>();
    if records.is_empty() || records.len() > MOST_RECORDS || !rest.is_empty() {
        return Err(reply::TABLE_LENGTH);
    }
    if client >= records.len() as u64 {
        return Err(reply::NO_CLIENT);
    }
    Ok(client as usize)
}

/// A client's image, or the refusal 2, 3 or 4.
#[inline]
pub fn image_of(table: &[u8], client: u64) -> Result<State, u8> {
    let place = place_of(table, client)?;
    let record = u64::from_le_bytes(table.as_chunks().0[place]);
    let level = u32::from((record >> LEVEL_SHIFT) as u8);
    let pointer = u32::from((record >> POINTER_SHIFT) as u16);
    if record & FIXED_BITS != MARK || level > HIGHEST_LEVEL || pointer >> level != 0 {
        return Err(reply::CLIENT_RECORD);
    }
    Ok(State { level, pointer })
}

/// Writes the image of a client that is known to be there.
pub fn write_image(table: &mut [u8], client: u64, image: State) {
    table.as_chunks_mut().0[client as usize] = record_of(image);
}

/// Gives a client the image (0, 0), over any old content.
pub fn join(table: &mut [u8], client: u64) -> u8 {
    match place_of(table, client) {
        Err(refusal) => refusal,
        Ok(_) => {
            write_image(table, client, State { level: 0, pointer: 0 });
            reply::DONE
        }
    }
}
