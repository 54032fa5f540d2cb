//! Output areas: row 13.
use crate::refusal::Refusal;

/// The result where an area of so many bytes has room for it.
pub fn in_room(result: Vec<u8>, room: usize) -> Result<Vec<u8>, Refusal> {
    Refusal::unless(result.len() <= room, 13, 0)?;
    Ok(result)
}
