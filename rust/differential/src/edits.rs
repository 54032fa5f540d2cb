//! The comparison of classes, merging and rewriting by the two checkers, every lent byte included.
use crate::replies::{in_plain, refused};
use crate::rng::Rng;
use plain::{Book, Edit, Refusal};
use std::hint::black_box;

/// Room for every result.
pub use hoidrul::LONGEST;

/// The bytes that were written.
pub type Written = Result<Vec<u8>, Refusal>;

/// Bytes on either side of the lent area, to see that nothing is written there.
const MARGIN: usize = 16;

/// Finds classes by both checkers, which must agree, and returns what they wrote.
pub fn classes(file: &[u8], room: usize) -> Written {
    let expected = plain::classes(file, room);
    expect(file, room, expected, "classes", |file, out| {
        hoidrul::classes(file, out)
    })
}

/// Edits by both checkers, which must agree, and returns what they wrote.
pub fn edit(file: &[u8], edit: Edit, room: usize) -> Written {
    let expected = match edit {
        Edit::Merge { s, t } => plain::merge(file, s, t, room),
        Edit::Rewrite { law, node } => plain::rewrite(file, law, node, room),
    };
    expect_edit(file, edit, room, expected)
}

pub fn merge(file: &[u8], s: usize, t: usize, room: usize) -> Written {
    edit(file, Edit::Merge { s, t }, room)
}

pub fn rewrite(file: &[u8], law: usize, node: usize, room: usize) -> Written {
    edit(file, Edit::Rewrite { law, node }, room)
}

/// Edits the file, which the book has too, by the library and by the book, and returns what they
/// wrote.
pub fn turn(book: &mut Book, file: &[u8], edit: Edit, room: usize) -> Written {
    let reply = book.turn(edit, room);
    let expected = reply.map(|length| {
        assert_eq!(length, book.file().len());
        book.file().to_vec()
    });
    expect_edit(file, edit, room, expected)
}

/// Tries areas of every length near the result's, and some far from it. The edit must be one that
/// answers where there is room.
pub fn rooms(file: &[u8], result: &[u8], mut call: impl FnMut(&[u8], usize) -> Written) {
    let length = result.len();
    let near = length.saturating_sub(4)..=length + 4;
    for room in near.chain([0, 1, length / 2, 2 * length, LONGEST + 100]) {
        let expected = if room < length {
            refused(13, 0)
        } else {
            Ok(result.to_vec())
        };
        assert_eq!(call(file, room), expected, "{room} bytes");
    }
}

fn expect_edit(file: &[u8], edit: Edit, room: usize, expected: Written) -> Written {
    expect(file, room, expected, edit, |file, out| match edit {
        Edit::Merge { s, t } => hoidrul::merge(file, s, t, out),
        Edit::Rewrite { law, node } => hoidrul::rewrite(file, law, node, out),
    })
}

/// Calls the library with an area that held garbage. Its reply must be the expected one, and every
/// byte of the area what was written, or else what it was before.
fn expect(
    file: &[u8],
    room: usize,
    expected: Written,
    what: impl std::fmt::Debug,
    call: impl FnOnce(&[u8], &mut [u8]) -> Result<usize, hoidrul::Refusal>,
) -> Written {
    let before = Rng::new(room as u64).bytes(room + 2 * MARGIN);
    let mut area = before.clone();
    let file_before = file.to_vec();

    let reply = call(file, &mut area[MARGIN..MARGIN + room]);

    assert!(black_box(file) == file_before, "the lent file was changed");
    let reply = in_plain(reply);
    let length = expected.as_ref().map(Vec::len).map_err(|&refusal| refusal);
    assert_eq!(reply, length, "{what:?}, {room} bytes, file {file:?}");
    let mut after = before;
    if let Ok(written) = &expected {
        after[MARGIN..MARGIN + written.len()].copy_from_slice(written);
    }
    assert_eq!(black_box(&area), &after, "{what:?}, file {file:?}");
    reply.map(|length| area[MARGIN..MARGIN + length].to_vec())
}
