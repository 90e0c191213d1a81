//! Document 02, Wish 12, "What can be saved of a broken block file".

use super::file::{Cursor, LARGEST_FILE, TAG_COEFFICIENTS, TAG_KEPT, TAG_RESIDUALS, TAG_SHAPE};
use std::ops::Range;

/// "26 for more than 1,024 dropped stretches"
const MOST_STRETCHES: usize = 1024;

/// What a call hands back: the number, how many bytes the new file has, and how many stretches were dropped.
#[derive(Clone, Copy, Debug, PartialEq, Eq)]
pub struct Saved {
    pub number: i64,
    pub bytes: usize,
    pub stretches: usize,
}

/// The pieces of a file, in order: each a field that was read (`true`) or one that is dropped.
fn pieces(file: &[u8]) -> Vec<(Range<usize>, bool)> {
    let mut found = vec![];
    let mut cursor = Cursor::new();
    while cursor.at < file.len() {
        let at = cursor.at;
        let advance = cursor.advance(file);
        let kept = advance.number == 0;
        cursor = if kept {
            advance.next
        } else {
            let goes_on = (at + 1..file.len()).find(|&next| is_block_at(file, next));
            Cursor {
                at: goes_on.unwrap_or(file.len()),
                ..cursor
            }
        };
        found.push((at..cursor.at, kept));
    }
    found
}

/// "an offset at which a whole valid shape field is followed by a whole data field of the length it needs"; a tag 04 behind the
/// shape belongs to it.
fn is_block_at(file: &[u8], at: usize) -> bool {
    let read = |cursor: Cursor, tags: &[u8]| {
        let advance = cursor.advance(file);
        (advance.next.at > cursor.at && tags.contains(&file[cursor.at])).then_some(advance.next)
    };
    let is_data = |cursor| read(cursor, &[TAG_COEFFICIENTS, TAG_RESIDUALS]).is_some();
    let Some(behind) = read(Cursor { at, shape: None }, &[TAG_SHAPE]) else {
        return false;
    };
    is_data(behind) || read(behind, &[TAG_KEPT]).is_some_and(is_data)
}

/// "Write a new file of the fields read, and list each dropped stretch by offset and length." Two numbers to a place of `list`.
pub fn salvage(file: &[u8], out: &mut [u8], list: &mut [u32]) -> Saved {
    let refused = |number| Saved {
        number,
        bytes: 0,
        stretches: 0,
    };
    if file.len() > LARGEST_FILE {
        return refused(14);
    }
    if out.len() < file.len() || list.len() / 2 < MOST_STRETCHES {
        return refused(7);
    }
    let found = pieces(file);
    let dropped: Vec<_> = found.iter().filter(|(_, kept)| !kept).collect();
    if dropped.len() > MOST_STRETCHES {
        return refused(26);
    }
    for (place, (stretch, _)) in list.chunks_exact_mut(2).zip(&dropped) {
        place.copy_from_slice(&[stretch.start as u32, stretch.len() as u32]);
    }
    let kept = found.iter().filter(|(_, kept)| *kept);
    let new: Vec<u8> = kept
        .flat_map(|(stretch, _)| file[stretch.clone()].to_vec())
        .collect();
    out[..new.len()].copy_from_slice(&new);
    Saved {
        number: 0,
        bytes: new.len(),
        stretches: dropped.len(),
    }
}

/// What is saved of a file that no refusal of the whole call meets, and a line for each dropped stretch.
pub fn saved_of(file: &[u8]) -> (Vec<u8>, String) {
    let (mut out, mut list) = (vec![0; file.len()], vec![0; 2 * MOST_STRETCHES]);
    let saved = salvage(file, &mut out, &mut list);
    assert_eq!(saved.number, 0);
    out.truncate(saved.bytes);
    let places = list.chunks_exact(2).take(saved.stretches);
    (
        out,
        places.map(|p| format!("{} {}\n", p[0], p[1])).collect(),
    )
}

#[cfg(test)]
mod tests {
    use super::*;

    const SHAPE: [u8; 8] = [1, 0, 5, 4, 4, 1, 1, 10];

    fn block() -> Vec<u8> {
        [&SHAPE[..], &[2, 0, 32], &[0; 32]].concat()
    }

    fn is(parts: &[&[u8]], saved: &[&[u8]], dropped: &str) {
        assert_eq!(
            saved_of(&parts.concat()),
            (saved.concat(), dropped.to_string())
        );
    }

    #[test]
    fn stray_bytes_are_dropped_up_to_the_next_block() {
        let b = &block()[..];
        is(&[], &[], "");
        is(&[b], &[b], "");
        is(&[b, &[9, 9, 9], b], &[b, b], "43 3\n");
        is(&[&[9], b, &[9]], &[b], "0 1\n44 1\n");
        is(&[&[9; 5]], &[], "0 5\n");
    }

    #[test]
    fn data_alone_or_a_shape_alone_is_no_place_to_go_on() {
        let b = &block()[..];
        is(&[b, &[9], &b[8..], b], &[b, b], "43 36\n");
        is(&[b, &[9], &SHAPE, &SHAPE, b], &[b, b], "43 17\n");
        is(&[b, &[9], &SHAPE], &[b], "43 9\n");
    }

    #[test]
    fn kept_numbers_belong_to_the_shape_before_them() {
        let kept = [&SHAPE[..], &[4, 0, 2, 1, 1], &block()[8..]].concat();
        is(&[&[9], &kept], &[&kept], "0 1\n");
        let refused = [&SHAPE[..], &[4, 0, 2, 5, 1], &block()[8..]].concat();
        is(
            &[&[9], &refused],
            &[],
            &format!("0 {}\n", refused.len() + 1),
        );
    }

    /// The text taken literally: a body has as many bytes as its length says, wherever they are from.
    #[test]
    fn missing_bytes_inside_a_body_are_not_noticed_there() {
        let b = &block()[..];
        is(&[&b[..23], b], &[&b[..23], &b[..20]], "43 23\n");
    }
}
