//! The format by tables, as SAMPLE.md describes it, and a reader over them that shows that the files keep to it.
use super::file::kind;

/// The shape of one field.
#[derive(Clone, Copy, Debug, PartialEq, Eq)]
pub enum Field {
    Byte,
    Word,
    Long,
    /// A count, then that many bytes.
    Bytes,
    /// A count, then that many words.
    Words,
    /// A byte that says what the rest holds, then `Bytes`.
    ByteBuffer,
    /// A byte that says what the rest holds, then `Words`.
    WordBuffer,
}

use Field::{Byte, ByteBuffer, Bytes, Long, Word, WordBuffer, Words};

/// The fields of a record of some kind; none for an unknown kind.
pub fn fields(kind: u8) -> Option<Vec<Field>> {
    let list = |parts: &[&[Field]]| Some(parts.concat());
    match kind {
        kind::END => list(&[&[Word]]),
        kind::FRAME => list(&[&[Bytes, Bytes]]),
        kind::LIBRARY_FRAME => list(&[
            &[Word; 2],
            &[Word; 9],
            &[Bytes],
            &[Word; 10],
            &[Word; 2],
            &[WordBuffer, ByteBuffer],
            &[WordBuffer; 8],
        ]),
        kind::RESPONSE => list(&[&[Word; 7], &[Bytes, Word], &[Word; 3], &[WordBuffer]]),
        kind::PEAKS => list(&[&[Word; 7], &[Words], &[Word; 5], &[Word; 2], &[WordBuffer; 4]]),
        kind::CENTROID => list(&[&[Word; 3], &[Byte, Word, Word, Words], &[Word, Byte], &[Word; 3]]),
        kind::BOX => list(&[&[Word; 9], &[Word, Byte], &[Word; 4]]),
        kind::LEVELS => list(&[&[Word; 4], &[Bytes, Word], &[Word; 2], &[ByteBuffer]]),
        kind::LEVEL => list(&[&[Word; 7], &[Word; 2], &[Byte], &[Word; 3]]),
        kind::MERGE => list(&[&[Word; 2], &[Words; 4], &[Word; 2], &[WordBuffer; 4]]),
        kind::STREAM => list(&[&[Bytes], &[Word; 12], &[Bytes]]),
        kind::LISTING => list(&[&[Words; 4], &[Bytes]]),
        kind::NUMBER => list(&[&[Word; 2], &[Byte, Word], &[Long; 4]]),
        kind::RING => list(&[&[Word; 2], &[Words; 2]]),
        _ => None,
    }
}

/// Takes `n` bytes off the front.
fn take<'a>(rest: &mut &'a [u8], n: usize) -> Result<&'a [u8], String> {
    if rest.len() < n {
        return Err(format!("{n} bytes are due and {} are left", rest.len()));
    }
    let (front, behind) = rest.split_at(n);
    *rest = behind;
    Ok(front)
}

fn take_word(rest: &mut &[u8]) -> Result<usize, String> {
    let b = take(rest, 4)?;
    Ok(u32::from_le_bytes([b[0], b[1], b[2], b[3]]) as usize)
}

fn skip(rest: &mut &[u8], field: Field) -> Result<(), String> {
    if matches!(field, ByteBuffer | WordBuffer) && take(rest, 1)?[0] > 1 {
        return Err("a rest that is neither 0 nor 1".into());
    }
    let length = match field {
        Byte => 1,
        Word => 4,
        Long => 8,
        Bytes | ByteBuffer => take_word(rest)?,
        Words | WordBuffer => 4 * take_word(rest)?,
    };
    take(rest, length).map(|_| ())
}

/// Walks a file: the number of its records, or where it leaves the format.
pub fn walk(file: &[u8]) -> Result<usize, String> {
    let (mut rest, mut records) = (file, 0);
    loop {
        let number = take(&mut rest, 1)?[0];
        let length = take_word(&mut rest)?;
        let mut body = take(&mut rest, length)?;
        if number == kind::END {
            let stated = take_word(&mut body)?;
            let whole = stated == records && body.is_empty() && rest.is_empty();
            return if whole { Ok(records) } else { Err("a false end".into()) };
        }
        let due = fields(number).ok_or(format!("kind {number}"))?;
        for field in due {
            skip(&mut body, field).map_err(|e| format!("record {records}, {field:?}: {e}"))?;
        }
        if !body.is_empty() {
            return Err(format!("record {records}: {} bytes too many", body.len()));
        }
        records += 1;
    }
}

#[cfg(test)]
mod tests {
    use super::*;
    use crate::sample::file::{Body, File};

    #[test]
    fn broken_files_are_noticed() {
        let mut file = File::new("listings");
        let mut body = Body::default();
        body.floats(&[1.0]).floats(&[2.0]).floats(&[3.0]).numbers(&[4]).bytes(b"text");
        file.record(kind::LISTING, 0, &body);
        let bytes = file.finished();
        assert_eq!(walk(&bytes), Ok(1));
        assert!(walk(&bytes[..bytes.len() - 1]).is_err());
        assert!(walk(&[bytes.clone(), vec![0]].concat()).is_err());
        for at in [0, 1, 5, bytes.len() - 4] {
            let mut broken = bytes.clone();
            broken[at] ^= 32;
            assert!(walk(&broken).is_err(), "byte {at}");
        }
    }
}
