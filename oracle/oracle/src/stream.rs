//! The frame stream: reader and writer.
use crate::image::Image;
use crate::params::Params;
use crate::refusal::{refuse_if, Refusal, OUT_OF_ORDER, SIDE, STREAM_CUT, UNKNOWN_KIND};

pub const SIDES: u8 = 1;
pub const PARAMETERS: u8 = 2;
pub const PIXELS: u8 = 3;
pub const END: u8 = 4;

/// How many pixels a record of kind 3 has.
pub const RUN: usize = 32;

/// A frame as a stream carries it.
#[derive(Clone, Debug)]
pub struct Upload {
    pub width: usize,
    pub height: usize,
    pub params: Params,
    pub pixels: Vec<u8>,
}

impl Upload {
    pub fn image(&self) -> Image<'_> {
        Image { pixels: &self.pixels, width: self.width, height: self.height }
    }
}

/// The fixed length of a kind's body; none for an unknown kind (RULES 11.1).
pub fn body_length(kind: u8) -> Option<usize> {
    match kind {
        SIDES => Some(4),
        PARAMETERS => Some(16),
        PIXELS => Some(RUN),
        END => Some(0),
        _ => None,
    }
}

/// The body of the record that must stand next: a missing kind is 7, an unknown one 6, another known one 11 before its
/// body is looked at, and then a body cut short 7.
fn next<'a>(rest: &mut &'a [u8], due: u8) -> Result<&'a [u8], Refusal> {
    let (&kind, behind) = rest.split_first().ok_or(STREAM_CUT)?;
    let length = body_length(kind).ok_or(UNKNOWN_KIND)?;
    refuse_if(kind != due, OUT_OF_ORDER)?;
    refuse_if(behind.len() < length, STREAM_CUT)?;
    let (body, after) = behind.split_at(length);
    *rest = after;
    Ok(body)
}

fn u16_at(body: &[u8], i: usize) -> u32 {
    u32::from(u16::from_le_bytes([body[i], body[i + 1]]))
}

/// The bits of a float of a body.
pub fn bits_at(body: &[u8], i: usize) -> u32 {
    u32::from_le_bytes([body[i], body[i + 1], body[i + 2], body[i + 3]])
}

/// The body of kind 2.
fn params_of(body: &[u8]) -> Params {
    Params {
        ring: body[0].into(),
        threshold: f32::from_bits(bits_at(body, 1)),
        window: body[5].into(),
        least: body[6].into(),
        centroid: body[7].into(),
        merge: f32::from_bits(bits_at(body, 8)),
        levels: body[12].into(),
        minimum: u16_at(body, 13),
        search: body[15].into(),
    }
}

/// Reads a stream: the earliest faulty record decides, and in its body the lowest number (RULES 11.4). Bytes after the
/// end are not read.
pub fn read(bytes: &[u8], largest_side: usize) -> Result<Upload, Refusal> {
    let mut rest = bytes;
    let body = next(&mut rest, SIDES)?;
    let (width, height) = (u16_at(body, 0) as usize, u16_at(body, 2) as usize);
    refuse_if(width > largest_side || height > largest_side, SIDE)?;
    let params = params_of(next(&mut rest, PARAMETERS)?);
    params.check()?;
    let mut pixels = Vec::with_capacity(width * height);
    while pixels.len() < width * height {
        let body = next(&mut rest, PIXELS)?;
        let (own, padding) = body.split_at(RUN.min(width * height - pixels.len()));
        refuse_if(padding.iter().any(|&v| v != 0), STREAM_CUT)?;
        pixels.extend_from_slice(own);
    }
    next(&mut rest, END)?;
    Ok(Upload { width, height, params, pixels })
}

/// The records of a frame, each with its kind. Sides and fields are cut to their widths.
pub fn records(upload: &Upload) -> Vec<Vec<u8>> {
    let p = &upload.params;
    let mut sides = vec![SIDES];
    sides.extend((upload.width as u16).to_le_bytes());
    sides.extend((upload.height as u16).to_le_bytes());
    let mut parameters = vec![PARAMETERS, p.ring as u8];
    parameters.extend(p.threshold.to_le_bytes());
    parameters.extend([p.window as u8, p.least as u8, p.centroid as u8]);
    parameters.extend(p.merge.to_le_bytes());
    parameters.push(p.levels as u8);
    parameters.extend((p.minimum as u16).to_le_bytes());
    parameters.push(p.search as u8);
    let mut all = vec![sides, parameters];
    for run in upload.pixels.chunks(RUN) {
        let mut record = vec![PIXELS];
        record.extend(run);
        record.resize(1 + RUN, 0);
        all.push(record);
    }
    all.push(vec![END]);
    all
}

/// The stream of a frame.
pub fn write(upload: &Upload) -> Vec<u8> {
    records(upload).concat()
}

#[cfg(test)]
mod tests {
    use super::*;
    use crate::params::PLAIN;

    fn upload() -> Upload {
        let params =
            Params { threshold: f32::from_bits(0x7f80_1234), merge: 3.5, minimum: 770, search: 9, ..PLAIN };
        Upload { width: 7, height: 5, params, pixels: (1..36).collect() }
    }

    #[test]
    fn a_written_stream_is_read_back() {
        let bytes = write(&upload());
        assert_eq!(bytes.len(), 5 + 17 + 2 * 33 + 1);
        let back = read(&bytes, 96).unwrap();
        assert_eq!((back.width, back.height, back.pixels), (7, 5, upload().pixels));
        assert_eq!(back.params.threshold.to_bits(), 0x7f80_1234);
        assert_eq!(write(&read(&bytes, 96).unwrap()), bytes);
    }

    #[test]
    fn faults_at_their_own_record() {
        let bytes = write(&upload());
        let refused = |bytes: &[u8]| read(bytes, 96).unwrap_err();
        assert_eq!(refused(&[]), 7);
        assert_eq!(refused(&[0]), 6);
        assert_eq!(refused(&[2]), 11); // before its body, which is cut
        assert_eq!(refused(&bytes[..4]), 7);
        assert_eq!(refused(&[1, 97, 0, 0, 0]), 1);
        let changed = |at: usize, value: u8| {
            let mut bytes = bytes.clone();
            bytes[at] = value;
            refused(&bytes)
        };
        assert_eq!(changed(6, 6), 3); // the ring
        assert_eq!(changed(17, 0x3a), 5); // the merge radius
        assert_eq!(changed(22, 4), 11);
        assert_eq!(changed(22 + 33 + 32, 1), 7); // padding
        assert_eq!(changed(22 + 66, 3), 11); // no pixel left, and its body is cut
    }

    #[test]
    fn bytes_after_the_end_are_not_read() {
        let mut bytes = write(&upload());
        bytes.extend([4, 9, 1]);
        assert!(read(&bytes, 96).is_ok());
    }
}
