//! Damaged streams.
use super::{floats, Rng};
use crate::stream::{records, write, Upload, END, PIXELS};

/// A change of a stream; each is an accident that a sender or a line could have.
const DAMAGES: [fn(&mut Rng, &Upload) -> Vec<u8>; 16] = [
    cut,
    bit_flipped,
    byte_changed,
    early_byte_changed,
    byte_dropped,
    byte_doubled,
    kind_changed,
    record_dropped,
    record_doubled,
    records_exchanged,
    padding_not_zero,
    side_above_96,
    parameter_changed,
    radius_changed,
    trailing_bytes,
    cut_out_of_order,
];

/// The stream of a frame with one damage, or at times two.
pub fn damaged(rng: &mut Rng, upload: &Upload) -> Vec<u8> {
    let stream = rng.pick(&DAMAGES)(rng, upload);
    if rng.once_in(8) {
        let end = rng.below(stream.len() + 1);
        return stream[..end].to_vec();
    }
    stream
}

fn changed(rng: &mut Rng, upload: &Upload, change: impl Fn(&mut Rng, &mut Vec<u8>, usize)) -> Vec<u8> {
    let mut stream = write(upload);
    let at = rng.below(stream.len());
    change(rng, &mut stream, at);
    stream
}

/// Cut anywhere, also to nothing.
fn cut(rng: &mut Rng, upload: &Upload) -> Vec<u8> {
    let early = rng.once_in(2);
    changed(rng, upload, |_, stream, at| stream.truncate(if early { at % 24 } else { at }))
}

fn bit_flipped(rng: &mut Rng, upload: &Upload) -> Vec<u8> {
    changed(rng, upload, |rng, stream, at| stream[at] ^= 1 << rng.below(8))
}

fn byte_changed(rng: &mut Rng, upload: &Upload) -> Vec<u8> {
    changed(rng, upload, |rng, stream, at| stream[at] = rng.byte())
}

/// A byte of the sides or the parameters.
fn early_byte_changed(rng: &mut Rng, upload: &Upload) -> Vec<u8> {
    changed(rng, upload, |rng, stream, at| stream[at % 22] = rng.byte())
}

fn byte_dropped(rng: &mut Rng, upload: &Upload) -> Vec<u8> {
    changed(rng, upload, |_, stream, at| {
        stream.remove(at);
    })
}

fn byte_doubled(rng: &mut Rng, upload: &Upload) -> Vec<u8> {
    changed(rng, upload, |_, stream, at| stream.insert(at, stream[at]))
}

/// Another kind, known or not, in the place of a record's own.
fn kind_changed(rng: &mut Rng, upload: &Upload) -> Vec<u8> {
    let mut all = records(upload);
    let at = rng.below(all.len());
    all[at][0] = rng.pick(&[0, 1, 2, 3, 4, 5, 9, 255]);
    all.concat()
}

fn record_dropped(rng: &mut Rng, upload: &Upload) -> Vec<u8> {
    let mut all = records(upload);
    all.remove(rng.below(all.len()));
    all.concat()
}

/// A record twice: the last pixels' record then stands where none is left.
fn record_doubled(rng: &mut Rng, upload: &Upload) -> Vec<u8> {
    let mut all = records(upload);
    let at = rng.below(all.len());
    all.insert(at, all[at].clone());
    all.concat()
}

fn records_exchanged(rng: &mut Rng, upload: &Upload) -> Vec<u8> {
    let mut all = records(upload);
    let (a, b) = (rng.below(all.len()), rng.below(all.len()));
    all.swap(a, b);
    all.concat()
}

/// A byte behind the last pixel; where the last record is full, its last pixel.
fn padding_not_zero(rng: &mut Rng, upload: &Upload) -> Vec<u8> {
    let mut all = records(upload);
    let last = all.len() - 2;
    if all[last][0] == PIXELS {
        let pixels = (upload.pixels.len() - 1) % 32 + 1;
        let at = if pixels == 32 { 32 } else { rng.from_to(pixels + 1, 32) };
        all[last][at] = rng.from_to(1, 255) as u8;
    }
    all.concat()
}

/// A side of 97 and more, up to the field's largest, or of exactly 96.
fn side_above_96(rng: &mut Rng, upload: &Upload) -> Vec<u8> {
    let mut all = records(upload);
    let side = rng.pick(&[96u16, 97, 98, 255, 256, 4096, 4097, 65535]).to_le_bytes();
    let at = 1 + 2 * rng.below(2);
    all[0][at..at + 2].copy_from_slice(&side);
    all.concat()
}

/// A parameter at or over its limit.
fn parameter_changed(rng: &mut Rng, upload: &Upload) -> Vec<u8> {
    let mut all = records(upload);
    let (at, value) = match rng.below(3) {
        0 => (1, rng.pick(&[0, 1, 4, 6, 9, 11, 15, 255])),
        1 => (6, rng.pick(&[16, 17, 18, 255])),
        _ => (8, rng.pick(&[16, 17, 18, 255])),
    };
    all[1][at] = value;
    if rng.once_in(3) {
        all[1][9..13].copy_from_slice(&floats::refused_radius(rng).to_le_bytes());
    }
    all.concat()
}

fn radius_changed(rng: &mut Rng, upload: &Upload) -> Vec<u8> {
    let mut all = records(upload);
    let radius = if rng.once_in(2) { floats::refused_radius(rng) } else { floats::any_bits(rng) };
    all[1][9..13].copy_from_slice(&radius.to_le_bytes());
    all.concat()
}

/// Bytes behind the end, which are not read.
fn trailing_bytes(rng: &mut Rng, upload: &Upload) -> Vec<u8> {
    let mut stream = write(upload);
    for _ in 0..rng.from_to(1, 40) {
        stream.push(rng.byte());
    }
    stream
}

/// A record out of its order whose body is cut too: 11, not 7.
fn cut_out_of_order(rng: &mut Rng, upload: &Upload) -> Vec<u8> {
    let all = records(upload);
    let kept = rng.below(all.len());
    let mut stream = all[..kept].concat();
    let due = all[kept][0];
    let kind = rng.pick(&[1, 2, PIXELS]);
    stream.push(if kind == due { END } else { kind });
    stream.resize(stream.len() + rng.below(4), 0);
    stream
}

#[cfg(test)]
mod tests {
    use crate::generate::frames::damaged_stream;
    use crate::program::corners;

    #[test]
    fn every_refusal_of_a_stream_arises() {
        let texts: Vec<String> = (0..3000).map(|case| corners(&damaged_stream(1, case))).collect();
        for number in [1, 3, 5, 6, 7, 11] {
            let count = texts.iter().filter(|&t| *t == format!("refused {number}\n")).count();
            assert!(count > 20, "refusal {number}: {count} times");
        }
    }
}
