//! The text of a corner list.
use crate::numbers::bits;
use crate::refusal::Refusal;
use crate::Corner;

/// The nearest 256th of a pixel, half away from zero (RULES 12.1): the product is exact.
fn in_256ths(coordinate: f32) -> i64 {
    (coordinate * 256.0).round() as i64
}

/// The line of a corner and its neighbours.
fn line(c: &Corner, neighbours: u32) -> String {
    format!(
        "{} {} {:08x} {:08x} {:08x} {neighbours}\n",
        in_256ths(c.x),
        in_256ths(c.y),
        bits(c.x),
        bits(c.y),
        bits(c.strength)
    )
}

/// The listing of a finished frame.
pub fn listing(list: &[Corner], neighbours: &[u32]) -> String {
    assert_eq!(list.len(), neighbours.len());
    let lines: String = list.iter().zip(neighbours).map(|(c, &n)| line(c, n)).collect();
    format!("corners {}\n{lines}", list.len())
}

/// What a refused stream prints.
pub fn refused(number: Refusal) -> String {
    format!("refused {number}\n")
}

#[cfg(test)]
mod tests {
    use super::*;

    #[test]
    fn columns_of_a_line() {
        let list = [Corner::new(5.0, 5.999_999_5, 2032.0)];
        assert_eq!(listing(&list, &[1088]), "corners 1\n1280 1536 40a00000 40bfffff 44fe0000 1088\n");
        assert_eq!(listing(&[], &[]), "corners 0\n");
        assert_eq!(refused(7), "refused 7\n");
    }

    /// Halves, and what is beside them: adding 0.5 rounds the second up, and half to even gives 2 for the fourth.
    #[test]
    fn nearest_256ths() {
        let columns = [
            (0x3b00_0000, 1),
            (0x3aff_ffff, 0),
            (0x3bc0_0000, 2),
            (0x3c20_0000, 3),
            (0x40bf_ffff, 1536),
            (0x4580_0000, 1_048_576),
            (0x4780_0001, 16_777_218),
        ];
        for (bits, column) in columns {
            assert_eq!(in_256ths(f32::from_bits(bits)), column, "{bits:08x}");
        }
    }
}
