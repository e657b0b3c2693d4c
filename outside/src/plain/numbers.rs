//! Whole numbers in groups of seven bits, low group first.

use crate::answer::Refusal;

/// The most bytes a number may take.
const MOST_BYTES: usize = 4;

/// The number that begins at `place`, and the place after it.
///
/// Refused by 1 at the sheet's length where the sheet ends before the
/// number does, by 2 at `place` where the number is not in its shortest
/// form, and by 15 at `place` where its fourth byte has the top bit set.
pub fn read_number(sheet: &[u8], place: usize) -> Result<(u32, usize), Refusal> {
    let mut value = 0;
    for index in 0..MOST_BYTES {
        let Some(&byte) = sheet.get(place + index) else {
            return Err(Refusal { number: 1, place: sheet.len() });
        };
        value += u32::from(byte & 0x7f) << (7 * index);
        if byte & 0x80 == 0 {
            let shortest = index == 0 || byte != 0;
            return if shortest { Ok((value, place + index + 1)) } else { Err(Refusal { number: 2, place }) };
        }
    }
    Err(Refusal { number: 15, place })
}

#[cfg(test)]
mod tests {
    use super::*;

    fn refused(number: u8, place: usize) -> Result<(u32, usize), Refusal> {
        Err(Refusal { number, place })
    }

    #[test]
    fn numbers_are_read_with_the_place_after_them() {
        assert_eq!(read_number(&[0x00], 0), Ok((0, 1)));
        assert_eq!(read_number(&[0x80, 0x04], 0), Ok((512, 2)));
        assert_eq!(read_number(&[0xc0, 0x84, 0x3d], 0), Ok((1_000_000, 3)));
        assert_eq!(read_number(&[0x05, 0xff, 0xff, 0xff, 0x7f], 1), Ok((268_435_455, 5)));
    }

    #[test]
    fn a_sheet_that_ends_too_soon_is_refused_at_its_length() {
        assert_eq!(read_number(&[], 0), refused(1, 0));
        assert_eq!(read_number(&[0x01], 1), refused(1, 1));
        assert_eq!(read_number(&[0x80, 0x80, 0x80], 0), refused(1, 3));
    }

    #[test]
    fn longer_forms_are_refused_at_their_first_byte() {
        assert_eq!(read_number(&[0x80, 0x00], 0), refused(2, 0));
        assert_eq!(read_number(&[0x07, 0x81, 0x80, 0x00], 1), refused(2, 1));
        assert_eq!(read_number(&[0x80, 0x80, 0x80, 0x00], 0), refused(2, 0));
        assert_eq!(read_number(&[0xff, 0xff, 0xff, 0x00], 0), refused(2, 0));
    }

    #[test]
    fn longer_numbers_are_refused_at_their_first_byte_whatever_follows() {
        assert_eq!(read_number(&[0x80, 0x80, 0x80, 0x80], 0), refused(15, 0));
        assert_eq!(read_number(&[0x07, 0xff, 0xff, 0xff, 0xff], 1), refused(15, 1));
        assert_eq!(read_number(&[0x80, 0x80, 0x80, 0x80, 0x01], 0), refused(15, 0));
        assert_eq!(read_number(&[0x80, 0x80, 0x80, 0x80, 0x00], 0), refused(15, 0));
    }
}
