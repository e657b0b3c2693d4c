//! Maps: one byte for each atom, and what a lent map may hold.

use crate::answer::Refusal;

/// The atom is undecided.
pub const UNDECIDED: u8 = 0;
/// The atom is in.
pub const IN: u8 = 1;
/// The atom is out.
pub const OUT: u8 = 2;
/// Every byte of a contradiction.
pub const CONTRADICTION: u8 = 3;

/// A lent map's first n bytes.
#[derive(Clone, Debug, PartialEq, Eq)]
pub enum Lent {
    Contradiction,
    /// Every byte is undecided, in or out.
    Map(Vec<u8>),
}

/// The map that these n bytes say, or refusal 12 at the first byte that
/// breaks its rule: after a first byte 3 every byte is 3, and otherwise
/// every byte is at most 2.
pub fn read_map(bytes: &[u8]) -> Result<Lent, Refusal> {
    let contradiction = bytes.first() == Some(&CONTRADICTION);
    let breaks = |byte: u8| if contradiction { byte != CONTRADICTION } else { byte > OUT };
    match bytes.iter().position(|&byte| breaks(byte)) {
        Some(place) => Err(Refusal { number: 12, place }),
        None if contradiction => Ok(Lent::Contradiction),
        None => Ok(Lent::Map(bytes.to_vec())),
    }
}

/// Refusal 12 at the first byte that is neither in nor out.
pub fn read_decided(bytes: &[u8]) -> Result<(), Refusal> {
    match bytes.iter().position(|&byte| byte != IN && byte != OUT) {
        Some(place) => Err(Refusal { number: 12, place }),
        None => Ok(()),
    }
}

/// The side of an atom, counted from 1.
pub fn side(map: &[u8], atom: usize) -> u8 {
    map[atom - 1]
}

/// How many atoms are undecided.
pub fn undecided(map: &[u8]) -> usize {
    map.iter().filter(|&&side| side == UNDECIDED).count()
}

#[cfg(test)]
mod tests {
    use super::*;

    fn refused(place: usize) -> Result<Lent, Refusal> {
        Err(Refusal { number: 12, place })
    }

    #[test]
    fn a_first_byte_3_asks_for_3_everywhere() {
        assert_eq!(read_map(&[3, 3, 3]), Ok(Lent::Contradiction));
        assert_eq!(read_map(&[3, 3, 0]), refused(2));
        assert_eq!(read_map(&[3, 9, 3]), refused(1));
    }

    #[test]
    fn otherwise_every_byte_is_at_most_2() {
        assert_eq!(read_map(&[]), Ok(Lent::Map(vec![])));
        assert_eq!(read_map(&[0, 1, 2]), Ok(Lent::Map(vec![0, 1, 2])));
        assert_eq!(read_map(&[0, 3, 3]), refused(1));
        assert_eq!(read_map(&[4, 3]), refused(0));
    }

    #[test]
    fn a_decided_map_holds_1_and_2_only() {
        assert_eq!(read_decided(&[1, 2]), Ok(()));
        assert_eq!(read_decided(&[1, 0]), Err(Refusal { number: 12, place: 1 }));
        assert_eq!(read_decided(&[3, 3]), Err(Refusal { number: 12, place: 0 }));
    }
}
