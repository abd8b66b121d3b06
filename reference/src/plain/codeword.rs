//! Nibbles and codewords.

/// The codeword of a nibble: the nibble in bits 0 to 3, parity from bit 4.
pub fn codeword(nibble: u8, cr: u8) -> u8 {
    let d = |bit: u8| nibble >> bit & 1;
    let p0 = d(0) ^ d(1) ^ d(2);
    let p1 = d(1) ^ d(2) ^ d(3);
    let p2 = d(0) ^ d(1) ^ d(3);
    let p3 = d(0) ^ d(2) ^ d(3);
    let parity = match cr {
        1 => d(0) ^ d(1) ^ d(2) ^ d(3),
        2 => p0 | p1 << 1,
        3 => p0 | p1 << 1 | p2 << 2,
        _ => p0 | p1 << 1 | p2 << 2 | p3 << 3,
    };
    nibble | parity << 4
}

/// A nibble read from a word, and the bit of the word that had to be repaired, if
/// one had (document 02, Ask 3).
#[derive(Clone, Copy, Debug, PartialEq, Eq)]
pub struct Taken {
    pub nibble: u8,
    pub repaired: Option<usize>,
}

/// The nibble of a word, if the word can be read at this rate.
pub fn take(word: u8, cr: u8) -> Option<Taken> {
    let most_wrong = if cr >= 3 { 1 } else { 0 };
    for nibble in 0..16 {
        let wrong = word ^ codeword(nibble, cr);
        if wrong.count_ones() <= most_wrong {
            let repaired = (0..8).find(|bit| wrong >> bit & 1 == 1);
            return Some(Taken { nibble, repaired });
        }
    }
    None
}

#[cfg(test)]
mod tests {
    use super::*;

    /// `take` stops at the first codeword in reach, so there must be one only.
    #[test]
    fn codewords_at_4_7_and_4_8_are_three_and_four_apart() {
        for (cr, least) in [(1, 2), (2, 2), (3, 3), (4, 4)] {
            for a in 0..16 {
                for b in 0..a {
                    let distance = (codeword(a, cr) ^ codeword(b, cr)).count_ones();
                    assert!(distance >= least, "CR {cr}: {a} and {b}");
                }
            }
        }
    }

    /// Any bit of any codeword turned is named where the rate repairs, and makes
    /// the word unreadable where it does not.
    #[test]
    fn a_turned_bit_is_named() {
        for cr in 1..=4 {
            for nibble in 0..16 {
                let sent = codeword(nibble, cr);
                let unharmed = Taken {
                    nibble,
                    repaired: None,
                };
                assert_eq!(take(sent, cr), Some(unharmed));
                for bit in 0..usize::from(cr) + 4 {
                    let repaired = Some(Taken {
                        nibble,
                        repaired: Some(bit),
                    });
                    let wanted = if cr >= 3 { repaired } else { None };
                    assert_eq!(take(sent ^ 1 << bit, cr), wanted, "CR {cr}, bit {bit}");
                }
            }
        }
    }

    /// How many codewords are `distance` bits away from a word.
    fn codewords_away(word: u8, cr: u8, distance: u32) -> usize {
        (0..16)
            .filter(|&nibble| (word ^ codeword(nibble, cr)).count_ones() == distance)
            .count()
    }

    /// Document 02, Ask 5: a codeword, or one bit from exactly one.
    fn near_one(word: u8, cr: u8) -> bool {
        codewords_away(word, cr, 0) == 1 || codewords_away(word, cr, 1) == 1
    }

    #[test]
    fn every_word_at_4_7_is_a_codeword_or_one_bit_from_exactly_one() {
        assert!((0..128).all(|word| near_one(word, 3)));
        assert!((0..128).all(|word| take(word, 3).is_some()));
    }

    /// At no other rate is that so: a word that is no codeword is one bit from
    /// five at 4/5, from two at 4/6, and at 4/8 from one or from none.
    #[test]
    fn at_the_other_rates_it_is_not_so() {
        for word in (0..32).filter(|&word| codewords_away(word, 1, 0) == 0) {
            assert_eq!(codewords_away(word, 1, 1), 5);
        }
        for word in (0..64).filter(|&word| codewords_away(word, 2, 0) == 0) {
            assert_eq!(codewords_away(word, 2, 1), 2);
        }
        assert_eq!((0..=255).filter(|&word| !near_one(word, 4)).count(), 112);
    }
}
