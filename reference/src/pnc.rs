//! Partial network clusters: their number in the vehicle, and their place in
//! the PN vector of one configuration. The two are kept apart as types.

/// The number of a PNC: 8 times the byte of the PDU that carries its bit, plus
/// the bit. Bytes 2 to 7 carry 16 to 63.
#[derive(Clone, Copy, Debug, PartialEq, Eq, PartialOrd, Ord, Hash)]
pub struct PncNumber(pub u64);

/// A bit of the PN vector, counted from bit 0 of the vector's first byte.
#[derive(Clone, Copy, Debug, PartialEq, Eq, PartialOrd, Ord, Hash)]
pub struct BitIndex(pub u64);

impl PncNumber {
    /// The place in a vector that starts at PDU byte `pn_start` and has
    /// `pn_len` bytes; `None` for a PNC that the vector does not carry.
    pub fn to_index(self, pn_start: u64, pn_len: u64) -> Option<BitIndex> {
        let (pdu_byte, bit) = (self.0 / 8, self.0 % 8);
        let byte = pdu_byte.checked_sub(pn_start)?;
        (byte < pn_len).then_some(BitIndex(8 * byte + bit))
    }
}

impl BitIndex {
    /// The vector byte that holds the bit.
    pub fn byte(self) -> u64 {
        self.0 / 8
    }

    /// The bit inside that byte, 0 being the lowest.
    pub fn bit(self) -> u64 {
        self.0 % 8
    }

    /// The PNC at this place of a vector that starts at PDU byte `pn_start`
    /// and has `pn_len` bytes; `None` for a place outside it (and for a start
    /// so high that the number would not fit its type).
    pub fn to_number(self, pn_start: u64, pn_len: u64) -> Option<PncNumber> {
        if self.byte() >= pn_len {
            return None;
        }
        let pdu_byte = pn_start.checked_add(self.byte())?;
        pdu_byte
            .checked_mul(8)?
            .checked_add(self.bit())
            .map(PncNumber)
    }
}

#[cfg(test)]
mod tests {
    use super::*;

    #[test]
    fn six_bytes_from_byte_two_carry_16_to_63() {
        assert_eq!(BitIndex(0).to_number(2, 6), Some(PncNumber(16)));
        assert_eq!(BitIndex(47).to_number(2, 6), Some(PncNumber(63)));
        assert_eq!(BitIndex(48).to_number(2, 6), None);
        assert_eq!(PncNumber(15).to_index(2, 6), None);
        assert_eq!(PncNumber(16).to_index(2, 6), Some(BitIndex(0)));
        assert_eq!(PncNumber(63).to_index(2, 6), Some(BitIndex(47)));
        assert_eq!(PncNumber(64).to_index(2, 6), None);
    }

    #[test]
    fn each_way_undoes_the_other() {
        for start in 0..8 {
            for len in 0..=8 - start {
                for value in 0..80 {
                    if let Some(number) = BitIndex(value).to_number(start, len) {
                        assert_eq!(number.0, 8 * start + value);
                        assert_eq!(number.to_index(start, len), Some(BitIndex(value)));
                    } else {
                        assert!(value >= 8 * len);
                    }
                    if let Some(index) = PncNumber(value).to_index(start, len) {
                        assert_eq!(index.to_number(start, len), Some(PncNumber(value)));
                    } else {
                        assert!(value < 8 * start || value >= 8 * (start + len));
                    }
                }
            }
        }
    }

    #[test]
    fn byte_and_bit() {
        assert_eq!((BitIndex(7).byte(), BitIndex(7).bit()), (0, 7));
        assert_eq!((BitIndex(8).byte(), BitIndex(8).bit()), (1, 0));
    }

    #[test]
    fn the_largest_values() {
        let max = u64::MAX;
        assert_eq!(PncNumber(max).to_index(0, max), Some(BitIndex(max)));
        assert_eq!(BitIndex(max).to_number(0, max), Some(PncNumber(max)));
        assert_eq!(PncNumber(max).to_index(max, max), None);
        assert_eq!(BitIndex(max).to_number(max, max), None);
        assert_eq!(BitIndex(0).to_number(max, 1), None);
        assert_eq!(BitIndex(0).to_number(0, 0), None);
    }
}
