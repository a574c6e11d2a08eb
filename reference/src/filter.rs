//! The partial network filter.

use crate::answer::{Answer, Refusal};
use crate::pdu::PNI_BIT;

/// Whether a filter that is on keeps a PDU with these fields.
///
/// Refused with 5 first of all if PN bytes and mask are of different length.
/// Otherwise the PDU is kept if all messages keep awake, or if its CBV says
/// that it carries PN requests and one of them is in the mask.
pub fn pn_filter(all_keep_awake: bool, cbv: u8, pn: &[u8], mask: &[u8]) -> Answer<bool> {
    if pn.len() != mask.len() {
        return Err(Refusal::Length);
    }
    let carries_requests = cbv & PNI_BIT != 0;
    let wanted = pn.iter().zip(mask).any(|(byte, mask)| byte & mask != 0);
    Ok(all_keep_awake || (carries_requests && wanted))
}

#[cfg(test)]
mod tests {
    use super::*;
    use crate::config::tests::PN;
    use crate::pdu;

    #[test]
    fn the_four_cases_with_mask_01_97() {
        let kept = |first, second| {
            let bytes = [0x21, 0x40, 0xFF, 0xFF, first, second];
            let fields = pdu::read(&PN, &bytes).unwrap();
            pn_filter(PN.all_keep_awake, fields.cbv, fields.pn, PN.mask_bytes())
        };
        assert_eq!(kept(0x00, 0x68), Ok(false));
        assert_eq!(kept(0xFE, 0x68), Ok(false));
        assert_eq!(kept(0x00, 0x80), Ok(true));
        assert_eq!(kept(0x01, 0x00), Ok(true));
    }

    #[test]
    fn only_bit_6_counts() {
        for cbv in 0..=255 {
            let carries = cbv & 0x40 != 0;
            assert_eq!(pn_filter(false, cbv, &[0xFF], &[0x10]), Ok(carries));
            assert_eq!(pn_filter(false, cbv, &[0xEF], &[0x10]), Ok(false));
            assert_eq!(pn_filter(true, cbv, &[0xEF], &[0x10]), Ok(true));
        }
    }

    #[test]
    fn bytes_meet_their_own_mask_byte() {
        assert_eq!(pn_filter(false, 0x40, &[1, 0], &[0, 1]), Ok(false));
        assert_eq!(pn_filter(false, 0x40, &[0, 1], &[0, 1]), Ok(true));
    }

    #[test]
    fn lengths_are_judged_first() {
        for keep_awake in [false, true] {
            let answer = |pn: &[u8], mask: &[u8]| pn_filter(keep_awake, 0x40, pn, mask);
            assert_eq!(answer(&[1], &[]), Err(Refusal::Length));
            assert_eq!(answer(&[], &[1]), Err(Refusal::Length));
            assert_eq!(answer(&[1, 1], &[1]), Err(Refusal::Length));
            assert_eq!(answer(&[], &[]), Ok(keep_awake));
        }
    }
}
