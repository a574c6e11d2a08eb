//! What a C host gets to call: three functions on numbers and byte strings.
//! Each reply carries the answer number, the rule beside answer 2, and its
//! values, which are 0 when refused.

use crate::answer::{numbers, Answer, Refusal};
use crate::config::{check_header, Position};
use crate::filter::pn_filter;
use crate::ticks::ticks;

/// The number with which the host says that a header field is off.
pub const POSITION_OFF: u32 = 255;

/// A reply to the host.
#[derive(Clone, Copy, Debug, PartialEq, Eq)]
pub struct Reply<V> {
    /// The number from the paper's table of answers.
    pub answer: u8,
    /// The first broken rule with answer 2, else 0.
    pub rule: u8,
    /// The result; 0, and `false`, when refused.
    pub value: V,
}

impl<V: Default> From<Answer<V>> for Reply<V> {
    fn from(outcome: Answer<V>) -> Self {
        let (answer, rule) = numbers(&outcome);
        Reply {
            answer,
            rule,
            value: outcome.unwrap_or_default(),
        }
    }
}

/// The two header fields of a PDU.
#[derive(Clone, Copy, Debug, Default, PartialEq, Eq)]
pub struct Header {
    /// Source node id, 0 if off.
    pub sni: u8,
    /// Control bit vector, 0 if off.
    pub cbv: u8,
}

/// Milliseconds into ticks, rounded up. Answers 2 with rule 1 for a bad
/// period, then 2 with rule 2 for a time that is too long.
pub fn convert(period_ms: u32, ms: u32) -> Reply<u64> {
    ticks(period_ms.into(), ms.into())
        .map_err(Refusal::Rule)
        .into()
}

/// Whether the PN filter, taken as on, keeps a PDU. Answers 5 if PN bytes and
/// mask are of different length.
pub fn filter(all_keep_awake: bool, cbv: u8, pn: &[u8], mask: &[u8]) -> Reply<bool> {
    pn_filter(all_keep_awake, cbv, pn, mask).into()
}

/// SNI and CBV of a PDU of the given length, each field at byte 0, at byte 1
/// or off (255). Answers 2 with rule 6 for a bad length, 2 with rule 7 for bad
/// positions or a header longer than the PDU, then 5 if the PDU has another
/// length.
pub fn read_header(length: u32, sni: u32, cbv: u32, pdu: &[u8]) -> Reply<Header> {
    header(length, position(sni), position(cbv), pdu).into()
}

fn header(length: u32, sni: Position, cbv: Position, pdu: &[u8]) -> Answer<Header> {
    check_header(sni, cbv, length.into()).map_err(Refusal::Rule)?;
    if pdu.len() as u64 != u64::from(length) {
        return Err(Refusal::Length);
    }
    Ok(Header {
        sni: sni.byte().map_or(0, |byte| pdu[byte]),
        cbv: cbv.byte().map_or(0, |byte| pdu[byte]),
    })
}

fn position(number: u32) -> Position {
    match number {
        POSITION_OFF => Position::Off,
        _ => Position::from_number(number.into()),
    }
}

#[cfg(test)]
mod tests {
    use super::*;
    use crate::config::tests::each_layout;
    use crate::pdu;

    fn reply<V>(answer: u8, rule: u8, value: V) -> Reply<V> {
        Reply {
            answer,
            rule,
            value,
        }
    }

    fn fields(sni: u8, cbv: u8) -> Reply<Header> {
        reply(0, 0, Header { sni, cbv })
    }

    fn refused(answer: u8, rule: u8) -> Reply<Header> {
        reply(answer, rule, Header { sni: 0, cbv: 0 })
    }

    #[test]
    fn conversion() {
        assert_eq!(convert(20, 1_010), reply(0, 0, 51));
        assert_eq!(convert(20, 1_000), reply(0, 0, 50));
        assert_eq!(convert(20, 1), reply(0, 0, 1));
        assert_eq!(convert(20, 0), reply(0, 0, 0));
        assert_eq!(convert(100, 65_535), reply(0, 0, 656));
        assert_eq!(convert(0, 20), reply(2, 1, 0));
        assert_eq!(convert(101, 65_536), reply(2, 1, 0));
        assert_eq!(convert(100, 65_536), reply(2, 2, 0));
        assert_eq!(convert(u32::MAX, u32::MAX), reply(2, 1, 0));
        assert_eq!(convert(1, u32::MAX), reply(2, 2, 0));
    }

    #[test]
    fn filtering() {
        let mask = [0x01, 0x97];
        assert_eq!(
            filter(false, 0x40, &[0x00, 0x68], &mask),
            reply(0, 0, false)
        );
        assert_eq!(
            filter(false, 0x40, &[0xFE, 0x68], &mask),
            reply(0, 0, false)
        );
        assert_eq!(filter(false, 0x40, &[0x00, 0x80], &mask), reply(0, 0, true));
        assert_eq!(filter(false, 0x40, &[0x01, 0x00], &mask), reply(0, 0, true));
        assert_eq!(
            filter(false, 0xBF, &[0x01, 0x00], &mask),
            reply(0, 0, false)
        );
        assert_eq!(filter(true, 0xBF, &[0x00, 0x00], &mask), reply(0, 0, true));
        assert_eq!(filter(true, 0x40, &[0x01], &mask), reply(5, 0, false));
    }

    #[test]
    fn reading() {
        let bytes = [0x21, 0x40, 3, 4, 5, 6, 7, 8, 9];
        assert_eq!(read_header(8, 0, 1, &bytes[..8]), fields(0x21, 0x40));
        assert_eq!(read_header(8, 1, 0, &bytes[..8]), fields(0x40, 0x21));
        assert_eq!(read_header(8, 0, 255, &bytes[..8]), fields(0x21, 0));
        assert_eq!(read_header(8, 255, 0, &bytes[..8]), fields(0, 0x21));
        assert_eq!(read_header(8, 255, 255, &bytes[..8]), fields(0, 0));
        assert_eq!(read_header(1, 0, 255, &bytes[..1]), fields(0x21, 0));
        assert_eq!(read_header(1, 255, 255, &bytes[..1]), fields(0, 0));

        assert_eq!(read_header(0, 255, 255, &[]), refused(2, 6));
        assert_eq!(read_header(9, 0, 1, &bytes), refused(2, 6));
        assert_eq!(read_header(u32::MAX, 2, 2, &bytes), refused(2, 6));
        assert_eq!(read_header(1, 0, 1, &bytes[..1]), refused(2, 7));
        assert_eq!(read_header(8, 0, 0, &bytes), refused(2, 7));
        assert_eq!(read_header(8, 1, 1, &bytes), refused(2, 7));
        assert_eq!(read_header(8, 1, 255, &bytes), refused(2, 7));
        assert_eq!(read_header(8, 255, 1, &bytes), refused(2, 7));
        for other in [2, 254, 256, u32::MAX] {
            assert_eq!(read_header(8, other, 0, &bytes), refused(2, 7));
            assert_eq!(read_header(8, 0, other, &bytes), refused(2, 7));
        }
        assert_eq!(read_header(8, 0, 1, &bytes[..7]), refused(5, 0));
        assert_eq!(read_header(8, 0, 1, &bytes), refused(5, 0));
        assert_eq!(read_header(8, 0, 1, &[]), refused(5, 0));
    }

    #[test]
    fn the_host_reads_what_the_library_reads() {
        let bytes = [0xA0, 0xA1, 0xA2, 0xA3, 0xA4, 0xA5, 0xA6, 0xA7];
        let number = |position: Position| position.byte().map_or(255, |byte| byte as u32);
        each_layout(|cfg| {
            let bytes = &bytes[..cfg.pdu_len()];
            let whole = pdu::read(cfg, bytes).unwrap();
            let length = bytes.len() as u32;
            let header = read_header(length, number(cfg.sni), number(cfg.cbv), bytes);
            assert_eq!(header, fields(whole.sni, whole.cbv));
        });
    }
}
