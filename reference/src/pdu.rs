//! The NM PDU: its fields put together into a frame and taken apart again.

use crate::answer::{Answer, Refusal};
use crate::config::{first_broken_rule, Config};

/// CBV bit 0: the sender asks for Repeat.
pub const REPEAT_BIT: u8 = 1 << 0;
/// CBV bit 4: the sender woke the network itself.
pub const ACTIVE_WAKEUP_BIT: u8 = 1 << 4;
/// CBV bit 6, PNI: the PDU carries PN requests.
pub const PNI_BIT: u8 = 1 << 6;

/// The fields of a PDU; PN bytes and user data are borrowed.
#[derive(Clone, Copy, Debug, PartialEq, Eq)]
pub struct Fields<'a> {
    /// Source node id.
    pub sni: u8,
    /// Control bit vector.
    pub cbv: u8,
    /// The PN vector, empty with PN off.
    pub pn: &'a [u8],
    /// The user data.
    pub user: &'a [u8],
}

/// Writes the fields into the first L bytes of `frame` and leaves the rest of
/// it alone. A header field that is off takes no byte and is not looked at.
///
/// Refused with 2 if the configuration breaks a rule, else with 5 if PN bytes
/// or user data have another length than configured or the frame has no room
/// for L bytes; then nothing is written.
pub fn compose(cfg: &Config, fields: &Fields<'_>, frame: &mut [u8]) -> Answer<()> {
    check(cfg)?;
    let (pn, user) = (cfg.pn_range(), cfg.user_range());
    if fields.pn.len() != pn.len() || fields.user.len() != user.len() || frame.len() < cfg.pdu_len()
    {
        return Err(Refusal::Length);
    }
    write_fields(cfg, fields, frame);
    Ok(())
}

/// Takes a PDU apart. A header field that is off reads 0.
///
/// Refused with 2 if the configuration breaks a rule, else with 5 if the PDU
/// does not have exactly L bytes.
pub fn read<'a>(cfg: &Config, pdu: &'a [u8]) -> Answer<Fields<'a>> {
    check(cfg)?;
    if pdu.len() != cfg.pdu_len() {
        return Err(Refusal::Length);
    }
    Ok(read_fields(cfg, pdu))
}

/// Composing where nothing is to be refused.
pub(crate) fn write_fields(cfg: &Config, fields: &Fields<'_>, frame: &mut [u8]) {
    if let Some(byte) = cfg.sni.byte() {
        frame[byte] = fields.sni;
    }
    if let Some(byte) = cfg.cbv.byte() {
        frame[byte] = fields.cbv;
    }
    frame[cfg.pn_range()].copy_from_slice(fields.pn);
    frame[cfg.user_range()].copy_from_slice(fields.user);
}

/// Reading where nothing is to be refused.
pub(crate) fn read_fields<'a>(cfg: &Config, pdu: &'a [u8]) -> Fields<'a> {
    Fields {
        sni: cfg.sni.byte().map_or(0, |byte| pdu[byte]),
        cbv: cfg.cbv.byte().map_or(0, |byte| pdu[byte]),
        pn: &pdu[cfg.pn_range()],
        user: &pdu[cfg.user_range()],
    }
}

fn check(cfg: &Config) -> Answer<()> {
    match first_broken_rule(cfg) {
        0 => Ok(()),
        rule => Err(Refusal::Rule(rule)),
    }
}

#[cfg(test)]
mod tests {
    use super::*;
    use crate::config::tests::{each_layout, PLAIN, PN};
    use crate::config::Position;

    const PN_BYTES: [u8; 8] = [0xA0, 0xA1, 0xA2, 0xA3, 0xA4, 0xA5, 0xA6, 0xA7];
    const USER_BYTES: [u8; 8] = [0xB0, 0xB1, 0xB2, 0xB3, 0xB4, 0xB5, 0xB6, 0xB7];

    /// Fields of the right lengths, every byte of them different.
    fn fields_for(cfg: &Config) -> Fields<'static> {
        Fields {
            sni: 0x51,
            cbv: 0x40,
            pn: &PN_BYTES[..cfg.pn_range().len()],
            user: &USER_BYTES[..cfg.user_range().len()],
        }
    }

    #[test]
    fn the_frame_of_the_trace() {
        let fields = Fields {
            sni: 33,
            cbv: 0,
            pn: &[],
            user: &[0xFF; 6],
        };
        let mut frame = [0xEE; 8];
        assert_eq!(compose(&PLAIN, &fields, &mut frame), Ok(()));
        assert_eq!(frame, [0x21, 0, 0xFF, 0xFF, 0xFF, 0xFF, 0xFF, 0xFF]);
        assert_eq!(read(&PLAIN, &frame), Ok(fields));
    }

    #[test]
    fn pn_bytes_before_and_after_user_data() {
        let fields = Fields {
            sni: 0x21,
            cbv: 0x40,
            pn: &[1, 2],
            user: &[8, 9],
        };
        let mut frame = [0xEE; 8];
        assert_eq!(compose(&PN, &fields, &mut frame), Ok(()));
        assert_eq!(frame, [0x21, 0x40, 8, 9, 1, 2, 0xEE, 0xEE]);

        let first = Config { pn_start: 2, ..PN };
        assert_eq!(compose(&first, &fields, &mut frame), Ok(()));
        assert_eq!(frame, [0x21, 0x40, 1, 2, 8, 9, 0xEE, 0xEE]);

        let swapped = Config {
            sni: Position::Byte1,
            cbv: Position::Byte0,
            ..first
        };
        assert_eq!(compose(&swapped, &fields, &mut frame), Ok(()));
        assert_eq!(frame, [0x40, 0x21, 1, 2, 8, 9, 0xEE, 0xEE]);
    }

    #[test]
    fn what_is_composed_reads_back() {
        each_layout(|cfg| {
            let fields = fields_for(cfg);
            let length = cfg.pdu_len();
            let mut frame = [0xEE; 10];
            assert_eq!(compose(cfg, &fields, &mut frame), Ok(()));
            assert!(!frame[..length].contains(&0xEE));
            assert!(frame[length..].iter().all(|byte| *byte == 0xEE));

            let expected = Fields {
                sni: if cfg.sni.is_on() { fields.sni } else { 0 },
                cbv: if cfg.cbv.is_on() { fields.cbv } else { 0 },
                ..fields
            };
            assert_eq!(read(cfg, &frame[..length]), Ok(expected));
            assert_eq!(read(cfg, &frame[..length + 1]), Err(Refusal::Length));
            assert_eq!(read(cfg, &frame[..length - 1]), Err(Refusal::Length));
        });
    }

    #[test]
    fn what_is_read_composes_back() {
        each_layout(|cfg| {
            let pdu = &USER_BYTES[..cfg.pdu_len()];
            let fields = read(cfg, pdu).unwrap();
            let mut frame = [0; 8];
            assert_eq!(compose(cfg, &fields, &mut frame), Ok(()));
            assert_eq!(&frame[..cfg.pdu_len()], pdu);
        });
    }

    #[test]
    fn wrong_lengths_write_nothing() {
        each_layout(|cfg| {
            let good = fields_for(cfg);
            let (pn, user, length) = (good.pn.len(), good.user.len(), cfg.pdu_len());
            let lengths = [
                (pn + 1, user, length),
                (pn.wrapping_sub(1), user, length),
                (pn, user + 1, length),
                (pn, user.wrapping_sub(1), length),
                (pn + 1, user.wrapping_sub(1), length),
                (pn, user, length - 1),
                (pn, user, 0),
            ];
            for (pn, user, length) in lengths {
                let (Some(pn), Some(user)) = (PN_BYTES.get(..pn), USER_BYTES.get(..user)) else {
                    continue;
                };
                let fields = Fields { pn, user, ..good };
                let mut frame = [0xEE; 8];
                let answer = compose(cfg, &fields, &mut frame[..length]);
                assert_eq!(answer, Err(Refusal::Length));
                assert_eq!(frame, [0xEE; 8]);
            }
        });
    }

    #[test]
    fn seven_bytes_where_eight_belong() {
        assert_eq!(read(&PLAIN, &[0; 7]), Err(Refusal::Length));
        assert!(read(&PLAIN, &[0; 8]).is_ok());
        assert_eq!(read(&PLAIN, &[0; 9]), Err(Refusal::Length));
        assert_eq!(read(&PLAIN, &[]), Err(Refusal::Length));
    }

    #[test]
    fn a_broken_rule_comes_before_a_length() {
        let cfg = Config {
            cycle: 50,
            length: 9,
            ..PLAIN
        };
        let fields = Fields {
            sni: 1,
            cbv: 2,
            pn: &[3; 20],
            user: &[4; 20],
        };
        let mut frame = [0xEE; 3];
        assert_eq!(compose(&cfg, &fields, &mut frame), Err(Refusal::Rule(5)));
        assert_eq!(frame, [0xEE; 3]);
        assert_eq!(read(&cfg, &frame), Err(Refusal::Rule(5)));
    }
}
