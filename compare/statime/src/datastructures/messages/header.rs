//! Stand-in written for these comparisons: statime's own file was not supplied.
//! The header, laid out as document 01 and IEEE 1588-2019, 13.3, have it. Flag bits that no
//! supplied file names are kept in `other_flags`, so that copying a header copies them.

use core::num::Wrapping;

use super::MessageType;
use crate::datastructures::{
    common::{PortIdentity, TimeInterval},
    WireFormatError,
};

#[derive(Debug, Default, Clone, Copy, PartialEq, Eq)]
pub struct SdoId(pub u16);

#[derive(Debug, Default, Clone, Copy, PartialEq, Eq)]
pub struct Header {
    pub sdo_id: SdoId,
    pub minor_version: u8,
    pub domain_number: u8,
    pub two_step_flag: bool,
    pub leap61: bool,
    pub leap59: bool,
    pub current_utc_offset_valid: bool,
    pub ptp_timescale: bool,
    pub time_tracable: bool,
    pub frequency_tracable: bool,
    pub other_flags: u16,
    pub correction_field: TimeInterval,
    pub source_port_identity: PortIdentity,
    pub sequence_id: u16,
    pub log_message_interval: i8,
}

pub(crate) struct DeserializedHeader {
    pub(crate) header: Header,
    pub(crate) message_type: MessageType,
    pub(crate) message_length: u16,
}

const TWO_STEP: u16 = 0x0200;
const NAMED_FLAGS: u16 = TWO_STEP | 0x3f;

impl Header {
    /// All else is zero, the log interval too: an inference, see the README.
    pub(crate) fn new(minor_version: u8) -> Self {
        Header {
            minor_version,
            ..Header::default()
        }
    }

    pub(crate) fn wire_size(&self) -> usize {
        34
    }

    fn flags(&self) -> u16 {
        let bit = |set: bool, bit: u16| if set { bit } else { 0 };
        self.other_flags
            | bit(self.two_step_flag, TWO_STEP)
            | bit(self.leap61, 0x01)
            | bit(self.leap59, 0x02)
            | bit(self.current_utc_offset_valid, 0x04)
            | bit(self.ptp_timescale, 0x08)
            | bit(self.time_tracable, 0x10)
            | bit(self.frequency_tracable, 0x20)
    }

    pub(crate) fn serialize_header(
        &self,
        content_type: MessageType,
        content_length: usize,
        b: &mut [u8],
    ) -> Result<(), WireFormatError> {
        b[0] = ((self.sdo_id.0 >> 8) as u8) << 4 | content_type as u8;
        b[1] = self.minor_version << 4 | 2;
        b[2..4].copy_from_slice(&((content_length + 34) as u16).to_be_bytes());
        b[4] = self.domain_number;
        b[5] = self.sdo_id.0 as u8;
        b[6..8].copy_from_slice(&self.flags().to_be_bytes());
        b[8..16].copy_from_slice(&self.correction_field.0 .0.to_be_bytes());
        b[16..20].fill(0);
        b[20..30].copy_from_slice(&self.source_port_identity.to_bytes());
        b[30..32].copy_from_slice(&self.sequence_id.to_be_bytes());
        b[32] = super::control_field::control(content_type);
        b[33] = self.log_message_interval as u8;
        Ok(())
    }

    pub(crate) fn deserialize_header(b: &[u8]) -> Result<DeserializedHeader, WireFormatError> {
        let b = b.get(..34).ok_or(WireFormatError::BufferTooShort)?;
        let flags = u16::from_be_bytes([b[6], b[7]]);
        Ok(DeserializedHeader {
            header: Header {
                sdo_id: SdoId(u16::from(b[0] >> 4) << 8 | u16::from(b[5])),
                minor_version: b[1] >> 4,
                domain_number: b[4],
                two_step_flag: flags & TWO_STEP != 0,
                leap61: flags & 0x01 != 0,
                leap59: flags & 0x02 != 0,
                current_utc_offset_valid: flags & 0x04 != 0,
                ptp_timescale: flags & 0x08 != 0,
                time_tracable: flags & 0x10 != 0,
                frequency_tracable: flags & 0x20 != 0,
                other_flags: flags & !NAMED_FLAGS,
                correction_field: TimeInterval(Wrapping(i64::from_be_bytes(
                    b[8..16].try_into().unwrap(),
                ))),
                source_port_identity: PortIdentity::from_bytes(b[20..30].try_into().unwrap()),
                sequence_id: u16::from_be_bytes([b[30], b[31]]),
                log_message_interval: b[33] as i8,
            },
            message_type: MessageType::try_from(b[0] & 0xf)?,
            message_length: u16::from_be_bytes([b[2], b[3]]),
        })
    }
}
