//! Stand-in written for these comparisons: statime's own file was not supplied.
use super::MessageType;

/// Byte 32, by document 01's table.
pub(super) fn control(message_type: MessageType) -> u8 {
    match message_type {
        MessageType::Sync => 0,
        MessageType::DelayReq => 1,
        MessageType::FollowUp => 2,
        MessageType::DelayResp => 3,
        _ => 5,
    }
}
