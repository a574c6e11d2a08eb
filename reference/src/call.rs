//! The calls on a channel as values, so that lists of them can be read from a
//! text, made at random and carried out.

use crate::channel::{Channel, Notes, Reply};

/// A call on a channel with its arguments.
#[derive(Clone, Copy, Debug, PartialEq, Eq)]
pub enum Call<'a> {
    /// The node requests the network.
    NetworkRequest,
    /// The node releases the network.
    NetworkRelease,
    /// Passive start-up.
    PassiveStartUp,
    /// The node asks for Repeat.
    RepeatMessageRequest,
    /// Sending is disabled.
    DisableCommunication,
    /// Sending is enabled.
    EnableCommunication,
    /// The driver's word on a frame, true if it went well.
    TxConfirmation(bool),
    /// The bytes of a PDU that came in.
    RxIndication(&'a [u8]),
    /// The filter may go on.
    ConfirmPnAvailability,
    /// New user data.
    SetUserData(&'a [u8]),
    /// New PN requests.
    SetPnRequests(&'a [u8]),
    /// The status is asked for.
    Status,
    /// A tick.
    MainFunction {
        /// Whether the driver would take a frame.
        taken: bool,
        /// The length of the frame buffer lent.
        frame_len: usize,
    },
}

impl Call<'_> {
    /// Carries the call out on a channel. A frame goes into `buffer`, which
    /// has at least the bytes that a tick says it lends.
    pub fn perform(&self, channel: &mut Channel, buffer: &mut [u8]) -> Reply {
        match *self {
            Call::NetworkRequest => channel.network_request(),
            Call::NetworkRelease => channel.network_release(),
            Call::PassiveStartUp => channel.passive_start_up(),
            Call::RepeatMessageRequest => channel.repeat_message_request(),
            Call::DisableCommunication => channel.disable_communication(),
            Call::EnableCommunication => channel.enable_communication(),
            Call::TxConfirmation(good) => channel.tx_confirmation(good),
            Call::RxIndication(pdu) => channel.rx_indication(pdu),
            Call::ConfirmPnAvailability => channel.confirm_pn_availability(),
            Call::SetUserData(bytes) => channel.set_user_data(bytes),
            Call::SetPnRequests(bytes) => channel.set_pn_requests(bytes),
            Call::Status => Reply {
                answer: channel.status().answer,
                notes: Notes::NONE,
                frame: false,
            },
            Call::MainFunction { taken, frame_len } => {
                channel.main_function(taken, &mut buffer[..frame_len])
            }
        }
    }
}
