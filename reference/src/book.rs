//! The book of keep-awakes: which state the channel has to be in, worked out
//! from the configuration and the calls alone, without a look at the channel.
//! Of the channel module it uses the names of the states, nothing else.

use crate::answer::{DONE, PASSIVE, PN_OFF, WRONG_LENGTH, WRONG_STATE};
use crate::channel::State;
use crate::config::{checked_times, Config};
use crate::filter::pn_filter;
use crate::pdu::{read_fields, REPEAT_BIT};

pub use crate::call::Call;

/// The book.
#[derive(Clone, Copy, Debug, PartialEq, Eq)]
pub struct Book {
    config: Config,
    timeout: u64,
    wait: u64,
    repeat: u64,
    /// Whether the node requests the network.
    pub requested: bool,
    /// Whether sending is enabled.
    pub sending: bool,
    /// Whether the PN filter is on.
    pub filter: bool,
    /// Ticks since the last keep-awake, if there was one.
    pub k: Option<u64>,
    /// Repeat ticks left.
    pub q: u64,
}

impl Book {
    /// The book of a freshly initialised channel, or the first broken rule of
    /// the configuration.
    pub fn new(config: &Config) -> Result<Book, u8> {
        let times = checked_times(config)?;
        Ok(Book {
            config: *config,
            timeout: times.timeout,
            wait: times.wait,
            repeat: times.repeat,
            requested: false,
            sending: true,
            filter: false,
            k: None,
            q: 0,
        })
    }

    /// The state that the channel has to be in.
    pub fn shown(&self) -> State {
        let Some(k) = self.k else {
            return State::BusSleep;
        };
        if k < self.timeout || !self.sending {
            if self.q > 0 {
                State::RepeatMessage
            } else if self.requested {
                State::NormalOperation
            } else {
                State::ReadySleep
            }
        } else if k < self.timeout + self.wait {
            State::PrepareBusSleep
        } else {
            State::BusSleep
        }
    }

    /// The answer to a call in the state shown, by the paper's table. The book
    /// knows of no channel that is not sound.
    pub fn answer(&self, call: &Call<'_>) -> u8 {
        let cfg = &self.config;
        let shown = self.shown();
        let for_active = matches!(
            call,
            Call::NetworkRequest
                | Call::NetworkRelease
                | Call::RepeatMessageRequest
                | Call::DisableCommunication
                | Call::EnableCommunication
                | Call::TxConfirmation(_)
                | Call::SetUserData(_)
                | Call::SetPnRequests(_)
        );
        let for_pn = matches!(call, Call::ConfirmPnAvailability | Call::SetPnRequests(_));
        let wrong_state = match call {
            Call::PassiveStartUp => shown.in_network_mode(),
            Call::RepeatMessageRequest => {
                !matches!(shown, State::NormalOperation | State::ReadySleep)
            }
            Call::DisableCommunication | Call::EnableCommunication => !shown.in_network_mode(),
            _ => false,
        };
        let wrong_length = match *call {
            Call::RxIndication(pdu) => pdu.len() != cfg.pdu_len(),
            Call::SetUserData(bytes) => bytes.len() != cfg.user_range().len(),
            Call::SetPnRequests(bytes) => bytes.len() != cfg.pn_range().len(),
            Call::MainFunction { frame_len, .. } => frame_len < cfg.pdu_len(),
            _ => false,
        };
        if for_active && cfg.passive {
            PASSIVE
        } else if for_pn && !cfg.pn_on {
            PN_OFF
        } else if wrong_state {
            WRONG_STATE
        } else if wrong_length {
            WRONG_LENGTH
        } else {
            DONE
        }
    }

    /// Enters a call. True if it is a tick in which Bus-Sleep is due: the one
    /// that completes T + W ticks since the last keep-awake, sending enabled.
    pub fn step(&mut self, call: &Call<'_>) -> bool {
        if self.answer(call) != DONE {
            return false;
        }
        let shown = self.shown();
        let awake = shown.in_network_mode();
        match *call {
            Call::NetworkRequest => {
                self.requested = true;
                if !awake {
                    self.wake();
                }
            }
            Call::NetworkRelease => self.requested = false,
            Call::PassiveStartUp => self.wake(),
            Call::RepeatMessageRequest => self.q = self.repeat,
            Call::DisableCommunication => self.sending = false,
            Call::EnableCommunication => {
                if !self.sending {
                    self.sending = true;
                    self.k = Some(0);
                }
            }
            Call::TxConfirmation(good) => {
                if good && awake && self.sending {
                    self.k = Some(0);
                }
            }
            Call::RxIndication(pdu) => self.hear(shown, pdu),
            Call::ConfirmPnAvailability => self.filter = true,
            Call::SetUserData(_) | Call::SetPnRequests(_) | Call::Status => {}
            Call::MainFunction { .. } => return self.tick(shown),
        }
        false
    }

    /// A keep-awake outside Network Mode.
    fn wake(&mut self) {
        self.k = Some(0);
        self.q = self.repeat;
    }

    fn hear(&mut self, shown: State, pdu: &[u8]) {
        let cfg = &self.config;
        let fields = read_fields(cfg, pdu);
        if self.filter {
            // PN is on, so that the mask is as long as the PN bytes.
            let kept = pn_filter(cfg.all_keep_awake, fields.cbv, fields.pn, cfg.mask_bytes());
            if kept != Ok(true) {
                return;
            }
        }
        let repeat_asked = fields.cbv & REPEAT_BIT != 0;
        match shown {
            State::BusSleep => {}
            State::PrepareBusSleep => self.wake(),
            State::RepeatMessage | State::NormalOperation | State::ReadySleep => {
                if self.sending {
                    self.k = Some(0);
                }
                if repeat_asked && shown != State::RepeatMessage {
                    self.q = self.repeat;
                }
            }
        }
    }

    fn tick(&mut self, began_in: State) -> bool {
        self.k = self.k.map(|k| k + 1);
        let due = self.sending && self.k == Some(self.timeout + self.wait);
        let restarts = matches!(began_in, State::RepeatMessage | State::NormalOperation);
        if restarts && self.sending && self.k == Some(self.timeout) {
            self.k = Some(0);
        }
        self.q = self.q.saturating_sub(1);
        due
    }
}
