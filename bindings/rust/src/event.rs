//! What a station tells.

use crate::raw;

/// Packet sizes, as powers of 2 from 4 to 12, and windows, 1 to 7, of what the called and what the calling end of a call sends.
#[repr(C)]
#[derive(Clone, Copy, Debug, Default, PartialEq, Eq)]
pub struct Sizes {
    pub size_called: u8,
    pub size_calling: u8,
    pub window_called: u8,
    pub window_calling: u8,
}

impl Sizes {
    /// What a call proposes that names none: packets of 128 octets, and windows of 2.
    pub const USUAL: Sizes = Sizes {
        size_called: 7,
        size_calling: 7,
        window_called: 2,
        window_calling: 2,
    };
}

/// The name of a stretch of a channel: the restarts done since link set-up, the clears done since the last of these, and the
/// resets done since the last of all these.
#[repr(C)]
#[derive(Clone, Copy, Debug, Default, PartialEq, Eq)]
pub struct Stretch {
    pub restarts: u64,
    pub clears: u64,
    pub resets: u64,
}

/// How long each answer may take, in milliseconds, 0 for ever, as `x25.h` has it; of a DCE `t20` to `t23` are its T10 to T13.
#[derive(Clone, Copy, Debug, Default, PartialEq, Eq)]
pub struct Times {
    pub t1: u32,
    pub t3: u32,
    pub t20: u32,
    pub t21: u32,
    pub t22: u32,
    pub t23: u32,
    pub t26: u32,
    pub t25: u32,
}

/// What is awaited on a channel.
#[derive(Clone, Copy, Debug, PartialEq, Eq)]
pub enum Awaits {
    Nothing,
    Acceptance,
    ResetDone,
    ClearDone,
    InterruptDone,
}

impl Awaits {
    pub(crate) fn of(number: u32) -> Awaits {
        match number {
            0 => Awaits::Nothing,
            1 => Awaits::Acceptance,
            2 => Awaits::ResetDone,
            3 => Awaits::ClearDone,
            _ => Awaits::InterruptDone,
        }
    }
}

/// Why the link went down.
#[derive(Clone, Copy, Debug, PartialEq, Eq)]
pub enum Down {
    Retries,
    Disc,
    Dm,
    FrmrSent,
    FrmrGot,
    Reset,
    Local,
    Counts,
}

impl Down {
    fn of(number: u8) -> Down {
        match number {
            1 => Down::Retries,
            2 => Down::Disc,
            3 => Down::Dm,
            4 => Down::FrmrSent,
            5 => Down::FrmrGot,
            6 => Down::Reset,
            7 => Down::Local,
            _ => Down::Counts,
        }
    }
}

/// How it ended that this end disconnected the link.
#[derive(Clone, Copy, Debug, PartialEq, Eq)]
pub enum Ending {
    Ua,
    /// The link was down.
    Dm,
    /// DISC wasn't answered, however often it was sent.
    GivenUp,
}

impl Ending {
    fn of(number: u8) -> Ending {
        match number {
            1 => Ending::Ua,
            2 => Ending::Dm,
            _ => Ending::GivenUp,
        }
    }
}

/// What a station tells, and what this end asked: `x25.h` says more of each.
#[derive(Clone, Debug, PartialEq, Eq)]
#[non_exhaustive]
pub enum Event {
    /// The link came up.
    LinkUp,
    /// The link went down.
    LinkDown {
        reason: Down,
    },
    /// The other end restarted, so each call ended.
    Restarted {
        cause: u8,
        diagnostic: u8,
    },
    /// This end's restart is confirmed.
    RestartDone,
    /// An error of procedure of the other end; channel 0 where it is of none.
    Fault {
        channel: u16,
        diagnostic: u8,
    },
    /// What the packet of the event before brought beside.
    Beside {
        channel: u16,
        facilities: Vec<u8>,
        user: Vec<u8>,
    },
    /// A DIAGNOSTIC came.
    Diagnostic {
        diagnostic: u8,
    },
    /// The other end calls.
    Incoming {
        channel: u16,
        stretch: Stretch,
        sizes: Sizes,
        called: String,
        calling: String,
        user: Vec<u8>,
    },
    /// The other end accepted the call.
    Connected {
        channel: u16,
        sizes: Sizes,
    },
    /// This end's call was dropped for the one that came.
    Collided {
        channel: u16,
    },
    /// The other end cleared the call.
    Cleared {
        channel: u16,
        cause: u8,
        diagnostic: u8,
    },
    /// This end's clearing is confirmed.
    ClearDone {
        channel: u16,
    },
    /// The other end reset the call.
    Reset {
        channel: u16,
        cause: u8,
        diagnostic: u8,
    },
    /// This end's reset is confirmed.
    ResetDone {
        channel: u16,
    },
    /// A message came; `d` says whether confirmation was asked of it.
    Message {
        channel: u16,
        stretch: Stretch,
        q: bool,
        d: bool,
        user: Vec<u8>,
    },
    /// An interrupt came.
    Interrupt {
        channel: u16,
        stretch: Stretch,
        user: Vec<u8>,
    },
    /// This end's interrupt is confirmed.
    InterruptDone {
        channel: u16,
    },
    /// This end asked, as below, which is the first event of that answer.
    ConnectAsked,
    DisconnectAsked,
    RestartAsked {
        cause: u8,
        diagnostic: u8,
    },
    CallAsked {
        channel: u16,
        stretch: Stretch,
        sizes: Sizes,
        called: String,
        calling: String,
        user: Vec<u8>,
    },
    AcceptAsked {
        channel: u16,
        sizes: Sizes,
    },
    ClearAsked {
        channel: u16,
        cause: u8,
        diagnostic: u8,
    },
    SendAsked {
        channel: u16,
        stretch: Stretch,
        q: bool,
        d: bool,
        user: Vec<u8>,
    },
    InterruptAsked {
        channel: u16,
        stretch: Stretch,
        user: Vec<u8>,
    },
    ResetAsked {
        channel: u16,
        cause: u8,
        diagnostic: u8,
    },
    ReadyAsked {
        channel: u16,
    },
    NotReadyAsked {
        channel: u16,
    },
    RelinkAsked,
    /// A timer passed, for which the rest of the answer was asked: its number, and its channel, 0 where it is of none.
    Timeout {
        timer: u8,
        channel: u16,
    },
    /// So many messages more of this stretch are confirmed, of those of `send_asking`, in their order.
    Confirmed {
        channel: u16,
        stretch: Stretch,
        confirmed: usize,
    },
    /// `disconnect` ended, where `wide` is set.
    Disconnected {
        ending: Ending,
    },
    /// One of a kind that this crate doesn't know.
    Other {
        kind: u16,
        channel: u16,
    },
}

impl Event {
    /// The event that an item of an answer is, with the parts that this has beside.
    pub(crate) fn of(
        item: raw::Event,
        called: String,
        calling: String,
        facilities: Vec<u8>,
        user: Vec<u8>,
    ) -> Event {
        let raw::Event {
            channel,
            q,
            d,
            cause,
            diagnostic,
            sizes,
            stretch,
            confirmed,
            ..
        } = item;
        let reason = Down::of(item.reason);
        match item.kind {
            3 => Event::LinkUp,
            4 => Event::LinkDown { reason },
            5 => Event::Restarted { cause, diagnostic },
            6 => Event::RestartDone,
            7 => Event::Fault {
                channel,
                diagnostic,
            },
            8 => Event::Beside {
                channel,
                facilities,
                user,
            },
            9 => Event::Diagnostic { diagnostic },
            10 => Event::Incoming {
                channel,
                stretch,
                sizes,
                called,
                calling,
                user,
            },
            11 => Event::Connected { channel, sizes },
            12 => Event::Collided { channel },
            13 => Event::Cleared {
                channel,
                cause,
                diagnostic,
            },
            14 => Event::ClearDone { channel },
            15 => Event::Reset {
                channel,
                cause,
                diagnostic,
            },
            16 => Event::ResetDone { channel },
            17 => Event::Message {
                channel,
                stretch,
                q,
                d,
                user,
            },
            18 => Event::Interrupt {
                channel,
                stretch,
                user,
            },
            19 => Event::InterruptDone { channel },
            20 => Event::ConnectAsked,
            21 => Event::DisconnectAsked,
            22 => Event::RestartAsked { cause, diagnostic },
            23 => Event::CallAsked {
                channel,
                stretch,
                sizes,
                called,
                calling,
                user,
            },
            24 => Event::AcceptAsked { channel, sizes },
            25 => Event::ClearAsked {
                channel,
                cause,
                diagnostic,
            },
            26 => Event::SendAsked {
                channel,
                stretch,
                q,
                d,
                user,
            },
            27 => Event::InterruptAsked {
                channel,
                stretch,
                user,
            },
            28 => Event::ResetAsked {
                channel,
                cause,
                diagnostic,
            },
            29 => Event::ReadyAsked { channel },
            30 => Event::NotReadyAsked { channel },
            31 => Event::RelinkAsked,
            32 => Event::Timeout {
                timer: item.reason,
                channel,
            },
            33 => Event::Confirmed {
                channel,
                stretch,
                confirmed,
            },
            34 => Event::Disconnected {
                ending: Ending::of(item.reason),
            },
            kind => Event::Other { kind, channel },
        }
    }
}
