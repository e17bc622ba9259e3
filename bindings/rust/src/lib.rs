//! A station of X.25, DTE or DCE (ITU-T X.25 10/96), over the library for C.
//!
//! ```
//! use x25_station::{End, Event, Settings, Station, Timer};
//!
//! let mut station = Station::new(End::Dte, Settings::default())?;
//! let answer = station.connect()?;
//! assert_eq!(answer.frames, [[0x01, 0x3f, 0xeb, 0xdf]]);
//! assert_eq!(answer.events, [Event::ConnectAsked]);
//! assert_eq!(answer.timer, Timer::Begins);
//! # Ok::<(), x25_station::Refused>(())
//! ```

mod event;
mod raw;

use std::{cell::UnsafeCell, error, fmt, mem, ptr};

pub use event::{Awaits, Down, Ending, Event, Sizes, Stretch, Times};

/// Which end a station is.
#[derive(Clone, Copy, Debug, PartialEq, Eq)]
pub enum End {
    Dte,
    Dce,
}

/// The window, 1 to 7; how often a command is sent again, 1 to 255; how many channels there are, 1 to 4,095; whether a call may have
/// 128 octets of user data in place of 16; whether calls and acceptances say packet sizes and windows, as X.25 over TCP asks for;
/// whether packets are read in all the forms that X.25 lets equipment send; and how many of the lowest channels are one-way incoming,
/// on which a DTE doesn't call, and of the highest one-way outgoing, on which a DCE doesn't. A message has at most `message` octets,
/// of which 0 stands for 65,535, and each call has memory for so many.
#[derive(Clone, Copy, Debug, PartialEq, Eq)]
pub struct Settings {
    pub k: u8,
    pub n2: u8,
    pub channels: u16,
    pub long_data: bool,
    pub say_sizes: bool,
    pub wide: bool,
    pub incoming: u16,
    pub outgoing: u16,
    pub message: u16,
}

impl Default for Settings {
    fn default() -> Settings {
        Settings {
            k: 7,
            n2: 10,
            channels: 1,
            long_data: false,
            say_sizes: false,
            wide: false,
            incoming: 0,
            outgoing: 0,
            message: 65_535,
        }
    }
}

/// What a station that is wide gives beside a call, its acceptance or its clearing; by default nothing.
///
/// ```
/// use x25_station::Given;
///
/// let reverse_charging = Given { facilities: &[0x01, 0x01], ..Given::default() };
/// let said = Given { user: b"busy", ..Given::default() };
/// # assert!(!reverse_charging.d && said.facilities.is_empty());
/// ```
#[derive(Clone, Copy, Debug, Default, PartialEq, Eq)]
pub struct Given<'a> {
    /// Whole facilities, 103 octets at most in all, but no packet sizes or windows: `Sizes` has these.
    pub facilities: &'a [u8],
    /// User data of an acceptance or a clearing, 128 octets at most; a call has its own.
    pub user: &'a [u8],
    /// The D bit of a call or an acceptance.
    pub d: bool,
}

/// What becomes of timer T1: a program drops its deadline, sets it anew, or leaves it as it is.
#[derive(Clone, Copy, Debug, PartialEq, Eq)]
pub enum Timer {
    Off,
    Begins,
    GoesOn,
}

impl Times {
    /// The times of Annex D for an end, and 3 and 60 seconds for T1 and T3.
    pub fn standard(end: End) -> Times {
        let mut times = raw::Times::default();
        unsafe { raw::x25_standard_times(end as u8, &mut times) };
        times.told()
    }
}

impl Timer {
    fn of(number: u32) -> Timer {
        match number {
            0 => Timer::Off,
            1 => Timer::Begins,
            _ => Timer::GoesOn,
        }
    }
}

/// What a call answers: frames to send, frame check sequence included, events, each in order, and what becomes of timer T1.
#[derive(Clone, Debug, PartialEq, Eq)]
pub struct Answer {
    pub frames: Vec<Vec<u8>>,
    pub events: Vec<Event>,
    pub timer: Timer,
}

impl Answer {
    /// The channel that `call` chose; none of another call's answer.
    pub fn channel(&self) -> Option<u16> {
        self.events.iter().find_map(|event| match event {
            Event::CallAsked { channel, .. } => Some(*channel),
            _ => None,
        })
    }
}

/// What frames that came at once were answered: how many were taken, what is answered to all of these, and why the next was refused,
/// where one was.
#[derive(Clone, Debug, PartialEq, Eq)]
pub struct Received {
    pub taken: usize,
    pub answer: Answer,
    pub refused: Option<Refused>,
}

/// A call was refused, by a number of `x25.h`; the station is as before.
#[derive(Clone, Copy, Debug, PartialEq, Eq)]
pub struct Refused(pub u32);

impl Refused {
    /// What the number says.
    pub fn text(self) -> String {
        let mut room = [0; 64];
        let count = unsafe { raw::x25_refusal_text(self.0, room.as_mut_ptr(), room.len()) };
        String::from_utf8_lossy(&room[..count]).into_owned()
    }
}

impl fmt::Display for Refused {
    fn fmt(&self, out: &mut fmt::Formatter<'_>) -> fmt::Result {
        write!(out, "{}: {}", self.0, self.text())
    }
}

impl error::Error for Refused {}

fn checked(number: u32) -> Result<(), Refused> {
    match number {
        0 => Ok(()),
        number => Err(Refused(number)),
    }
}

/// A station: its link and its packet layer. It has no clock, no socket and no thread.
///
/// A call has the station to itself: those that let something happen take it by `&mut`, so nothing comes into the midst of one.
/// The others only read, and call nothing of the program. It may go to another thread, and isn't shared between threads, nor by
/// a signal handler, which needs a static that is `Sync`:
///
/// ```
/// fn goes<T: Send>() {}
/// goes::<x25_station::Station>();
/// ```
///
/// ```compile_fail
/// fn is_shared<T: Sync>() {}
/// is_shared::<x25_station::Station>();
/// ```
pub struct Station {
    // A call that reads takes the station out and puts it back.
    slot: UnsafeCell<raw::Slot>,
    room: Vec<u8>,
}

// Of the handle that lies there `Send` is proved: another thread may go on with a station.
unsafe impl Send for Station {}

impl Station {
    /// A station whose link is down; 14 where a setting is out of its range, and 70 where memory is refused.
    ///
    /// # Panics
    ///
    /// Where the library that is linked is of another version than this crate.
    pub fn new(end: End, settings: Settings) -> Result<Station, Refused> {
        assert_eq!(version(), raw::VERSION, "the version of libx25.a, and that of this crate");
        let size = unsafe { raw::x25_event_size() };
        assert_eq!(size, mem::size_of::<raw::Event>(), "the size of an event of libx25.a, and that of this crate");
        let station = Station {
            slot: UnsafeCell::new(raw::Slot {
                at: ptr::null_mut(),
                is_open: false,
            }),
            room: vec![0; 1 << 18],
        };
        let settings = raw::Settings::of(settings);
        checked(unsafe { raw::x25_new(station.slot.get(), end as u8, settings) })?;
        Ok(station)
    }

    /// Begins to set the link up.
    pub fn connect(&mut self) -> Result<Answer, Refused> {
        let number = unsafe { raw::x25_connect(self.slot.get()) };
        self.answer(number)
    }

    /// Disconnects the link, for good.
    pub fn disconnect(&mut self) -> Result<Answer, Refused> {
        let number = unsafe { raw::x25_disconnect(self.slot.get()) };
        self.answer(number)
    }

    /// Polls the other end of a link that is up, whether timer T1 runs or not.
    pub fn probe(&mut self) -> Result<Answer, Refused> {
        let number = unsafe { raw::x25_probe(self.slot.get()) };
        self.answer(number)
    }

    /// Sets a link that is up up anew.
    pub fn relink(&mut self) -> Result<Answer, Refused> {
        let number = unsafe { raw::x25_relink(self.slot.get()) };
        self.answer(number)
    }

    /// Restarts the packet layer: each call ends. A DTE gives 0 as the cause, or one of 129 to 255, a DCE any but those of an error of
    /// procedure, and either any diagnostic; so it is with `clear` and `reset`.
    pub fn restart(&mut self, cause: u8, diagnostic: u8) -> Result<Answer, Refused> {
        let number = unsafe { raw::x25_restart(self.slot.get(), cause, diagnostic) };
        self.answer(number)
    }

    /// Calls the other end, from one address to another, each of at most 15 digits; the answer has the channel of the call. Without
    /// sizes it proposes packets of 128 octets and windows of 2.
    pub fn call(
        &mut self,
        called: &str,
        calling: &str,
        user: &[u8],
        sizes: Option<Sizes>,
    ) -> Result<Answer, Refused> {
        let mut channel = 0;
        let number = unsafe {
            raw::x25_call(
                self.slot.get(),
                called.as_ptr(),
                called.len(),
                calling.as_ptr(),
                calling.len(),
                user.as_ptr(),
                user.len(),
                sizes.unwrap_or_default(),
                &mut channel,
            )
        };
        self.answer(number)
    }

    /// Calls as `call` does, with what is given beside.
    pub fn call_with(
        &mut self,
        called: &str,
        calling: &str,
        user: &[u8],
        sizes: Option<Sizes>,
        given: Given<'_>,
    ) -> Result<Answer, Refused> {
        let mut channel = 0;
        let number = unsafe {
            raw::x25_call_with(
                self.slot.get(),
                called.as_ptr(),
                called.len(),
                calling.as_ptr(),
                calling.len(),
                user.as_ptr(),
                user.len(),
                sizes.unwrap_or_default(),
                raw::Given::of(given),
                &mut channel,
            )
        };
        self.answer(number)
    }

    /// Accepts the call that came on a channel, without sizes with those that it proposes.
    pub fn accept(&mut self, channel: u16, sizes: Option<Sizes>) -> Result<Answer, Refused> {
        let number =
            unsafe { raw::x25_accept(self.slot.get(), channel, sizes.unwrap_or_default()) };
        self.answer(number)
    }

    /// Accepts as `accept` does, with what is given beside.
    pub fn accept_with(
        &mut self,
        channel: u16,
        sizes: Option<Sizes>,
        given: Given<'_>,
    ) -> Result<Answer, Refused> {
        let (sizes, given) = (sizes.unwrap_or_default(), raw::Given::of(given));
        let number = unsafe { raw::x25_accept_with(self.slot.get(), channel, sizes, given) };
        self.answer(number)
    }

    /// Clears a call, whatever its state.
    pub fn clear(&mut self, channel: u16, cause: u8, diagnostic: u8) -> Result<Answer, Refused> {
        let number = unsafe { raw::x25_clear(self.slot.get(), channel, cause, diagnostic) };
        self.answer(number)
    }

    /// Clears as `clear` does, with what is given beside.
    pub fn clear_with(
        &mut self,
        channel: u16,
        cause: u8,
        diagnostic: u8,
        given: Given<'_>,
    ) -> Result<Answer, Refused> {
        let (slot, given) = (self.slot.get(), raw::Given::of(given));
        let number = unsafe { raw::x25_clear_with(slot, channel, cause, diagnostic, given) };
        self.answer(number)
    }

    /// Resets a call: messages on the way are lost.
    pub fn reset(&mut self, channel: u16, cause: u8, diagnostic: u8) -> Result<Answer, Refused> {
        let number = unsafe { raw::x25_reset(self.slot.get(), channel, cause, diagnostic) };
        self.answer(number)
    }

    /// Sends an interrupt of 1 to 32 octets.
    pub fn interrupt(&mut self, channel: u16, user: &[u8]) -> Result<Answer, Refused> {
        let number =
            unsafe { raw::x25_interrupt(self.slot.get(), channel, user.as_ptr(), user.len()) };
        self.answer(number)
    }

    /// Tells the other end that this one takes data packets.
    pub fn ready(&mut self, channel: u16) -> Result<Answer, Refused> {
        let number = unsafe { raw::x25_ready(self.slot.get(), channel) };
        self.answer(number)
    }

    /// Tells the other end that this one takes no data packets for now.
    pub fn not_ready(&mut self, channel: u16) -> Result<Answer, Refused> {
        let number = unsafe { raw::x25_not_ready(self.slot.get(), channel) };
        self.answer(number)
    }

    /// Hands down what waits in the circuits, as each call does.
    pub fn pull(&mut self) -> Result<Answer, Refused> {
        let number = unsafe { raw::x25_pull(self.slot.get()) };
        self.answer(number)
    }

    /// Timer T1 fired.
    pub fn t1(&mut self) -> Result<Answer, Refused> {
        let number = unsafe { raw::x25_t1(self.slot.get()) };
        self.answer(number)
    }

    /// The octets of a frame came, frame check sequence included.
    pub fn receive(&mut self, octets: &[u8]) -> Result<Answer, Refused> {
        let number = unsafe { raw::x25_receive(self.slot.get(), octets.as_ptr(), octets.len()) };
        self.answer(number)
    }

    /// Several frames came, one after another, each received as by `receive`, up to one that is refused.
    pub fn receive_all(&mut self, frames: &[impl AsRef<[u8]>]) -> Received {
        let octets: Vec<u8> = frames
            .iter()
            .flat_map(|frame| frame.as_ref())
            .copied()
            .collect();
        let counts: Vec<usize> = frames.iter().map(|frame| frame.as_ref().len()).collect();
        let mut taken = 0;
        let number = unsafe {
            raw::x25_receive_all(
                self.slot.get(),
                octets.as_ptr(),
                octets.len(),
                counts.as_ptr(),
                counts.len(),
                &mut taken,
            )
        };
        Received {
            taken,
            answer: self.items(),
            refused: checked(number).err(),
        }
    }

    /// Sends a message that isn't too long, with or without the qualifier.
    pub fn send(&mut self, channel: u16, q: bool, user: &[u8]) -> Result<Answer, Refused> {
        let number =
            unsafe { raw::x25_send(self.slot.get(), channel, q, user.as_ptr(), user.len()) };
        self.answer(number)
    }

    /// Sends as `send` does, and asks that its delivery be confirmed: `Event::Confirmed` tells that the other end has taken it. 34 too,
    /// where the station isn't wide.
    pub fn send_asking(&mut self, channel: u16, q: bool, user: &[u8]) -> Result<Answer, Refused> {
        let (slot, octets) = (self.slot.get(), user.as_ptr());
        let number = unsafe { raw::x25_send_asking(slot, channel, q, octets, user.len()) };
        self.answer(number)
    }

    /// Does what a text asks, as a line of a script without the name of its end: `call 123 4567 41`, `accept 1`.
    pub fn command(&mut self, text: &str) -> Result<Answer, Refused> {
        let number = unsafe { raw::x25_command(self.slot.get(), text.as_ptr(), text.len()) };
        self.answer(number)
    }

    /// Gives the station a clock with these times, in place of the one that it has.
    pub fn set_times(&mut self, times: Times) -> Result<(), Refused> {
        checked(unsafe { raw::x25_set_times(self.slot.get(), raw::Times::of(times)) })
    }

    /// The time is now, in milliseconds; the first of what is due by the clock is asked for. 34 for a time before the last one.
    pub fn time(&mut self, now: u64) -> Result<Answer, Refused> {
        let number = unsafe { raw::x25_time(self.slot.get(), now) };
        self.answer(number)
    }

    /// When something is due, where nothing happens before.
    pub fn next(&self) -> Option<u64> {
        let mut at = 0;
        unsafe { raw::x25_next(self.slot.get(), &mut at) }.then_some(at)
    }

    /// How long a program may wait until it says the time: the milliseconds until something is due, and no more than `most`.
    pub fn next_timeout(&self, now: u64, most: u64) -> u64 {
        unsafe { raw::x25_next_timeout(self.slot.get(), now, most) }
    }

    /// The events of the last answer as lines of the transcript, each with its line feed; 70 where memory is refused, and it may be
    /// asked again.
    pub fn lines(&mut self) -> Result<Vec<String>, Refused> {
        let entries = unsafe { raw::x25_entries(self.slot.get()) };
        (0..entries)
            .map(|i| {
                let (at, size) = (self.room.as_mut_ptr(), self.room.len());
                let mut count = 0;
                checked(unsafe { raw::x25_entry(self.slot.get(), i, at, size, &mut count) })?;
                Ok(String::from_utf8_lossy(&self.room[..count]).into_owned())
            })
            .collect()
    }

    /// What became of timer T1 at the last call.
    pub fn timer(&self) -> Timer {
        Timer::of(unsafe { raw::x25_timer(self.slot.get()) })
    }

    /// Whether the link is up, and all that was asked was sent and acknowledged.
    pub fn is_idle(&self) -> bool {
        unsafe { raw::x25_idle(self.slot.get()) }
    }

    /// How many messages more `send` takes on a channel: 8 less those that wait, and 0 where it is refused.
    pub fn room(&self, channel: u16) -> usize {
        unsafe { raw::x25_room(self.slot.get(), channel) }
    }

    /// How many messages of `send_asking` aren't confirmed yet on a channel.
    pub fn unconfirmed(&self, channel: u16) -> usize {
        unsafe { raw::x25_unconfirmed(self.slot.get(), channel) }
    }

    /// What this end awaits on a channel.
    pub fn awaits(&self, channel: u16) -> Awaits {
        Awaits::of(unsafe { raw::x25_awaits(self.slot.get(), channel) })
    }

    /// On how many channels a call is up, or this end awaits an answer.
    pub fn open_calls(&self) -> usize {
        unsafe { raw::x25_open_calls(self.slot.get()) }
    }

    /// Whether this end awaits that a restart be confirmed.
    pub fn is_restarting(&self) -> bool {
        unsafe { raw::x25_is_restarting(self.slot.get()) }
    }

    /// The stretch that is open on a channel, where one is.
    pub fn stretch(&self, channel: u16) -> Option<Stretch> {
        let mut name = Stretch::default();
        unsafe { raw::x25_stretch(self.slot.get(), channel, &mut name) }.then_some(name)
    }

    /// What a call answered, where it was done.
    fn answer(&mut self, number: u32) -> Result<Answer, Refused> {
        checked(number)?;
        Ok(self.items())
    }

    /// What the last call answered.
    fn items(&mut self) -> Answer {
        let (mut frames, mut events, mut timer) = (Vec::new(), Vec::new(), Timer::GoesOn);
        let (mut items, mut first) = ([raw::Event::default(); 64], 0);
        loop {
            let (at, size) = (self.room.as_mut_ptr(), self.room.len());
            let (places, most) = (items.as_mut_ptr(), items.len());
            let taken =
                unsafe { raw::x25_take_all(self.slot.get(), first, places, most, at, size) };
            if taken == 0 {
                return Answer {
                    frames,
                    events,
                    timer,
                };
            }
            let mut rest = &self.room[..];
            let mut next = |item: &raw::Event| {
                let (octets, behind) = rest.split_at(item.count);
                rest = behind;
                octets.to_vec()
            };
            let octets: Vec<Vec<u8>> = items[..taken].iter().map(&mut next).collect();
            for (i, (item, octets)) in items.into_iter().zip(octets).enumerate() {
                match item.kind {
                    raw::FRAME => frames.push(octets),
                    raw::TIMER => timer = Timer::of(item.timer),
                    _ => events.push(self.event(first + i, item, octets)),
                }
            }
            first += taken;
        }
    }

    /// The event that stands in a place of the answer.
    fn event(&mut self, i: usize, item: raw::Event, user: Vec<u8>) -> Event {
        let called = self.part(i, raw::x25_called);
        let calling = self.part(i, raw::x25_calling);
        let facilities = self.part(i, raw::x25_facilities);
        let text = |octets: Vec<u8>| String::from_utf8_lossy(&octets).into_owned();
        Event::of(item, text(called), text(calling), facilities, user)
    }

    fn part(
        &mut self,
        i: usize,
        read: unsafe extern "C" fn(*const raw::Slot, usize, *mut u8, usize) -> usize,
    ) -> Vec<u8> {
        let count = unsafe { read(self.slot.get(), i, self.room.as_mut_ptr(), self.room.len()) };
        self.room[..count].to_vec()
    }
}

impl Drop for Station {
    fn drop(&mut self) {
        unsafe { raw::x25_free(self.slot.get()) }
    }
}

/// The version of the library: 10,000 times its first number, 100 times the second, and the third.
pub fn version() -> u32 {
    unsafe { raw::x25_version() }
}

#[cfg(test)]
mod tests {
    use super::*;

    /// Delivers frames from one station to the other and back, until there is none; answers what is told meanwhile.
    fn talk<'a>(
        mut answer: Answer,
        mut near: &'a mut Station,
        mut far: &'a mut Station,
    ) -> Vec<Event> {
        let mut told = answer.events;
        while !answer.frames.is_empty() {
            let come = far.receive_all(&answer.frames);
            assert_eq!((come.taken, come.refused), (answer.frames.len(), None));
            answer = come.answer;
            told.append(&mut answer.events);
            (near, far) = (far, near);
        }
        told
    }

    #[test]
    fn a_message_each_way() {
        let mut dte = Station::new(End::Dte, Settings::default()).unwrap();
        let mut dce = Station::new(End::Dce, Settings::default()).unwrap();
        let answer = dte.connect().unwrap();
        assert_eq!((answer.channel(), dte.open_calls()), (None, 0));
        talk(answer, &mut dte, &mut dce);
        let answer = dte.call("123", "4567", b"A", None).unwrap();
        let channel = answer.channel().unwrap();
        let stretch = Stretch {
            restarts: 1,
            clears: 0,
            resets: 0,
        };
        let told = talk(answer, &mut dte, &mut dce);
        let incoming = Event::Incoming {
            channel,
            stretch,
            sizes: Sizes::USUAL,
            called: "123".into(),
            calling: "4567".into(),
            user: b"A".to_vec(),
        };
        assert_eq!(told[1], incoming);
        assert_eq!((dte.open_calls(), dce.open_calls()), (1, 0));
        let answer = dce.accept(channel, None).unwrap();
        talk(answer, &mut dce, &mut dte);
        assert_eq!((dte.open_calls(), dce.open_calls()), (1, 1));
        let answer = dte.send(channel, true, b"hi").unwrap();
        assert_eq!(
            dte.lines().unwrap(),
            ["dte send ch=1 at 1.0.0 q=1 data=6869\n"]
        );
        let (q, d, user) = (true, false, b"hi".to_vec());
        let message = Event::Message {
            channel,
            stretch,
            q,
            d,
            user: user.clone(),
        };
        let asked = Event::SendAsked {
            channel,
            stretch,
            q,
            d,
            user,
        };
        assert_eq!(talk(answer, &mut dte, &mut dce), [asked, message]);
        assert!(dte.is_idle() && dce.is_idle());
        assert_eq!(dte.timer(), Timer::Off);
        assert_eq!(dce.stretch(channel), Some(stretch));
        assert_eq!(dce.stretch(2), None);
        let answer = dce.interrupt(channel, &[1]).unwrap();
        assert!(talk(answer, &mut dce, &mut dte).contains(&Event::InterruptDone { channel }));
        let answer = dce.not_ready(channel).unwrap();
        talk(answer, &mut dce, &mut dte);
        let answer = dce.ready(channel).unwrap();
        talk(answer, &mut dce, &mut dte);
        let answer = dte.reset(channel, 0, 5).unwrap();
        assert!(talk(answer, &mut dte, &mut dce).contains(&Event::ResetDone { channel }));
        assert_eq!(dte.clear(channel, 9, 0).unwrap_err().0, 34);
        let (cause, diagnostic) = (200, 5);
        let answer = dte.clear(channel, cause, diagnostic).unwrap();
        let cleared = Event::Cleared {
            channel,
            cause,
            diagnostic,
        };
        let told = talk(answer, &mut dte, &mut dce);
        assert!(told.contains(&cleared) && told.contains(&Event::ClearDone { channel }));
        let answer = dce.restart(3, 0).unwrap();
        assert!(talk(answer, &mut dce, &mut dte).contains(&Event::RestartDone));
        let answer = dte.pull().unwrap();
        talk(answer, &mut dte, &mut dce);
        let answer = dte.disconnect().unwrap();
        let reason = Down::Disc;
        assert!(talk(answer, &mut dte, &mut dce).contains(&Event::LinkDown { reason }));
        assert_eq!(version(), raw::VERSION);
    }

    #[test]
    fn a_disconnect_has_an_end() {
        let wide = Settings {
            wide: true,
            ..Settings::default()
        };
        let mut dte = Station::new(End::Dte, wide).unwrap();
        let mut dce = Station::new(End::Dce, Settings::default()).unwrap();
        let answer = dte.connect().unwrap();
        talk(answer, &mut dte, &mut dce);
        let answer = dte.disconnect().unwrap();
        let ending = Ending::Ua;
        assert!(talk(answer, &mut dte, &mut dce).contains(&Event::Disconnected { ending }));
        assert_eq!(dte.timer(), Timer::Off);
    }

    #[test]
    fn an_event_of_a_kind_that_is_not_known() {
        let (kind, channel) = (999, 5);
        let item = raw::Event {
            kind,
            channel,
            ..raw::Event::default()
        };
        let nothing = String::new();
        let event = Event::of(item, nothing.clone(), nothing, vec![], vec![]);
        assert_eq!(event, Event::Other { kind, channel });
    }

    #[test]
    fn a_clock_asks_for_what_is_due() {
        let mut dte = Station::new(End::Dte, Settings::default()).unwrap();
        let mut dce = Station::new(End::Dce, Settings::default()).unwrap();
        dte.set_times(Times::standard(End::Dte)).unwrap();
        assert_eq!(dte.next(), None);
        dte.time(1_000).unwrap();
        let answer = dte.connect().unwrap();
        assert_eq!(dte.next(), Some(4_000));
        let waits = [(1_500, 9_000), (1_500, 100), (9_000, 100)];
        assert_eq!(waits.map(|(now, most)| dte.next_timeout(now, most)), [2_500, 100, 0]);
        talk(answer, &mut dte, &mut dce);
        let answer = dte.call("1", "2", b"", None).unwrap();
        let channel = answer.channel().unwrap();
        talk(answer, &mut dte, &mut dce);
        assert_eq!(dte.awaits(channel), Awaits::Acceptance);
        assert!(!dte.is_restarting());
        assert_eq!((Times::standard(End::Dte).t26, Times::standard(End::Dce).t26), (180_000, 0));
        let timed = Times { t3: 0, ..Times::standard(End::Dte) };
        dte.set_times(timed).unwrap();
        assert_eq!(dte.next(), Some(201_000));
        assert!(dte.time(200_999).unwrap().events.is_empty());
        let answer = dte.time(201_000).unwrap();
        let passed = Event::Timeout { timer: 21, channel };
        let (cause, diagnostic) = (0, 0);
        let asked = Event::ClearAsked {
            channel,
            cause,
            diagnostic,
        };
        assert_eq!(answer.events, [passed, asked]);
        assert_eq!(dte.time(0), Err(Refused(34)));
    }

    #[test]
    fn refusals() {
        let settings = Settings {
            k: 8,
            ..Settings::default()
        };
        assert_eq!(Station::new(End::Dte, settings).err(), Some(Refused(14)));
        let mut dte = Station::new(End::Dte, Settings::default()).unwrap();
        assert_eq!(dte.t1(), Err(Refused(11)));
        assert_eq!(dte.command("sing"), Err(Refused(60)));
        assert_eq!(dte.send(1, false, b""), Err(Refused(9)));
        assert_eq!(dte.call("1", "2", b"", None), Err(Refused(9)));
        assert_eq!(Refused(9).to_string(), "9: the link isn't up");
        assert_eq!(Refused(8).text(), "");
    }

    #[test]
    fn what_is_given() {
        let settings = Settings {
            wide: true,
            ..Settings::default()
        };
        let mut dte = Station::new(End::Dte, settings).unwrap();
        let mut dce = Station::new(End::Dce, settings).unwrap();
        let answer = dte.connect().unwrap();
        talk(answer, &mut dte, &mut dce);
        let charged = Given {
            facilities: &[1, 1],
            ..Given::default()
        };
        let said = Given {
            user: b"hi",
            ..Given::default()
        };
        assert_eq!(dte.call_with("1", "2", b"A", None, said), Err(Refused(34)));
        let given = Given { d: true, ..charged };
        let answer = dte.call_with("1", "2", b"A", None, given).unwrap();
        let channel = answer.channel().unwrap();
        let packet = [0x50, 1, 0x0b, 0x11, 0x12, 2, 1, 1, 0x41];
        assert_eq!(answer.frames[0][2..11], packet);
        let beside = |facilities: &[u8], user: &[u8]| Event::Beside {
            channel,
            facilities: facilities.to_vec(),
            user: user.to_vec(),
        };
        let told = talk(answer, &mut dte, &mut dce);
        assert_eq!(told[2..], [beside(&[1, 1], b"")]);
        let answer = dce.accept_with(channel, None, said).unwrap();
        let told = talk(answer, &mut dce, &mut dte);
        assert_eq!(told[2..], [beside(b"", b"hi")]);
        let answer = dte.clear_with(channel, 0, 0, said).unwrap();
        let told = talk(answer, &mut dte, &mut dce);
        assert_eq!(told[2], beside(b"", b"hi"));
        let settings = Settings::default();
        let mut narrow = Station::new(End::Dte, settings).unwrap();
        let answer = narrow.connect().unwrap();
        let mut dce = Station::new(End::Dce, settings).unwrap();
        talk(answer, &mut narrow, &mut dce);
        let refused = narrow.call_with("1", "2", b"A", None, charged);
        assert_eq!(refused, Err(Refused(34)));
        let nothing = Given::default();
        assert!(narrow.call_with("1", "2", b"A", None, nothing).is_ok());
    }

    #[test]
    fn a_message_is_confirmed() {
        let settings = Settings {
            wide: true,
            ..Settings::default()
        };
        let mut dte = Station::new(End::Dte, settings).unwrap();
        let mut dce = Station::new(End::Dce, settings).unwrap();
        let answer = dte.connect().unwrap();
        talk(answer, &mut dte, &mut dce);
        let answer = dte.call("1", "2", b"", None).unwrap();
        let channel = answer.channel().unwrap();
        talk(answer, &mut dte, &mut dce);
        let answer = dce.accept(channel, None).unwrap();
        talk(answer, &mut dce, &mut dte);
        let answer = dte.send_asking(channel, false, b"hi").unwrap();
        assert_eq!(answer.frames[0][2..7], [0x50, 1, 0, b'h', b'i']);
        assert_eq!(dte.unconfirmed(channel), 1);
        let stretch = dte.stretch(channel).unwrap();
        let (q, d, user) = (false, true, b"hi".to_vec());
        let message = Event::Message {
            channel,
            stretch,
            q,
            d,
            user,
        };
        let confirmed = Event::Confirmed {
            channel,
            stretch,
            confirmed: 1,
        };
        let told = talk(answer, &mut dte, &mut dce);
        assert_eq!(told[1..], [message, confirmed]);
        assert_eq!(dte.unconfirmed(channel), 0);
        let mut strict = Station::new(End::Dte, Settings::default()).unwrap();
        assert_eq!(strict.send_asking(1, false, b"hi"), Err(Refused(9)));
    }

    #[test]
    fn a_station_goes_to_another_thread() {
        let mut dte = Station::new(End::Dte, Settings::default()).unwrap();
        let (mut dte, answer) = std::thread::spawn(move || {
            let answer = dte.connect();
            (dte, answer)
        })
        .join()
        .unwrap();
        assert_eq!(answer.unwrap().frames.len(), 1);
        assert_eq!(dte.connect(), Err(Refused(12)));
    }
}
