//! A daemon that carries local connections as calls of X.25: examples/c/tunnel.c in Rust, and either may be at the other end.
//!
//!     cargo run -- dte 7001 7002 listen 8001 &     each client of TCP port 8001 becomes a call
//!     cargo run -- dce 7002 7001 connect 8002 &    each call that comes becomes a connection to the server of TCP port 8002
use std::io::{ErrorKind, Read, Result, Write};
use std::net::{Shutdown, SocketAddr, TcpListener, TcpStream, UdpSocket};
use std::os::fd::AsRawFd;
use std::sync::atomic::{AtomicBool, Ordering};
use std::time::{Duration, Instant};
use x25_station::{Answer, End, Event, Refused, Settings, Sizes, Station, Times};

const CHANNELS: u16 = 16;
const PIECE: u16 = 4096;
const ROOM: usize = 65_536;
const MOST_WAIT: u64 = 1000;
const TIMES: Times = Times { t1: 200, t3: 1000, t20: 180_000, t21: 200_000, t22: 180_000, t23: 180_000, t26: 180_000, t25: 0 };
const KILOBYTES: Sizes = Sizes { size_called: 10, size_calling: 10, window_called: 7, window_calling: 7 };

// What the standard library doesn't have, with the numbers of Linux: POLLIN 1, POLLOUT 4, SIGTERM 15, SOL_SOCKET 1, SO_LINGER 13.
#[repr(C)]
struct PollFd(i32, i16, i16);
extern "C" {
    fn poll(files: *mut PollFd, count: std::ffi::c_ulong, milliseconds: i32) -> i32;
    fn signal(number: i32, handler: extern "C" fn(i32)) -> usize;
    fn setsockopt(file: i32, level: i32, name: i32, value: *const [i32; 2], size: u32) -> i32;
}

static ENDS: AtomicBool = AtomicBool::new(false);
extern "C" fn end(_: i32) {
    ENDS.store(true, Ordering::Relaxed);
}

/// The end of a connection is an error to the one at its other end, as that of this program would be, until it is whole.
fn opened(connection: TcpStream, is_whole: bool) -> TcpStream {
    unsafe { setsockopt(connection.as_raw_fd(), 1, 13, &[i32::from(!is_whole), 0], 8) };
    connection
}

/// A station and its line, and what it told and nobody noted yet.
struct Port { station: Station, line: UdpSocket, told: Vec<Event> }
impl Port {
    /// Whether a call did what it was asked. Then its frames are sent, and its events kept.
    fn did(&mut self, ask: impl FnOnce(&mut Station) -> std::result::Result<Answer, Refused>) -> bool {
        let Ok(answer) = ask(&mut self.station) else { return false };
        // A datagram that isn't taken is a frame that is lost.
        answer.frames.iter().for_each(|octets| drop(self.line.send(octets)));
        self.told.extend(answer.events);
        true
    }
}

/// Cut: octets are missing, so the call is to be cleared.
#[derive(Default, PartialEq)]
enum State { #[default] Free, Calling, Came, Up, Cut }

/// The connection of a channel: what was read of it and is to be sent, and what came and is to be written to it. E, qualified, says that no
/// more messages come, K that all up to E came.
#[derive(Default)]
struct Circuit {
    state: State,
    connection: Option<TcpStream>,
    read: Vec<u8>,
    came: Vec<u8>,
    has_ended: bool, told_end: bool, end_came: bool, told_came: bool, all_came: bool, is_slow: bool,
}

impl Circuit {
    fn leave(&mut self, state: State, is_whole: bool) {
        let left = std::mem::replace(self, Circuit { state, ..Circuit::default() });
        drop(left.connection.map(|connection| opened(connection, is_whole)));
    }

    fn end(&mut self, says_all_came: bool) {
        self.leave(State::Free, self.told_came && (self.all_came || says_all_came));
    }

    fn reads(&self) -> bool {
        self.state == State::Up && self.read.is_empty() && !self.has_ended
    }

    /// What the connection answers, where it does. Where it has failed the circuit is cut.
    fn moved(&mut self, act: impl FnOnce(&mut TcpStream) -> Result<usize>) -> Option<usize> {
        let done = act(self.connection.as_mut()?);
        if done.as_ref().is_err_and(|error| error.kind() != ErrorKind::WouldBlock) {
            self.leave(State::Cut, false);
        }
        done.ok()
    }

    /// Goes on as far as the station and the connection take it: what is refused is tried again next time.
    fn go_on(&mut self, port: &mut Port, channel: u16, place: SocketAddr, listens: bool) {
        if self.state == State::Came && port.did(|station| station.accept(channel, Some(KILOBYTES))) {
            let made = TcpStream::connect_timeout(&place, Duration::from_millis(100)).map(|it| opened(it, false));
            self.connection = made.and_then(|it| it.set_nonblocking(true).map(|_| it)).ok();
            self.state = if self.connection.is_some() { State::Up } else { State::Cut };
        }
        if !self.came.is_empty() {
            let came = std::mem::take(&mut self.came);
            let gone = self.moved(|connection| connection.write(&came)).unwrap_or(0);
            self.came = if self.state == State::Up { came[gone..].to_vec() } else { Vec::new() };
        }
        if self.reads() {
            let mut piece = [0; PIECE as usize];
            let count = self.moved(|connection| connection.read(&mut piece));
            (self.read, self.has_ended) = (piece[..count.unwrap_or(0)].to_vec(), count == Some(0));
        }
        if self.state == State::Cut {
            port.did(|station| station.clear(channel, 0, 1));
        }
        if !self.read.is_empty() && port.did(|station| station.send(channel, false, &self.read)) {
            self.read.clear();
        }
        if self.has_ended && self.read.is_empty() && !self.told_end {
            self.told_end = port.did(|station| station.send(channel, true, b"E"));
        }
        if self.is_slow != (self.came.len() > ROOM / 2) {
            self.is_slow ^= port.did(|station| if self.is_slow { station.ready(channel) } else { station.not_ready(channel) });
        }
        if self.end_came && self.came.is_empty() && !self.told_came {
            let _ = self.connection.as_ref().map(|connection| connection.shutdown(Shutdown::Write));
            self.told_came = port.did(|station| station.send(channel, true, b"K"));
        }
        if listens && self.told_came && self.all_came {
            port.did(|station| station.clear(channel, 0, 0)); // refused where it is asked already
        }
    }

    fn take(&mut self, q: bool, user: &[u8]) {
        match (q, user) {
            (true, b"E") => self.end_came = true,
            (true, _) => self.all_came = true,
            _ if self.came.len() + user.len() > ROOM => self.leave(State::Cut, false), // the other end doesn't heed `not_ready`
            _ => self.came.extend(user),
        }
    }
}

/// Notes what happened.
fn note(event: Event, circuits: &mut [Circuit], listens: bool) {
    let at = usize::from;
    match event {
        Event::LinkDown { .. } | Event::Restarted { .. } | Event::RestartAsked { .. } => circuits.iter_mut().for_each(|it| it.leave(State::Free, false)),
        Event::Incoming { channel, .. } => circuits[at(channel)].leave(if listens { State::Cut } else { State::Came }, false),
        Event::Connected { channel, .. } => circuits[at(channel)].state = State::Up,
        Event::Reset { channel, .. } | Event::ResetDone { channel } | Event::Fault { channel, .. } => circuits[at(channel)].leave(State::Cut, false),
        Event::Cleared { channel, cause: 0, diagnostic: 0 } => circuits[at(channel)].end(true),
        Event::Cleared { channel, .. } | Event::Collided { channel } | Event::ClearDone { channel } => circuits[at(channel)].end(false),
        Event::Message { channel, q, user, .. } if circuits[at(channel)].state == State::Up => circuits[at(channel)].take(q, &user),
        _ => (),
    }
}

fn main() -> Result<()> {
    let words: Vec<String> = std::env::args().skip(1).collect();
    let [end_word, near, far, manner, place] = words.as_slice() else { panic!("tunnel dte|dce NEAR-PORT FAR-PORT listen|connect PORT") };
    let (is_dte, listens) = (end_word == "dte", manner == "listen");
    let local = |port: &String| SocketAddr::from(([127, 0, 0, 1], port.parse().expect("a port is a number")));
    let settings = Settings { n2: 20, channels: CHANNELS, wide: true, message: PIECE, ..Settings::default() };
    let mut station = Station::new(if is_dte { End::Dte } else { End::Dce }, settings).expect("no memory");
    station.set_times(TIMES).expect("no memory");
    let line = UdpSocket::bind(local(near))?;
    line.connect(local(far)).and_then(|_| line.set_nonblocking(true))?;
    let listener = if listens { Some(TcpListener::bind(local(place))?) } else { None };
    listener.iter().try_for_each(|it| it.set_nonblocking(true))?;
    unsafe { signal(15, end) };
    let (mut port, begun) = (Port { station, line, told: Vec::new() }, Instant::now());
    let now = || begun.elapsed().as_millis() as u64;
    let mut circuits: Vec<Circuit> = (0..=CHANNELS).map(|_| Circuit::default()).collect();
    let (mut waiting, mut room) = (None, [0; PIECE as usize + 64]);
    loop {
        let told = std::mem::take(&mut port.told);
        let has_ended = told.iter().any(|event| matches!(event, Event::Disconnected { .. }));
        told.into_iter().for_each(|event| note(event, &mut circuits, listens));
        if has_ended {
            return Ok(());
        }
        if ENDS.load(Ordering::Relaxed) {
            port.did(Station::disconnect); // refused where it is asked already
        } else if is_dte {
            port.did(Station::connect); // refused where it is up, or being set up
        }
        if let Some(answer) = waiting.as_ref().and_then(|_| port.station.call("1", "2", b"", Some(KILOBYTES)).ok()) {
            let channel = answer.channel().map_or(0, usize::from);
            port.did(|_| Ok(answer));
            circuits[channel] = Circuit { state: State::Calling, connection: waiting.take(), ..Circuit::default() };
        }
        let accepts = listener.as_ref().filter(|_| waiting.is_none()).map_or(-1, TcpListener::as_raw_fd);
        let mut files = vec![PollFd(port.line.as_raw_fd(), 1, 0), PollFd(accepts, 1, 0)];
        for (channel, circuit) in (0..).zip(&mut circuits) {
            circuit.go_on(&mut port, channel, local(place), listens);
            let events = i16::from(circuit.reads()) | 4 * i16::from(!circuit.came.is_empty());
            files.extend(circuit.connection.iter().filter(|_| events != 0).map(|it| PollFd(it.as_raw_fd(), events, 0)));
        }
        let most = port.station.next_timeout(now(), MOST_WAIT) as i32;
        unsafe { poll(files.as_mut_ptr(), files.len() as _, most) };
        port.did(|station| station.time(now()));
        if let Ok(count) = port.line.recv(&mut room) {
            port.did(|station| station.receive(&room[..count]));
        }
        if files[1].2 != 0 {
            let client = listener.as_ref().and_then(|it| it.accept().ok()).map(|(it, _)| opened(it, false));
            waiting = client.filter(|it| it.set_nonblocking(true).is_ok());
        }
    }
}
