//! What `x25.h` declares.

use crate::event::{Sizes, Stretch};
use std::ffi::c_void;

/// X25_VERSION of the header that this was written by.
pub const VERSION: u32 = 100;

pub const FRAME: u16 = 1;
pub const TIMER: u16 = 2;

/// An x25_station.
#[repr(C)]
pub struct Slot {
    pub at: *mut c_void,
    pub is_open: bool,
}

#[repr(C)]
#[derive(Clone, Copy)]
pub struct Settings {
    k: u8,
    n2: u8,
    channels: u16,
    long_data: bool,
    say_sizes: bool,
    wide: bool,
    later: u8,
    incoming: u16,
    outgoing: u16,
    message: u16,
    more: u16,
}

impl Settings {
    pub fn of(settings: crate::Settings) -> Settings {
        Settings {
            k: settings.k,
            n2: settings.n2,
            channels: settings.channels,
            long_data: settings.long_data,
            say_sizes: settings.say_sizes,
            wide: settings.wide,
            later: 0,
            incoming: settings.incoming,
            outgoing: settings.outgoing,
            message: settings.message,
            more: 0,
        }
    }
}

#[repr(C)]
pub struct Given {
    facilities: *const u8,
    facilities_count: usize,
    user: *const u8,
    user_count: usize,
    d: bool,
    later: u64,
    more: u64,
}

impl Given {
    /// It is good for one call, in which the octets stay where they are.
    pub fn of(given: crate::Given) -> Given {
        Given {
            facilities: given.facilities.as_ptr(),
            facilities_count: given.facilities.len(),
            user: given.user.as_ptr(),
            user_count: given.user.len(),
            d: given.d,
            later: 0,
            more: 0,
        }
    }
}

#[repr(C)]
#[derive(Clone, Copy, Default)]
pub struct Times {
    t1: u32,
    t3: u32,
    t20: u32,
    t21: u32,
    t22: u32,
    t23: u32,
    t26: u32,
    t25: u32,
}

impl Times {
    pub fn of(times: crate::Times) -> Times {
        let crate::Times {
            t1,
            t3,
            t20,
            t21,
            t22,
            t23,
            t26,
            t25,
        } = times;
        Times {
            t1,
            t3,
            t20,
            t21,
            t22,
            t23,
            t26,
            t25,
        }
    }

    pub fn told(self) -> crate::Times {
        crate::Times {
            t1: self.t1,
            t3: self.t3,
            t20: self.t20,
            t21: self.t21,
            t22: self.t22,
            t23: self.t23,
            t26: self.t26,
            t25: self.t25,
        }
    }
}

#[repr(C)]
#[derive(Clone, Copy, Default)]
pub struct Event {
    pub kind: u16,
    pub channel: u16,
    pub q: bool,
    pub d: bool,
    pub cause: u8,
    pub diagnostic: u8,
    pub reason: u8,
    pub sizes: Sizes,
    pub timer: u32,
    pub stretch: Stretch,
    pub count: usize,
    pub confirmed: usize,
    pub later: u64,
    pub more: u64,
}

extern "C" {
    pub fn x25_version() -> u32;
    pub fn x25_event_size() -> usize;
    pub fn x25_new(slot: *mut Slot, end: u8, settings: Settings) -> u32;
    pub fn x25_free(slot: *mut Slot);
    pub fn x25_connect(slot: *mut Slot) -> u32;
    pub fn x25_disconnect(slot: *mut Slot) -> u32;
    pub fn x25_probe(slot: *mut Slot) -> u32;
    pub fn x25_relink(slot: *mut Slot) -> u32;
    pub fn x25_restart(slot: *mut Slot, cause: u8, diagnostic: u8) -> u32;
    pub fn x25_call(
        slot: *mut Slot,
        called: *const u8,
        called_count: usize,
        calling: *const u8,
        calling_count: usize,
        user: *const u8,
        user_count: usize,
        sizes: Sizes,
        channel: *mut u16,
    ) -> u32;
    pub fn x25_call_with(
        slot: *mut Slot,
        called: *const u8,
        called_count: usize,
        calling: *const u8,
        calling_count: usize,
        user: *const u8,
        user_count: usize,
        sizes: Sizes,
        given: Given,
        channel: *mut u16,
    ) -> u32;
    pub fn x25_accept(slot: *mut Slot, channel: u16, sizes: Sizes) -> u32;
    pub fn x25_accept_with(slot: *mut Slot, channel: u16, sizes: Sizes, given: Given) -> u32;
    pub fn x25_clear(slot: *mut Slot, channel: u16, cause: u8, diagnostic: u8) -> u32;
    pub fn x25_clear_with(
        slot: *mut Slot,
        channel: u16,
        cause: u8,
        diagnostic: u8,
        given: Given,
    ) -> u32;
    pub fn x25_reset(slot: *mut Slot, channel: u16, cause: u8, diagnostic: u8) -> u32;
    pub fn x25_interrupt(slot: *mut Slot, channel: u16, user: *const u8, count: usize) -> u32;
    pub fn x25_ready(slot: *mut Slot, channel: u16) -> u32;
    pub fn x25_not_ready(slot: *mut Slot, channel: u16) -> u32;
    pub fn x25_pull(slot: *mut Slot) -> u32;
    pub fn x25_t1(slot: *mut Slot) -> u32;
    pub fn x25_receive(slot: *mut Slot, octets: *const u8, count: usize) -> u32;
    pub fn x25_receive_all(
        slot: *mut Slot,
        octets: *const u8,
        octets_count: usize,
        counts: *const usize,
        counts_count: usize,
        taken: *mut usize,
    ) -> u32;
    pub fn x25_send(slot: *mut Slot, channel: u16, q: bool, user: *const u8, count: usize) -> u32;
    pub fn x25_send_asking(
        slot: *mut Slot,
        channel: u16,
        q: bool,
        user: *const u8,
        count: usize,
    ) -> u32;
    pub fn x25_command(slot: *mut Slot, text: *const u8, count: usize) -> u32;
    pub fn x25_standard_times(end: u8, times: *mut Times) -> u32;
    pub fn x25_set_times(slot: *mut Slot, times: Times) -> u32;
    pub fn x25_time(slot: *mut Slot, now: u64) -> u32;
    pub fn x25_next(slot: *const Slot, at: *mut u64) -> bool;
    pub fn x25_next_timeout(slot: *const Slot, now: u64, most: u64) -> u64;
    pub fn x25_take_all(
        slot: *const Slot,
        first: usize,
        events: *mut Event,
        most: usize,
        room: *mut u8,
        size: usize,
    ) -> usize;
    pub fn x25_called(slot: *const Slot, i: usize, text: *mut u8, size: usize) -> usize;
    pub fn x25_calling(slot: *const Slot, i: usize, text: *mut u8, size: usize) -> usize;
    pub fn x25_facilities(slot: *const Slot, i: usize, room: *mut u8, size: usize) -> usize;
    pub fn x25_entries(slot: *const Slot) -> usize;
    pub fn x25_entry(
        slot: *const Slot,
        i: usize,
        text: *mut u8,
        size: usize,
        count: *mut usize,
    ) -> u32;
    pub fn x25_timer(slot: *const Slot) -> u32;
    pub fn x25_idle(slot: *const Slot) -> bool;
    pub fn x25_room(slot: *const Slot, channel: u16) -> usize;
    pub fn x25_unconfirmed(slot: *const Slot, channel: u16) -> usize;
    pub fn x25_awaits(slot: *const Slot, channel: u16) -> u32;
    pub fn x25_open_calls(slot: *const Slot) -> usize;
    pub fn x25_is_restarting(slot: *const Slot) -> bool;
    pub fn x25_stretch(slot: *const Slot, channel: u16, name: *mut Stretch) -> bool;
    pub fn x25_refusal_text(number: u32, text: *mut u8, size: usize) -> usize;
}
