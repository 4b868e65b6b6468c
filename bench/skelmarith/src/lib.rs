//! The proved library for Rust: the structs of link/skelmarith.h, its functions declared once, and a safe call for each.
//!
//! This is the only file of bench/ with `unsafe` in it. What the library asks of its caller is that every address is not
//! null, aligned and valid for its length, and that what a call may write overlaps nothing else that the call is given.
//! A Rust reference or slice has all of this, a slice of no octets too, so each call below is safe for any arguments. A record
//! may hold anything: every field is a number, and one outside document 01's limits is answered with 14.
//!
//! link/skelmarith.h says what each function does and which answers it has.

use std::mem::size_of;

pub const MOST_ROWS: usize = 16;
pub const MOST_MOVES: usize = 8;
pub const MOST_POINTS: usize = 8;
pub const MOST_PACKETS: usize = 64;
pub const LONGEST_CONTEXT: usize = 64;
pub const LONGEST_PACKET: usize = 82;

/// A join's `old` where the station was nowhere before.
pub const NONE: u32 = 0xFFFF_FFFF;

/// A row: a station that is associated with an AP.
#[repr(C)]
#[derive(Clone, Copy, Debug, PartialEq, Eq)]
pub struct Association {
    pub station: [u8; 6],
    pub sequence: u16,
    pub context_len: usize,
    pub context: [u8; LONGEST_CONTEXT],
}

/// An open move.
#[repr(C)]
#[derive(Clone, Copy, Debug, PartialEq, Eq)]
pub struct Move {
    pub station: [u8; 6],
    pub sequence: u16,
    pub old: u8,
    pub identifier: u16,
    pub ticks_left: u16,
    pub resends_left: u8,
}

#[repr(C)]
#[derive(Clone, Copy, Debug, PartialEq, Eq)]
pub struct Associations {
    pub items: [Association; MOST_ROWS],
    pub count: usize,
}

#[repr(C)]
#[derive(Clone, Copy, Debug, PartialEq, Eq)]
pub struct Moves {
    pub items: [Move; MOST_MOVES],
    pub count: usize,
}

/// The record of an AP.
#[repr(C)]
#[derive(Clone, Copy, Debug, PartialEq, Eq)]
pub struct AccessPoint {
    pub associations: Associations,
    pub moves: Moves,
    pub next_identifier: u16,
    pub opened: u32,
    pub resent: u32,
    pub answered: u32,
    pub given_up: u32,
}

/// One AP alone: its record with its own number, the floor's AP count, T and R.
#[repr(C)]
#[derive(Clone, Debug, PartialEq, Eq)]
pub struct LoneAccessPoint {
    pub point: AccessPoint,
    pub number: u8,
    pub ap_count: u8,
    pub timeout: u16,
    pub resend_limit: u8,
}

/// A packet in the air.
#[repr(C)]
#[derive(Clone, Copy, Debug, PartialEq, Eq)]
pub struct InFlight {
    pub from: u8,
    pub to: u8,
    pub len: usize,
    pub octets: [u8; LONGEST_PACKET],
}

#[repr(C)]
#[derive(Clone, Copy, Debug, PartialEq, Eq)]
pub struct InFlights {
    pub items: [InFlight; MOST_PACKETS],
    pub count: usize,
}

/// The floor.
#[repr(C)]
#[derive(Clone, Debug, PartialEq, Eq)]
pub struct Network {
    pub ap_count: u8,
    pub timeout: u16,
    pub resend_limit: u8,
    pub points: [AccessPoint; MOST_POINTS],
    pub in_flight: InFlights,
}

/// What `read` returns.
#[repr(C)]
#[derive(Clone, Copy, Debug, Default, PartialEq, Eq)]
pub struct Reading {
    pub answer: u8,
    pub command: u8,
    pub identifier: u16,
    pub status: u8,
    pub station: [u8; 6],
    pub sequence: u16,
    pub start: usize,
    pub len: usize,
}

/// What `write` and `rehearse` return.
#[repr(C)]
#[derive(Clone, Copy, Debug, Default, PartialEq, Eq)]
pub struct Written {
    pub answer: u8,
    pub len: usize,
}

/// What an event on the floor returns: the numbers of the line that a script's event prints.
#[repr(C)]
#[derive(Clone, Copy, Debug, Default, PartialEq, Eq)]
pub struct Line {
    pub answer: u8,
    pub sent: u8,
    pub given_up: u8,
    pub held: u8,
    pub tables: u8,
}

/// What a call of one AP alone returns.
#[repr(C)]
#[derive(Clone, Copy, Debug, Default, PartialEq, Eq)]
pub struct Reply {
    pub answer: u8,
    pub sent: u8,
    pub given_up: u8,
    pub held: u8,
    pub to: [u8; MOST_POINTS],
    pub len: usize,
}

const _: () = {
    assert!(size_of::<usize>() == 8);
    assert!(size_of::<Association>() == 80);
    assert!(size_of::<Move>() == 16);
    assert!(size_of::<Associations>() == 1288);
    assert!(size_of::<Moves>() == 136);
    assert!(size_of::<AccessPoint>() == 1448);
    assert!(size_of::<LoneAccessPoint>() == 1456);
    assert!(size_of::<InFlight>() == 104);
    assert!(size_of::<InFlights>() == 6664);
    assert!(size_of::<Network>() == 18256);
    assert!(size_of::<Reading>() == 32);
    assert!(size_of::<Written>() == 16);
    assert!(size_of::<Line>() == 5);
    assert!(size_of::<Reply>() == 24);
};

mod foreign {
    use super::*;

    extern "C" {
        pub fn skel_read(packet: *const u8, packet_len: usize) -> Reading;
        pub fn skel_write(
            buffer: *mut u8,
            buffer_len: usize,
            command: u8,
            identifier: u16,
            status: u8,
            station: *const [u8; 6],
            sequence: u16,
            context: *const u8,
            context_len: usize,
        ) -> Written;
        pub fn skel_ap_set_up(
            ap: *mut LoneAccessPoint,
            number: u16,
            ap_count: u16,
            timeout: u16,
            resend_limit: u16,
        ) -> Reply;
        pub fn skel_ap_join(
            ap: *mut LoneAccessPoint,
            buffer: *mut u8,
            buffer_len: usize,
            station: *const [u8; 6],
            sequence: u16,
            old: u32,
            context: *const u8,
            context_len: usize,
        ) -> Reply;
        pub fn skel_ap_leave(ap: *mut LoneAccessPoint, station: *const [u8; 6]) -> Reply;
        pub fn skel_ap_tick(ap: *mut LoneAccessPoint, buffer: *mut u8, buffer_len: usize) -> Reply;
        pub fn skel_ap_outside(
            ap: *mut LoneAccessPoint,
            buffer: *mut u8,
            buffer_len: usize,
            from: u16,
            packet: *const u8,
            packet_len: usize,
        ) -> Reply;
        pub fn skel_ap_who(ap: *mut LoneAccessPoint, station: *const [u8; 6]) -> Reply;
        pub fn skel_set_up(
            net: *mut Network,
            ap_count: u16,
            timeout: u16,
            resend_limit: u16,
        ) -> Line;
        pub fn skel_join(
            net: *mut Network,
            at: u16,
            station: *const [u8; 6],
            sequence: u16,
            old: u32,
            context: *const u8,
            context_len: usize,
        ) -> Line;
        pub fn skel_leave(net: *mut Network, at: u16, station: *const [u8; 6]) -> Line;
        pub fn skel_deliver(net: *mut Network, packet: u16) -> Line;
        pub fn skel_repeat(net: *mut Network, packet: u16) -> Line;
        pub fn skel_lose(net: *mut Network, packet: u16) -> Line;
        pub fn skel_tick(net: *mut Network, at: u16) -> Line;
        pub fn skel_who(net: *mut Network, station: *const [u8; 6]) -> Line;
        pub fn skel_rehearse(
            script: *const u8,
            script_len: usize,
            out: *mut u8,
            out_len: usize,
        ) -> Written;
    }
}

/// Reads a packet; the context is `packet[start..start + len]`.
pub fn read(packet: &[u8]) -> Reading {
    // SAFETY: a slice, which is only read.
    unsafe { foreign::skel_read(packet.as_ptr(), packet.len()) }
}

/// Writes a packet at the front of `buffer`.
pub fn write(
    buffer: &mut [u8],
    command: u8,
    identifier: u16,
    status: u8,
    station: &[u8; 6],
    sequence: u16,
    context: &[u8],
) -> Written {
    // SAFETY: slices; `buffer` is borrowed for writing and so overlaps neither other.
    unsafe {
        foreign::skel_write(
            buffer.as_mut_ptr(),
            buffer.len(),
            command,
            identifier,
            status,
            station,
            sequence,
            context.as_ptr(),
            context.len(),
        )
    }
}

/// Runs a whole script; its output is at the front of `out`.
pub fn rehearse(script: &[u8], out: &mut [u8]) -> Written {
    // SAFETY: slices; `out` is borrowed for writing and so does not overlap `script`.
    unsafe { foreign::skel_rehearse(script.as_ptr(), script.len(), out.as_mut_ptr(), out.len()) }
}

impl Association {
    pub const BLANK: Association = Association {
        station: [0; 6],
        sequence: 0,
        context_len: 0,
        context: [0; LONGEST_CONTEXT],
    };
}

impl Move {
    pub const BLANK: Move = Move {
        station: [0; 6],
        sequence: 0,
        old: 0,
        identifier: 0,
        ticks_left: 0,
        resends_left: 0,
    };
}

impl AccessPoint {
    pub const BLANK: AccessPoint = AccessPoint {
        associations: Associations {
            items: [Association::BLANK; MOST_ROWS],
            count: 0,
        },
        moves: Moves {
            items: [Move::BLANK; MOST_MOVES],
            count: 0,
        },
        next_identifier: 0,
        opened: 0,
        resent: 0,
        answered: 0,
        given_up: 0,
    };
}

impl InFlight {
    pub const BLANK: InFlight = InFlight {
        from: 0,
        to: 0,
        len: 0,
        octets: [0; LONGEST_PACKET],
    };
}

impl LoneAccessPoint {
    /// A record that was not set up: every call but `set_up` answers 14.
    pub const BLANK: LoneAccessPoint = LoneAccessPoint {
        point: AccessPoint::BLANK,
        number: 0,
        ap_count: 0,
        timeout: 0,
        resend_limit: 0,
    };

    pub fn set_up(&mut self, number: u16, ap_count: u16, timeout: u16, resend_limit: u16) -> Reply {
        // SAFETY: the record is borrowed for writing.
        unsafe { foreign::skel_ap_set_up(self, number, ap_count, timeout, resend_limit) }
    }

    pub fn join(
        &mut self,
        buffer: &mut [u8],
        station: &[u8; 6],
        sequence: u16,
        old: u32,
        context: &[u8],
    ) -> Reply {
        // SAFETY: record and buffer are borrowed for writing and so overlap nothing else here.
        unsafe {
            foreign::skel_ap_join(
                self,
                buffer.as_mut_ptr(),
                buffer.len(),
                station,
                sequence,
                old,
                context.as_ptr(),
                context.len(),
            )
        }
    }

    pub fn leave(&mut self, station: &[u8; 6]) -> Reply {
        // SAFETY: the record is borrowed for writing, the station for reading.
        unsafe { foreign::skel_ap_leave(self, station) }
    }

    pub fn tick(&mut self, buffer: &mut [u8]) -> Reply {
        // SAFETY: record and buffer are borrowed for writing and so do not overlap.
        unsafe { foreign::skel_ap_tick(self, buffer.as_mut_ptr(), buffer.len()) }
    }

    pub fn outside(&mut self, buffer: &mut [u8], from: u16, packet: &[u8]) -> Reply {
        // SAFETY: record and buffer are borrowed for writing and so overlap nothing else here.
        unsafe {
            foreign::skel_ap_outside(
                self,
                buffer.as_mut_ptr(),
                buffer.len(),
                from,
                packet.as_ptr(),
                packet.len(),
            )
        }
    }

    pub fn who(&mut self, station: &[u8; 6]) -> Reply {
        // SAFETY: the record is borrowed for writing, the station for reading.
        unsafe { foreign::skel_ap_who(self, station) }
    }
}

impl Network {
    /// A record that was not set up: every call but `set_up` answers 14.
    pub const BLANK: Network = Network {
        ap_count: 0,
        timeout: 0,
        resend_limit: 0,
        points: [AccessPoint::BLANK; MOST_POINTS],
        in_flight: InFlights {
            items: [InFlight::BLANK; MOST_PACKETS],
            count: 0,
        },
    };

    pub fn set_up(&mut self, ap_count: u16, timeout: u16, resend_limit: u16) -> Line {
        // SAFETY: the record is borrowed for writing.
        unsafe { foreign::skel_set_up(self, ap_count, timeout, resend_limit) }
    }

    pub fn join(
        &mut self,
        at: u16,
        station: &[u8; 6],
        sequence: u16,
        old: u32,
        context: &[u8],
    ) -> Line {
        // SAFETY: the record is borrowed for writing and so overlaps nothing else here.
        unsafe {
            foreign::skel_join(
                self,
                at,
                station,
                sequence,
                old,
                context.as_ptr(),
                context.len(),
            )
        }
    }

    pub fn leave(&mut self, at: u16, station: &[u8; 6]) -> Line {
        // SAFETY: the record is borrowed for writing, the station for reading.
        unsafe { foreign::skel_leave(self, at, station) }
    }

    pub fn deliver(&mut self, packet: u16) -> Line {
        // SAFETY: the record is borrowed for writing.
        unsafe { foreign::skel_deliver(self, packet) }
    }

    pub fn repeat(&mut self, packet: u16) -> Line {
        // SAFETY: the record is borrowed for writing.
        unsafe { foreign::skel_repeat(self, packet) }
    }

    pub fn lose(&mut self, packet: u16) -> Line {
        // SAFETY: the record is borrowed for writing.
        unsafe { foreign::skel_lose(self, packet) }
    }

    pub fn tick(&mut self, at: u16) -> Line {
        // SAFETY: the record is borrowed for writing.
        unsafe { foreign::skel_tick(self, at) }
    }

    pub fn who(&mut self, station: &[u8; 6]) -> Line {
        // SAFETY: the record is borrowed for writing, the station for reading.
        unsafe { foreign::skel_who(self, station) }
    }
}
