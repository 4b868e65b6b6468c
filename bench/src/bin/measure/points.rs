//! One AP alone with 16 rows and 8 open moves.

use std::hint::black_box;

use floor::alone::{Alone, Call};
use floor::packet::{self, Command, Packet};
use floor::twins::{alone_of, compare_alone};
use floor::Station;
use skelmarith::{LoneAccessPoint, NONE};

use crate::timing::{best, heading, line, on};

const CALLS: usize = 1_000;
const CONTEXT: [u8; 64] = [0x5a; 64];

fn station(which: u8) -> Station {
    [2, 0, 0, 0, 0, which]
}

/// 8 stations that came from AP 1, whose moves are open, and 8 from nowhere, with 64 octets of context each.
fn full() -> LoneAccessPoint {
    let mut lone = LoneAccessPoint::BLANK;
    let mut buffer = [0; 112];
    assert_eq!(lone.set_up(0, 8, 65535, 7).answer, 0);
    for which in 0..16 {
        let old = if which < 8 { 1 } else { NONE };
        let joined = lone.join(&mut buffer, &station(which), 10, old, &CONTEXT);
        assert_eq!(joined.answer, 0);
    }
    lone
}

fn packet(command: Command, sequence: u16, context: &[u8]) -> Vec<u8> {
    let mut octets = [0; packet::LONGEST];
    let fields = Packet {
        command,
        identifier: 999,
        status: 0,
        station: station(15),
        sequence,
        context,
    };
    let length = packet::write(&fields, &mut octets).expect("within the limits");
    octets[..length].to_vec()
}

/// Times `call`; both sides must leave the same record and buffer.
fn compare(rounds: usize, lone: &LoneAccessPoint, what: &str, call: Call) {
    let alone = alone_of(lone);
    let mut buffers = [[0u8; 144]; 3];
    let linked_call = |lone: &mut LoneAccessPoint, buffer: &mut [u8]| match call {
        Call::Join {
            ref station,
            sequence,
            old,
            context,
        } => lone.join(buffer, station, sequence, old.unwrap_or(NONE), context),
        Call::Leave { ref station } => lone.leave(station),
        Call::Tick => lone.tick(buffer),
        Call::Outside { from, octets } => lone.outside(buffer, from, octets),
        Call::Who { ref station } => lone.who(station),
    };
    {
        let (mut lone, mut alone): (LoneAccessPoint, Alone) = (lone.clone(), alone.clone());
        let library = linked_call(&mut lone, &mut buffers[0]);
        let here = alone.call(&call, &mut buffers[1]);
        let here_answer = here.map_or_else(|refusal| refusal.number(), |_| 0);
        assert_eq!(library.answer, here_answer, "{what}");
        assert_eq!(buffers[0], buffers[1], "{what}");
        compare_alone(&lone, &alone).expect(what);
    }
    let [first, second, third] = &mut buffers;
    let times = best(
        rounds,
        CALLS,
        [
            on(lone, |lone| {
                for _ in 0..CALLS {
                    black_box(linked_call(black_box(lone), black_box(&mut first[..])));
                }
            }),
            on(&alone, |alone| {
                for _ in 0..CALLS {
                    let done = alone.call(black_box(&call), black_box(&mut second[..]));
                    let _ = black_box(done);
                }
            }),
            on(&alone, |alone| {
                for _ in 0..CALLS {
                    let done = alone.call_unchecked_14(black_box(&call), black_box(&mut third[..]));
                    let _ = black_box(done);
                }
            }),
        ],
    );
    line(what, times);
}

pub fn measure(rounds: usize) {
    heading("One AP alone, 16 rows and 8 open moves");
    let lone = full();
    let add = packet(Command::AddNotify, 10, &[]);
    let notice = packet(Command::MoveNotify, 10, &[]);
    let response = packet(Command::MoveResponse, 10, &CONTEXT);
    for (what, octets) in [
        (
            "outside bytes: ADD-notify that is not newer, nothing changes",
            &add,
        ),
        (
            "outside bytes: MOVE-notify that is not newer, answered with STALE_MOVE",
            &notice,
        ),
        (
            "outside bytes: MOVE-response with 64 octets of context that no move waits for",
            &response,
        ),
    ] {
        compare(rounds, &lone, what, Call::Outside { from: 1, octets });
    }
    let join = Call::Join {
        station: station(15),
        sequence: 10,
        old: None,
        context: &CONTEXT,
    };
    compare(rounds, &lone, "join, refused with 15", join);
    let station = station(99);
    compare(
        rounds,
        &lone,
        "leave, no row there",
        Call::Leave { station },
    );
    compare(
        rounds,
        &lone,
        "tick, 8 moves lose one tick each",
        Call::Tick,
    );
    compare(rounds, &lone, "who, no row there", Call::Who { station });
}
