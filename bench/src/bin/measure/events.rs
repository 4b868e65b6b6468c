//! The seven events on full tables: 8 APs with 16 rows and 8 open moves each, 63 or 64 packets in the air.

use std::hint::black_box;

use floor::twins::{compare_floor, floor_of};
use floor::{Event, Floor, Station};
use skelmarith::{Line, Network, NONE};

use crate::timing::{best, heading, line, on};

const CONTEXT: [u8; 64] = [0x5a; 64];

fn station(at: u16, row: u16) -> Station {
    [2, 0, 0, 0, at as u8, row as u8]
}

fn join(at: u16, row: u16, sequence: u16, old: Option<u16>) -> Event<'static> {
    Event::Join {
        at,
        station: station(at, row),
        sequence,
        old: old.map(u32::from),
        context: &CONTEXT,
    }
}

fn call(network: &mut Network, event: &Event) -> Line {
    match *event {
        Event::Join {
            at,
            ref station,
            sequence,
            old,
            context,
        } => network.join(at, station, sequence, old.unwrap_or(NONE), context),
        Event::Leave { at, ref station } => network.leave(at, station),
        Event::Deliver { packet } => network.deliver(packet),
        Event::Repeat { packet } => network.repeat(packet),
        Event::Lose { packet } => network.lose(packet),
        Event::Tick { at } => network.tick(at),
        Event::Who { ref station } => network.who(station),
    }
}

/// The full floor, 64 packets in the air: seven ADD-notify of AP 0, then 57 MOVE-notify of AP 0 to 7, each to the next AP.
fn full(timeout: u16) -> Network {
    let mut network = Network::BLANK;
    assert_eq!(network.set_up(8, timeout, 7).answer, 0);
    let mut events = vec![join(0, 8, 10, None)];
    events.extend((0..64).map(|which| {
        let at = which / 8;
        join(at, which % 8, 10, Some((at + 1) % 8))
    }));
    events.extend((0..64).map(|which| join(which / 8, 8 + which % 8, 10, None)));
    for event in &events {
        call(&mut network, event);
    }
    assert_eq!(network.in_flight.count, 64);
    for point in &network.points {
        assert_eq!((point.associations.count, point.moves.count), (16, 8));
    }
    network
}

fn after(network: &Network, events: &[Event]) -> Network {
    let mut network = network.clone();
    for event in events {
        assert_eq!(call(&mut network, event).answer, 0);
    }
    network
}

/// Times the events, one call each, on copies of `network`. Both sides must answer the same and leave the same record.
fn compare(rounds: usize, network: &Network, what: &str, answer: u8, events: &[Event]) {
    let floor = floor_of(network);
    let (mut network_after, mut floor_after) = (network.clone(), floor.clone());
    for event in events {
        let library = call(&mut network_after, event).answer;
        let here = floor_after.event(event);
        let here = here.map_or_else(|refusal| refusal.number(), |_| 0);
        assert_eq!((library, here), (answer, answer), "{what}: {event:?}");
    }
    compare_floor(&network_after, &floor_after).expect(what);
    let times = best(
        rounds,
        events.len(),
        [
            on(network, |network| {
                for event in events {
                    black_box(call(black_box(network), black_box(event)));
                }
            }),
            on(&floor, |floor: &mut Floor| {
                for event in events {
                    let _ = black_box(black_box(&mut *floor).event(black_box(event)));
                }
            }),
            on(&floor, |floor: &mut Floor| {
                for event in events {
                    let floor = black_box(&mut *floor);
                    let _ = black_box(floor.event_unchecked_14(black_box(event)));
                }
            }),
        ],
    );
    line(what, times);
}

pub fn measure(rounds: usize) {
    heading("Events on full tables: 8 APs, 16 rows and 8 open moves each");
    let full_air = full(65535);
    let network = after(&full_air, &[Event::Lose { packet: 63 }]);
    let compare = |network: &Network, what: &str, answer, events: &[Event]| {
        compare(rounds, network, what, answer, events);
    };

    // Each station of each AP in turn, a newer number each time round.
    let here: Vec<Event> = (0..1024)
        .map(|i| join(i % 8, i / 8 % 16, 11 + i / 128, Some(i % 8)))
        .collect();
    compare(
        &network,
        "join, from this AP: the row's number changes (63 in the air)",
        0,
        &here,
    );
    let plain: Vec<Event> = (0..1024)
        .map(|i| join(i % 8, i / 8 % 16, 11 + i / 128, None))
        .collect();
    compare(
        &full_air,
        "join, from nowhere: context of 64 stored, seven packets lost (64 in the air)",
        0,
        &plain,
    );
    let moving: Vec<Event> = (0..1024)
        .map(|i| join(i % 8, i / 8 % 16, 11, Some((i + 1) % 8)))
        .collect();
    compare(&network, "join, refused with 17", 17, &moving);

    let absent: Vec<Event> = (0..1024)
        .map(|i| Event::Leave {
            at: i % 8,
            station: station(99, i),
        })
        .collect();
    compare(&network, "leave, no row there", 0, &absent);
    let in_turn: Vec<Event> = (0..1024)
        .map(|i| {
            let (at, row) = (i / 2 % 8, i / 16 % 16);
            if i % 2 == 0 {
                let station = station(at, row);
                Event::Leave { at, station }
            } else {
                join(at, row, 10, Some(at))
            }
        })
        .collect();
    compare(
        &network,
        "leave and join from this AP in turn, the mean of both",
        0,
        &in_turn,
    );

    let notices = [Event::Deliver { packet: 7 }; 50];
    compare(
        &network,
        "deliver a MOVE-notify of no row there: out of the air, and its answer in (63)",
        0,
        &notices,
    );
    let answered = after(&network, &notices);
    compare(
        &answered,
        "deliver a MOVE-response that closes its move (63 down to 13 in the air, moves from 8 to 1)",
        0,
        &[Event::Deliver { packet: 13 }; 50],
    );
    compare(
        &network,
        "repeat an ADD-notify of no row there (63 in the air)",
        0,
        &[Event::Repeat { packet: 0 }; 1024],
    );
    compare(
        &full_air,
        "repeat a MOVE-notify of no row there, its answer lost (64 in the air)",
        0,
        &[Event::Repeat { packet: 20 }; 1024],
    );
    compare(
        &network,
        "lose the first packet (63 down to 13 in the air)",
        0,
        &[Event::Lose { packet: 0 }; 50],
    );

    let ticks: Vec<Event> = (0..1024).map(|i| Event::Tick { at: i % 8 }).collect();
    compare(
        &network,
        "tick, 8 moves lose one tick each (63 in the air)",
        0,
        &ticks,
    );
    let resends: Vec<Event> = (0..56).map(|i| Event::Tick { at: i % 8 }).collect();
    compare(
        &full(1),
        "tick that sends 8 notices again, lost (64 in the air)",
        0,
        &resends,
    );

    let who: Vec<Event> = (0..1024)
        .map(|i| Event::Who {
            station: station(i % 8, i / 8 % 16),
        })
        .collect();
    compare(&network, "who, at one AP", 0, &who);
    let nobody: Vec<Event> = (0..1024)
        .map(|i| Event::Who {
            station: station(99, i),
        })
        .collect();
    compare(&network, "who, at none", 0, &nobody);
}
