//! Reading and writing a MOVE-response. On both sides a call is a call: neither is put into the loop that times it.

use std::hint::black_box;

use floor::packet::{self, Command, Packet};
use floor::Refusal;
use skelmarith as linked;

use crate::timing::{best, heading, line_of_two, on};

const CALLS: usize = 10_000;

#[inline(never)]
fn read(octets: &[u8]) -> Result<Packet<'_>, Refusal> {
    packet::read(octets)
}

#[inline(never)]
fn write(packet: &Packet, buffer: &mut [u8]) -> Result<usize, Refusal> {
    packet::write(packet, buffer)
}

pub fn measure(rounds: usize) {
    heading("Packets");
    for length in [0, 64] {
        let context: Vec<u8> = (0..length as u8).collect();
        let fields = Packet {
            command: Command::MoveResponse,
            identifier: 0x1234,
            status: 0,
            station: [2, 0, 0, 0, 0, 1],
            sequence: 4095,
            context: &context,
        };
        let mut octets = [0; packet::LONGEST];
        let written = packet::write(&fields, &mut octets).expect("within the limits");
        let octets = &octets[..written];
        assert_eq!(linked::read(octets).len, length);

        let times = best(
            rounds,
            CALLS,
            [
                on(&(), |()| {
                    for _ in 0..CALLS {
                        black_box(&linked::read(black_box(octets)));
                    }
                }),
                on(&(), |()| {
                    for _ in 0..CALLS {
                        let _ = black_box(&read(black_box(octets)));
                    }
                }),
            ],
        );
        line_of_two(
            &format!("read a MOVE-response with {length} octets of context"),
            times,
        );

        let buffer = [0u8; 100];
        let times = best(
            rounds,
            CALLS,
            [
                on(&buffer, |buffer| {
                    for _ in 0..CALLS {
                        let fields = black_box(&fields);
                        let written = linked::write(
                            &mut black_box(&mut *buffer)[..],
                            fields.command as u8,
                            fields.identifier,
                            fields.status,
                            &fields.station,
                            fields.sequence,
                            fields.context,
                        );
                        black_box(written);
                    }
                }),
                on(&buffer, |buffer| {
                    for _ in 0..CALLS {
                        let buffer = &mut black_box(&mut *buffer)[..];
                        let written = write(black_box(&fields), buffer);
                        let _ = black_box(written);
                    }
                }),
            ],
        );
        line_of_two(
            &format!("write a MOVE-response with {length} octets of context"),
            times,
        );
    }
}
