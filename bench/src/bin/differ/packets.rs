//! Packets read and written: valid ones, damaged ones, cut and padded to every length from 0 to 100.

use floor::packet::{self, Command, Packet};
use floor::xorshift::Xorshift;
use skelmarith as linked;

use crate::numbers;
use crate::stations::octets;
use crate::tally::Tally;

const READ: u64 = 400_000;
const WRITTEN: u64 = 200_000;
pub const LONGEST: usize = 100;
/// Octets on both sides of a lent buffer that no call may write.
pub const GUARD: usize = 16;

pub fn command(numbers: &mut Xorshift) -> Command {
    [
        Command::AddNotify,
        Command::MoveNotify,
        Command::MoveResponse,
    ][numbers.below(3)]
}

/// The octets of a packet that the reader accepts.
pub fn valid(numbers: &mut Xorshift) -> Vec<u8> {
    let length = match numbers.below(4) {
        0 => 0,
        1 => 64,
        _ => numbers.below(65),
    };
    let context = octets(numbers, length);
    let station = std::array::from_fn(|_| numbers.below(256) as u8);
    let mut buffer = [0; packet::LONGEST];
    let length = packet::write(
        &Packet {
            command: command(numbers),
            identifier: numbers.below(65536) as u16,
            status: numbers.below(2) as u8,
            station,
            sequence: numbers.below(4096) as u16,
            context: &context,
        },
        &mut buffer,
    );
    let mut octets = buffer[..length.expect("within the limits")].to_vec();
    if numbers.chance(20) && octets[1] != Command::MoveResponse as u8 {
        octets[7] = numbers.below(256) as u8; // Reserved
    }
    octets
}

/// Some octets of the fixed part changed, mostly by a little.
pub fn damage(octets: &mut [u8], numbers: &mut Xorshift) {
    for _ in 0..1 + numbers.below(3) {
        let at = numbers.below(octets.len().clamp(1, 18));
        if let Some(octet) = octets.get_mut(at) {
            *octet = match numbers.below(4) {
                0 => numbers.below(256) as u8,
                1 => octet.wrapping_add(1),
                2 => octet.wrapping_sub(1),
                _ => numbers.below(4) as u8,
            };
        }
    }
}

/// Any packet at all, of at most 100 octets.
pub fn any(numbers: &mut Xorshift) -> Vec<u8> {
    let mut packet = valid(numbers);
    match numbers.below(10) {
        0..=2 => {}
        3 => packet = octets_of_any_length(numbers),
        4 => {
            let length = numbers.below(LONGEST + 1);
            packet.resize(length, numbers.below(256) as u8);
        }
        5 => packet.truncate(numbers.below(packet.len() + 1)),
        _ => {
            if numbers.chance(30) {
                packet.resize(LONGEST.min(packet.len() + numbers.below(4)), 0);
            }
            damage(&mut packet, numbers);
        }
    }
    packet
}

fn octets_of_any_length(numbers: &mut Xorshift) -> Vec<u8> {
    let length = numbers.below(LONGEST + 1);
    octets(numbers, length)
}

/// What this crate reads, in the library's form.
fn reading(packet: &[u8]) -> linked::Reading {
    match packet::read(packet) {
        Err(refusal) => linked::Reading {
            answer: refusal.number(),
            ..Default::default()
        },
        Ok(fields) => linked::Reading {
            answer: 0,
            command: fields.command as u8,
            identifier: fields.identifier,
            status: fields.status,
            station: fields.station,
            sequence: fields.sequence,
            start: match fields.command {
                Command::AddNotify => 0,
                Command::MoveNotify | Command::MoveResponse => 18,
            },
            len: fields.context.len(),
        },
    }
}

pub fn hex(octets: &[u8]) -> String {
    octets.iter().map(|octet| format!("{octet:02x}")).collect()
}

/// Reading. Every length from 0 to 100 is met, by valid packets that are cut or padded and by any octets.
pub fn read(seed: u64, factor: u64) -> Tally {
    let mut tally = Tally::new(
        "packets read",
        "packets",
        &[0, 1, 2, 3, 4, 5, 6, 7, 8, 9],
        &["accepted with padding", "context of 64", "every length"],
    );
    let mut numbers = numbers(seed, 1, 0);
    let mut lengths = [0u32; LONGEST + 1];
    for case in 0..READ * factor {
        let mut packet = any(&mut numbers);
        if case % 4 == 0 {
            packet.resize(case as usize / 4 % (LONGEST + 1), 0);
        }
        let (library, here) = (linked::read(&packet), reading(&packet));
        tally.count += 1;
        tally.answer(library.answer);
        let accepted = here.answer == 0;
        tally.mark("context of 64", accepted && here.len == 64);
        let length = if here.command == 0 { 16 } else { 18 + here.len };
        tally.mark("accepted with padding", accepted && packet.len() > length);
        lengths[packet.len()] += 1;
        if library != here {
            tally.differs(format!(
                "seed {seed}, case {case}\nread {}\nthe library {library:?}\nhere {here:?}",
                hex(&packet)
            ));
            break;
        }
    }
    tally.mark("every length", lengths.iter().all(|&count| count > 0));
    tally
}

/// Writing, into buffers of every length round the one needed.
pub fn write(seed: u64, factor: u64) -> Tally {
    let mut tally = Tally::new(
        "packets written",
        "packets",
        &[0, 3, 7, 8, 9, 10],
        &["context of 64", "context of 65", "buffer just long enough"],
    );
    let mut numbers = numbers(seed, 2, 0);
    for case in 0..WRITTEN * factor {
        let numbers = &mut numbers;
        let octet = match numbers.below(20) {
            0 => numbers.below(256) as u8,
            _ => command(numbers) as u8,
        };
        let length = match numbers.below(8) {
            0 => 64,
            1 => 65,
            2 => 66 + numbers.below(300),
            3 => 0,
            _ => numbers.below(65),
        };
        let context = octets(numbers, length);
        let sequence = match numbers.below(8) {
            0 => [4095, 4096, 32768, 65535][numbers.below(4)],
            _ => numbers.below(4096) as u16,
        };
        let status = match numbers.below(6) {
            0 => numbers.below(256) as u8,
            _ => numbers.below(3) as u8,
        };
        let station = std::array::from_fn(|_| numbers.below(256) as u8);
        let identifier = numbers.below(65536) as u16;
        let needed = if octet == 0 { 16 } else { 18 + length };
        let room = match numbers.below(5) {
            0 => numbers.below(needed + 1),
            1 => needed - 1,
            2 => needed + numbers.below(40),
            _ => needed,
        };
        let mut library_buffer = octets(numbers, room + 2 * GUARD);
        let mut buffer = library_buffer.clone();
        let library = linked::write(
            &mut library_buffer[GUARD..GUARD + room],
            octet,
            identifier,
            status,
            &station,
            sequence,
            &context,
        );
        let command = match octet {
            0 => Some(Command::AddNotify),
            1 => Some(Command::MoveNotify),
            2 => Some(Command::MoveResponse),
            _ => None,
        };
        let result = command.map_or(Err(floor::Refusal::Command), |command| {
            let packet = Packet {
                command,
                identifier,
                status,
                station,
                sequence,
                context: &context,
            };
            packet::write(&packet, &mut buffer[GUARD..GUARD + room])
        });
        let here = match result {
            Ok(len) => linked::Written { answer: 0, len },
            Err(refusal) => linked::Written {
                answer: refusal.number(),
                len: 0,
            },
        };
        tally.count += 1;
        tally.answer(library.answer);
        tally.mark("context of 64", here.answer == 0 && here.len == 82);
        tally.mark("context of 65", here.answer == 9 && length == 65);
        tally.mark(
            "buffer just long enough",
            here.answer == 0 && here.len == room,
        );
        if library != here || library_buffer != buffer {
            tally.differs(format!(
                "seed {seed}, case {case}\nwrite command {octet} identifier {identifier} status {status} station {} \
                 sequence {sequence} context {} into {room} octets\nthe library {library:?}\nhere {here:?}\n\
                 buffers, with {GUARD} octets on both sides:\n{}\n{}",
                hex(&station),
                hex(&context),
                hex(&library_buffer),
                hex(&buffer)
            ));
            break;
        }
    }
    tally
}
