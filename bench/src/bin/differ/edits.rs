//! What a caller may write into a lent record between two calls: values at the limits and past them, and rubbish in what is not used.

use floor::xorshift::Xorshift;
use skelmarith::{AccessPoint, InFlight, LoneAccessPoint, Network};

/// A field of a record that a caller writes.
#[derive(Clone, Copy, Debug, PartialEq, Eq)]
pub enum Field {
    Number,
    ApCount,
    Timeout,
    ResendLimit,
    PacketCount,
    PacketFrom,
    PacketTo,
    PacketLen,
    PacketOctet,
    RowCount,
    RowSequence,
    RowFirstOctet,
    RowContextLen,
    RowStationOfAnother,
    MoveCount,
    MoveSequence,
    MoveOld,
    MoveTicksLeft,
    MoveResendsLeft,
    MoveOfAnother,
    NextIdentifier,
    Opened,
    Resent,
    Answered,
    GivenUp,
    /// Everything that is not used gets rubbish, by `value` as seed.
    Unused,
}

/// What each field that can be outside the limits is to be the cause of.
pub const REFUSED: [&str; 17] = [
    "14 by the AP's own number",
    "14 by the AP count",
    "14 by T",
    "14 by R",
    "14 by the count of packets",
    "14 by a packet's sender",
    "14 by a packet's receiver",
    "14 by a packet's length",
    "14 by a packet's octets",
    "14 by the count of rows",
    "14 by a row's number",
    "14 by a row's context length",
    "14 by two rows of a station",
    "14 by the count of moves",
    "14 by a move's number",
    "14 by a move's old AP",
    "14 by a move's ticks or resends left",
];

impl Field {
    /// The one of `REFUSED` that this field can be the cause of.
    pub fn refused(self) -> Option<&'static str> {
        let at = match self {
            Field::Number => 0,
            Field::ApCount => 1,
            Field::Timeout => 2,
            Field::ResendLimit => 3,
            Field::PacketCount => 4,
            Field::PacketFrom => 5,
            Field::PacketTo => 6,
            Field::PacketLen => 7,
            Field::PacketOctet => 8,
            Field::RowCount => 9,
            Field::RowSequence => 10,
            Field::RowContextLen => 11,
            Field::RowFirstOctet | Field::RowStationOfAnother => 12,
            Field::MoveCount => 13,
            Field::MoveSequence => 14,
            Field::MoveOld => 15,
            Field::MoveTicksLeft | Field::MoveResendsLeft => 16,
            Field::MoveOfAnother
            | Field::NextIdentifier
            | Field::Opened
            | Field::Resent
            | Field::Answered
            | Field::GivenUp
            | Field::Unused => return None,
        };
        Some(REFUSED[at])
    }
}

/// `field` of slot `slot` at AP `ap` becomes `value`; what the field does not need is not looked at.
#[derive(Clone, Copy, Debug, PartialEq, Eq)]
pub struct Edit {
    pub field: Field,
    pub ap: usize,
    pub slot: usize,
    pub value: u64,
}

const FLOOR_FIELDS: [Field; 25] = [
    Field::ApCount,
    Field::Timeout,
    Field::ResendLimit,
    Field::PacketCount,
    Field::PacketFrom,
    Field::PacketTo,
    Field::PacketLen,
    Field::PacketOctet,
    Field::RowCount,
    Field::RowSequence,
    Field::RowFirstOctet,
    Field::RowContextLen,
    Field::RowStationOfAnother,
    Field::MoveCount,
    Field::MoveSequence,
    Field::MoveOld,
    Field::MoveTicksLeft,
    Field::MoveResendsLeft,
    Field::MoveOfAnother,
    Field::NextIdentifier,
    Field::Opened,
    Field::Resent,
    Field::Answered,
    Field::GivenUp,
    Field::Unused,
];

const LONE_FIELDS: [Field; 21] = [
    Field::Number,
    Field::ApCount,
    Field::Timeout,
    Field::ResendLimit,
    Field::RowCount,
    Field::RowSequence,
    Field::RowFirstOctet,
    Field::RowContextLen,
    Field::RowStationOfAnother,
    Field::MoveCount,
    Field::MoveSequence,
    Field::MoveOld,
    Field::MoveTicksLeft,
    Field::MoveResendsLeft,
    Field::MoveOfAnother,
    Field::NextIdentifier,
    Field::Opened,
    Field::Resent,
    Field::Answered,
    Field::GivenUp,
    Field::Unused,
];

/// A count or length: at a limit, past it, or such that its low bits alone are within it.
fn length(numbers: &mut Xorshift, limit: u64) -> u64 {
    match numbers.below(12) {
        0 => limit,
        1 => limit + 1,
        2 => 255,
        3 => 256,
        4 => 256 + 3,
        5 => 65536 + 1,
        6 => 1 << 32,
        7 => (1 << 40) + 2,
        8 => 1 << 63,
        9 => u64::MAX,
        _ => numbers.below(limit as usize + 1) as u64,
    }
}

fn value(numbers: &mut Xorshift, field: Field, ap_count: u8) -> u64 {
    let any = |numbers: &mut Xorshift, limit: usize| numbers.below(limit) as u64;
    match field {
        Field::ApCount => [0, 1, 2, 3, 4, 5, 6, 7, 8, 9, 128, 255][numbers.below(12)],
        Field::Timeout => [0, 0, 1, 65535][numbers.below(4)],
        Field::ResendLimit | Field::MoveResendsLeft => [0, 7, 8, 9, 128, 255][numbers.below(6)],
        Field::Number | Field::PacketFrom | Field::PacketTo | Field::MoveOld => {
            match numbers.below(4) {
                0 => u64::from(ap_count),
                1 => 255,
                _ => any(numbers, 8),
            }
        }
        Field::PacketCount => length(numbers, 64),
        Field::PacketLen => match numbers.below(3) {
            0 => any(numbers, 20),
            _ => length(numbers, 82),
        },
        Field::PacketOctet => match numbers.below(3) {
            0 => any(numbers, 256),
            _ => any(numbers, 3),
        },
        Field::RowCount => length(numbers, 16),
        Field::RowContextLen => length(numbers, 64),
        Field::MoveCount => length(numbers, 8),
        Field::RowSequence | Field::MoveSequence => {
            [0, 2047, 4094, 4095, 4096, 4097, 32768, 65535][numbers.below(8)]
        }
        Field::MoveTicksLeft => [0, 0, 1, 2, 65535][numbers.below(5)],
        Field::RowFirstOctet => any(numbers, 256),
        Field::RowStationOfAnother | Field::MoveOfAnother => any(numbers, 16),
        Field::NextIdentifier => 65530 + any(numbers, 6),
        Field::Opened | Field::Resent | Field::Answered | Field::GivenUp => {
            u64::from(u32::MAX) - any(numbers, 3)
        }
        Field::Unused => any(numbers, 1 << 32),
    }
}

fn slot(numbers: &mut Xorshift, used: usize) -> usize {
    match numbers.below(10) {
        0 => numbers.below(64),
        _ => numbers.below(used.max(1)),
    }
}

fn any_of(numbers: &mut Xorshift, fields: &[Field], ap_count: u8, used: [u8; 3]) -> Edit {
    let field = fields[numbers.below(fields.len())];
    let [rows, moves, packets] = used.map(usize::from);
    let slot = match field {
        Field::RowSequence
        | Field::RowFirstOctet
        | Field::RowContextLen
        | Field::RowStationOfAnother => slot(numbers, rows),
        Field::MoveSequence
        | Field::MoveOld
        | Field::MoveTicksLeft
        | Field::MoveResendsLeft
        | Field::MoveOfAnother => slot(numbers, moves),
        _ => slot(numbers, packets),
    };
    Edit {
        field,
        ap: numbers.below(usize::from(ap_count.clamp(1, 8))),
        slot,
        value: value(numbers, field, ap_count),
    }
}

/// Any edit of a floor with so many rows and moves at its fullest AP, and so many packets.
pub fn of_floor(numbers: &mut Xorshift, ap_count: u8, used: [u8; 3]) -> Edit {
    any_of(numbers, &FLOOR_FIELDS, ap_count, used)
}

pub fn of_lone(numbers: &mut Xorshift, ap_count: u8, used: [u8; 2]) -> Edit {
    any_of(numbers, &LONE_FIELDS, ap_count, [used[0], used[1], 0])
}

fn fill(octets: &mut [u8], numbers: &mut Xorshift) {
    octets.fill_with(|| numbers.below(256) as u8);
}

fn fill_point(point: &mut AccessPoint, numbers: &mut Xorshift) {
    for (at, row) in point.associations.items.iter_mut().enumerate() {
        if at >= point.associations.count {
            fill(&mut row.station, numbers);
            row.sequence = numbers.below(65536) as u16;
            row.context_len = length(numbers, 64) as usize;
            fill(&mut row.context, numbers);
        } else if let Some(unused) = row.context.get_mut(row.context_len..) {
            fill(unused, numbers);
        }
    }
    for open in point.moves.items.iter_mut().skip(point.moves.count) {
        fill(&mut open.station, numbers);
        open.sequence = numbers.below(65536) as u16;
        open.old = numbers.below(256) as u8;
        open.identifier = numbers.below(65536) as u16;
        open.ticks_left = numbers.below(65536) as u16;
        open.resends_left = numbers.below(256) as u8;
    }
}

fn edit_point(point: &mut AccessPoint, edit: &Edit) {
    let Edit {
        field, slot, value, ..
    } = *edit;
    let rows = &mut point.associations;
    let moves = &mut point.moves;
    let another = value as usize;
    match field {
        Field::RowCount => rows.count = value as usize,
        Field::RowSequence => rows.items[slot % 16].sequence = value as u16,
        Field::RowFirstOctet => rows.items[slot % 16].station[0] = value as u8,
        Field::RowContextLen => rows.items[slot % 16].context_len = value as usize,
        Field::RowStationOfAnother => {
            rows.items[slot % 16].station = rows.items[another % 16].station;
        }
        Field::MoveCount => moves.count = value as usize,
        Field::MoveSequence => moves.items[slot % 8].sequence = value as u16,
        Field::MoveOld => moves.items[slot % 8].old = value as u8,
        Field::MoveTicksLeft => moves.items[slot % 8].ticks_left = value as u16,
        Field::MoveResendsLeft => moves.items[slot % 8].resends_left = value as u8,
        Field::MoveOfAnother => moves.items[slot % 8] = moves.items[another % 8],
        Field::NextIdentifier => point.next_identifier = value as u16,
        Field::Opened => point.opened = value as u32,
        Field::Resent => point.resent = value as u32,
        Field::Answered => point.answered = value as u32,
        Field::GivenUp => point.given_up = value as u32,
        _ => {}
    }
}

fn fill_packet(packet: &mut InFlight, numbers: &mut Xorshift) {
    packet.from = numbers.below(256) as u8;
    packet.to = numbers.below(256) as u8;
    packet.len = length(numbers, 82) as usize;
    fill(&mut packet.octets, numbers);
}

impl Edit {
    pub fn write_floor(&self, network: &mut Network) {
        let value = self.value;
        let packet = &mut network.in_flight.items[self.slot % 64];
        match self.field {
            Field::ApCount => network.ap_count = value as u8,
            Field::Timeout => network.timeout = value as u16,
            Field::ResendLimit => network.resend_limit = value as u8,
            Field::PacketCount => network.in_flight.count = value as usize,
            Field::PacketFrom => packet.from = value as u8,
            Field::PacketTo => packet.to = value as u8,
            Field::PacketLen => packet.len = value as usize,
            Field::PacketOctet => packet.octets[self.slot * 7 % 18] = value as u8,
            Field::Unused => {
                let mut numbers = Xorshift::new(value);
                for (at, point) in network.points.iter_mut().enumerate() {
                    if at >= usize::from(network.ap_count) {
                        point.associations.count = length(&mut numbers, 16) as usize;
                        point.moves.count = length(&mut numbers, 8) as usize;
                        point.opened = value as u32;
                    }
                    fill_point(point, &mut numbers);
                }
                for (at, packet) in network.in_flight.items.iter_mut().enumerate() {
                    if at >= network.in_flight.count {
                        fill_packet(packet, &mut numbers);
                    } else if let Some(unused) = packet.octets.get_mut(packet.len..) {
                        fill(unused, &mut numbers);
                    }
                }
            }
            _ => edit_point(&mut network.points[self.ap % 8], self),
        }
    }

    pub fn write_lone(&self, lone: &mut LoneAccessPoint) {
        match self.field {
            Field::Number => lone.number = self.value as u8,
            Field::ApCount => lone.ap_count = self.value as u8,
            Field::Timeout => lone.timeout = self.value as u16,
            Field::ResendLimit => lone.resend_limit = self.value as u8,
            Field::Unused => fill_point(&mut lone.point, &mut Xorshift::new(self.value)),
            _ => edit_point(&mut lone.point, self),
        }
    }
}

#[cfg(test)]
mod tests {
    use super::*;

    #[test]
    fn every_field_is_written() {
        for field in FLOOR_FIELDS {
            let mut network = Network::BLANK;
            network.points[0].associations.items[1].station = [2; 6];
            network.points[0].moves.items[1].station = [2; 6];
            let before = network.clone();
            let value = if field == Field::RowStationOfAnother || field == Field::MoveOfAnother {
                1
            } else {
                200
            };
            let edit = Edit {
                field,
                ap: 0,
                slot: 0,
                value,
            };
            edit.write_floor(&mut network);
            assert_ne!(network, before, "{field:?}");
        }
        for field in LONE_FIELDS {
            let mut lone = LoneAccessPoint::BLANK;
            lone.point.associations.items[1].station = [2; 6];
            lone.point.moves.items[1].station = [2; 6];
            let before = lone.clone();
            let value = if field == Field::RowStationOfAnother || field == Field::MoveOfAnother {
                1
            } else {
                200
            };
            let edit = Edit {
                field,
                ap: 0,
                slot: 0,
                value,
            };
            edit.write_lone(&mut lone);
            assert_ne!(lone, before, "{field:?}");
        }
    }
}
