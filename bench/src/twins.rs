//! The same record on both sides: the library's, and this crate's, in which counts and lengths are octets.

use crate::access_point::{AccessPoint, Move, Row};
use crate::alone::Alone;
use crate::floor::{Air, Floor, InFlight};
use crate::packet::Octets;
use skelmarith as linked;

/// A count or length as this crate's record has it. Whatever does not fit is far outside every limit, as 255 is.
fn octet(count: usize) -> u8 {
    u8::try_from(count).unwrap_or(u8::MAX)
}

fn row_of(row: &linked::Association) -> Row {
    Row {
        station: row.station,
        sequence: row.sequence,
        context_length: octet(row.context_len),
        context: row.context,
    }
}

fn move_of(open: &linked::Move) -> Move {
    Move {
        station: open.station,
        sequence: open.sequence,
        old: open.old,
        identifier: open.identifier,
        ticks_left: open.ticks_left,
        resends_left: open.resends_left,
    }
}

fn packet_of(packet: &linked::InFlight) -> InFlight {
    InFlight {
        sender: packet.from,
        receiver: packet.to,
        octets: Octets {
            length: octet(packet.len),
            octets: packet.octets,
        },
    }
}

fn point_of(point: &linked::AccessPoint) -> AccessPoint {
    AccessPoint {
        row_count: octet(point.associations.count),
        rows: std::array::from_fn(|at| row_of(&point.associations.items[at])),
        move_count: octet(point.moves.count),
        moves: std::array::from_fn(|at| move_of(&point.moves.items[at])),
        next_identifier: point.next_identifier,
        opened: point.opened,
        resent: point.resent,
        answered: point.answered,
        given_up: point.given_up,
    }
}

pub fn floor_of(network: &linked::Network) -> Floor {
    Floor {
        ap_count: network.ap_count,
        timeout: network.timeout,
        resends: network.resend_limit,
        points: std::array::from_fn(|at| point_of(&network.points[at])),
        air: Air {
            count: octet(network.in_flight.count),
            packets: std::array::from_fn(|at| packet_of(&network.in_flight.items[at])),
        },
    }
}

pub fn alone_of(lone: &linked::LoneAccessPoint) -> Alone {
    Alone {
        number: lone.number,
        ap_count: lone.ap_count,
        timeout: lone.timeout,
        resends: lone.resend_limit,
        point: point_of(&lone.point),
    }
}

/// Says `what` differs, unless the two sides are equal.
fn equal<T: PartialEq + std::fmt::Debug>(what: &str, library: T, here: T) -> Result<(), String> {
    if library == here {
        Ok(())
    } else {
        Err(format!("{what}: the library {library:?}, here {here:?}"))
    }
}

fn in_place<T>(place: &str, at: usize, result: Result<T, String>) -> Result<T, String> {
    result.map_err(|text| format!("{place} {at}, {text}"))
}

fn compare_point(point: &linked::AccessPoint, here: &AccessPoint) -> Result<(), String> {
    let rows = &point.associations;
    equal("count of rows", octet(rows.count), here.row_count)?;
    for (at, (row, here)) in rows.items.iter().zip(&here.rows).enumerate() {
        in_place("row", at, equal("row", row_of(row), *here))?;
    }
    equal("count of moves", octet(point.moves.count), here.move_count)?;
    for (at, (open, here)) in point.moves.items.iter().zip(&here.moves).enumerate() {
        in_place("move", at, equal("move", move_of(open), *here))?;
    }
    equal(
        "next identifier",
        point.next_identifier,
        here.next_identifier,
    )?;
    equal("opened", point.opened, here.opened)?;
    equal("resent", point.resent, here.resent)?;
    equal("answered", point.answered, here.answered)?;
    equal("given up", point.given_up, here.given_up)
}

pub fn compare_floor(network: &linked::Network, here: &Floor) -> Result<(), String> {
    equal("AP count", network.ap_count, here.ap_count)?;
    equal("T", network.timeout, here.timeout)?;
    equal("R", network.resend_limit, here.resends)?;
    for (at, (point, here)) in network.points.iter().zip(&here.points).enumerate() {
        in_place("AP", at, compare_point(point, here))?;
    }
    let air = &network.in_flight;
    equal("count in the air", octet(air.count), here.air.count)?;
    for (at, (packet, here)) in air.items.iter().zip(&here.air.packets).enumerate() {
        in_place("packet", at, equal("packet", packet_of(packet), *here))?;
    }
    Ok(())
}

pub fn compare_alone(lone: &linked::LoneAccessPoint, here: &Alone) -> Result<(), String> {
    equal("number", lone.number, here.number)?;
    equal("AP count", lone.ap_count, here.ap_count)?;
    equal("T", lone.timeout, here.timeout)?;
    equal("R", lone.resend_limit, here.resends)?;
    compare_point(&lone.point, &here.point)
}

fn kept<T: PartialEq>(
    what: &str,
    before: (&[T], usize),
    after: (&[T], usize),
) -> Result<(), String> {
    let used = before.1.max(after.1);
    match (used..before.0.len()).find(|&at| before.0[at] != after.0[at]) {
        Some(at) => Err(format!("unused {what} {at} was written")),
        None => Ok(()),
    }
}

/// Whether each slot that was unused before and is unused after a call holds what it held.
pub fn kept_point(before: &linked::AccessPoint, after: &linked::AccessPoint) -> Result<(), String> {
    let (rows, rows_after) = (&before.associations, &after.associations);
    kept(
        "row",
        (&rows.items, rows.count),
        (&rows_after.items, rows_after.count),
    )?;
    kept(
        "move",
        (&before.moves.items, before.moves.count),
        (&after.moves.items, after.moves.count),
    )
}

pub fn kept_floor(before: &linked::Network, after: &linked::Network) -> Result<(), String> {
    for (at, (before_point, point)) in before.points.iter().zip(&after.points).enumerate() {
        in_place("AP", at, kept_point(before_point, point))?;
        if at >= usize::from(before.ap_count) && before_point != point {
            return Err(format!("unused AP {at} was written"));
        }
    }
    let (air, air_after) = (&before.in_flight, &after.in_flight);
    kept(
        "packet",
        (&air.items, air.count),
        (&air_after.items, air_after.count),
    )
}

/// Whether nothing is left in what the record does not use, as it is from set-up on.
pub fn clean_point(point: &linked::AccessPoint) -> Result<(), String> {
    for (at, row) in point.associations.items.iter().enumerate() {
        let blank = if at < point.associations.count {
            row.context[row.context_len..]
                .iter()
                .all(|&octet| octet == 0)
        } else {
            *row == linked::Association::BLANK
        };
        if !blank {
            return Err(format!("row {at}: something is left in what is not used"));
        }
    }
    let unused = point.moves.items.iter().skip(point.moves.count);
    if unused.into_iter().any(|open| *open != linked::Move::BLANK) {
        return Err("something is left in an unused move".to_string());
    }
    Ok(())
}

pub fn clean_floor(network: &linked::Network) -> Result<(), String> {
    for (at, point) in network.points.iter().enumerate() {
        in_place("AP", at, clean_point(point))?;
        if at >= usize::from(network.ap_count) && *point != linked::AccessPoint::BLANK {
            return Err(format!("AP {at}: something is left in an unused AP"));
        }
    }
    for (at, packet) in network.in_flight.items.iter().enumerate() {
        let blank = if at < network.in_flight.count {
            packet.octets[packet.len..].iter().all(|&octet| octet == 0)
        } else {
            *packet == linked::InFlight::BLANK
        };
        if !blank {
            return Err(format!(
                "packet {at}: something is left in what is not used"
            ));
        }
    }
    Ok(())
}
