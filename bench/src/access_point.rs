//! One access point: its record and its rules.
//!
//! What a record does not use is zero from set-up on: a slot that becomes free is blanked, and so are the octets of a
//! context behind its length. A slot that was free before a call and is free after it keeps what it holds.

use crate::packet::{Command, Packet, LONGEST_CONTEXT, STALE_MOVE, SUCCESSFUL};
use crate::sequence::{self, newer};
use crate::{Refusal, Station};

pub const MOST_ROWS: usize = 16;
pub const MOST_MOVES: usize = 8;
pub const MOST_RESENDS: u8 = 7;

#[derive(Clone, Copy, Debug, PartialEq, Eq)]
pub struct Row {
    pub station: Station,
    pub sequence: u16,
    pub context_length: u8,
    pub context: [u8; LONGEST_CONTEXT],
}

impl Row {
    pub const NONE: Row = Row {
        station: [0; 6],
        sequence: 0,
        context_length: 0,
        context: [0; LONGEST_CONTEXT],
    };

    pub fn context(&self) -> &[u8] {
        &self.context[..usize::from(self.context_length)]
    }

    fn set_context(&mut self, context: &[u8]) {
        let (used, unused) = self.context.split_at_mut(context.len());
        used.copy_from_slice(context);
        unused.fill(0);
        self.context_length = context.len() as u8;
    }
}

#[derive(Clone, Copy, Debug, PartialEq, Eq)]
pub struct Move {
    pub station: Station,
    pub sequence: u16,
    pub old: u8,
    pub identifier: u16,
    pub ticks_left: u16,
    pub resends_left: u8,
}

impl Move {
    pub const NONE: Move = Move {
        station: [0; 6],
        sequence: 0,
        old: 0,
        identifier: 0,
        ticks_left: 0,
        resends_left: 0,
    };

    /// Its MOVE-notify, the same each time.
    pub fn notice(&self) -> Packet<'static> {
        Packet {
            command: Command::MoveNotify,
            identifier: self.identifier,
            status: 0,
            station: self.station,
            sequence: self.sequence,
            context: &[],
        }
    }
}

/// Whether two rows have the same station. Stations are compared as numbers, side by side in an array of their own.
fn has_equal_stations(rows: &[Row]) -> bool {
    let mut numbers = [0; MOST_ROWS];
    for (number, row) in numbers.iter_mut().zip(rows) {
        let [a, b, c, d, e, f] = row.station;
        *number = u64::from_be_bytes([0, 0, a, b, c, d, e, f]);
    }
    (1..rows.len().min(MOST_ROWS)).any(|at| {
        let (earlier, number) = (&numbers[..at], numbers[at]);
        earlier
            .iter()
            .fold(false, |found, &other| found | (other == number))
    })
}

/// Where a joining station was before.
#[derive(Clone, Copy, Debug, PartialEq, Eq)]
pub enum Old {
    /// Nowhere, or at an AP that is not on the floor.
    Unknown,
    Here,
    Other(u8),
}

impl Old {
    /// By the number that a join gives, at AP `at` of `ap_count`.
    pub fn of(old: Option<u32>, at: u8, ap_count: u8) -> Old {
        match old {
            Some(old) if old == u32::from(at) => Old::Here,
            Some(old) if old < u32::from(ap_count) => Old::Other(old as u8),
            _ => Old::Unknown,
        }
    }
}

/// What a join sends.
#[derive(Clone, Copy, Debug, PartialEq, Eq)]
pub enum Sending {
    Nothing,
    /// To every other AP of the floor.
    Announcement(Packet<'static>),
    Notice {
        old: u8,
        packet: Packet<'static>,
    },
}

#[derive(Clone, Copy, Debug)]
pub struct Join<'a> {
    pub station: Station,
    pub sequence: u16,
    pub old: Old,
    pub context: &'a [u8],
}

#[derive(Clone, Debug, PartialEq, Eq)]
pub struct AccessPoint {
    pub row_count: u8,
    pub rows: [Row; MOST_ROWS],
    pub move_count: u8,
    pub moves: [Move; MOST_MOVES],
    pub next_identifier: u16,
    pub opened: u32,
    pub resent: u32,
    pub answered: u32,
    pub given_up: u32,
}

impl AccessPoint {
    pub const EMPTY: AccessPoint = AccessPoint {
        row_count: 0,
        rows: [Row::NONE; MOST_ROWS],
        move_count: 0,
        moves: [Move::NONE; MOST_MOVES],
        next_identifier: 0,
        opened: 0,
        resent: 0,
        answered: 0,
        given_up: 0,
    };

    pub fn rows(&self) -> &[Row] {
        &self.rows[..usize::from(self.row_count)]
    }

    pub fn moves(&self) -> &[Move] {
        &self.moves[..usize::from(self.move_count)]
    }

    /// Whether refusal 14 does not apply to this record, on a floor of `ap_count` APs.
    pub fn is_valid(&self, ap_count: u8) -> bool {
        if usize::from(self.row_count) > MOST_ROWS || usize::from(self.move_count) > MOST_MOVES {
            return false;
        }
        let rows = self.rows();
        let row_is_valid = |row: &Row| {
            row.sequence <= sequence::LAST && usize::from(row.context_length) <= LONGEST_CONTEXT
        };
        let move_is_valid = |open: &Move| {
            open.sequence <= sequence::LAST
                && open.old < ap_count
                && open.ticks_left >= 1
                && open.resends_left <= MOST_RESENDS
        };
        rows.iter().all(row_is_valid)
            && !has_equal_stations(rows)
            && self.moves().iter().all(move_is_valid)
    }

    pub fn find(&self, station: Station) -> Option<usize> {
        self.rows().iter().position(|row| row.station == station)
    }

    fn remove_row(&mut self, at: usize) {
        self.rows
            .copy_within(at + 1..usize::from(self.row_count), at);
        self.row_count -= 1;
        self.rows[usize::from(self.row_count)] = Row::NONE;
    }

    fn remove_move(&mut self, at: usize) {
        self.moves
            .copy_within(at + 1..usize::from(self.move_count), at);
        self.move_count -= 1;
        self.moves[usize::from(self.move_count)] = Move::NONE;
    }

    fn take_identifier(&mut self) -> u16 {
        let identifier = self.next_identifier;
        self.next_identifier = identifier.wrapping_add(1);
        identifier
    }

    /// Whether a join is accepted whose AP number and station were: 7, 9, 15, 16, 17. Returns the place of the station's row.
    pub fn admit(&self, join: &Join) -> Result<Option<usize>, Refusal> {
        if join.sequence > sequence::LAST {
            return Err(Refusal::Sequence);
        }
        if join.context.len() > LONGEST_CONTEXT {
            return Err(Refusal::Context);
        }
        let found = self.find(join.station);
        match found {
            Some(at) if !newer(join.sequence, self.rows[at].sequence) => {
                return Err(Refusal::NotNewer)
            }
            None if usize::from(self.row_count) == MOST_ROWS => return Err(Refusal::RowsFull),
            _ => {}
        }
        if matches!(join.old, Old::Other(_)) && usize::from(self.move_count) == MOST_MOVES {
            return Err(Refusal::MovesFull);
        }
        Ok(found)
    }

    /// A join that was admitted, with the station's row at `found`.
    pub fn join(
        &mut self,
        join: &Join,
        found: Option<usize>,
        timeout: u16,
        resends: u8,
    ) -> Sending {
        let at = found.unwrap_or_else(|| {
            let last = usize::from(self.row_count);
            self.rows[last] = Row {
                station: join.station,
                ..Row::NONE
            };
            self.row_count += 1;
            last
        });
        self.rows[at].sequence = join.sequence;
        match join.old {
            Old::Here => Sending::Nothing,
            Old::Unknown => {
                self.rows[at].set_context(join.context);
                Sending::Announcement(Packet {
                    command: Command::AddNotify,
                    identifier: self.take_identifier(),
                    status: 0,
                    station: join.station,
                    sequence: join.sequence,
                    context: &[],
                })
            }
            Old::Other(old) => {
                let opened = Move {
                    station: join.station,
                    sequence: join.sequence,
                    old,
                    identifier: self.take_identifier(),
                    ticks_left: timeout,
                    resends_left: resends,
                };
                self.moves[usize::from(self.move_count)] = opened;
                self.move_count += 1;
                self.opened = self.opened.wrapping_add(1);
                Sending::Notice {
                    old,
                    packet: opened.notice(),
                }
            }
        }
    }

    pub fn leave(&mut self, station: Station) {
        if let Some(at) = self.find(station) {
            self.remove_row(at);
        }
    }

    /// How many notices the next tick sends again.
    pub fn due(&self) -> usize {
        self.moves()
            .iter()
            .filter(|open| open.ticks_left == 1 && open.resends_left > 0)
            .count()
    }

    /// One tick. `send` gets the old AP and the notice of each move that is sent again; returns how many were given up.
    pub fn tick(&mut self, timeout: u16, mut send: impl FnMut(u8, &Packet)) -> u8 {
        let mut given_up = 0;
        let mut at = 0;
        while at < usize::from(self.move_count) {
            let open = &mut self.moves[at];
            open.ticks_left -= 1;
            if open.ticks_left > 0 {
                at += 1;
            } else if open.resends_left > 0 {
                open.resends_left -= 1;
                open.ticks_left = timeout;
                send(open.old, &open.notice());
                self.resent = self.resent.wrapping_add(1);
                at += 1;
            } else {
                self.remove_move(at);
                self.given_up = self.given_up.wrapping_add(1);
                given_up += 1;
            }
        }
        given_up
    }

    /// A packet from `sender` is received. Its answer, if it has one, goes to `answer` before the record is changed; where
    /// `answer` refuses it the record stays.
    pub fn receive(
        &mut self,
        sender: u8,
        packet: &Packet,
        answer: impl FnOnce(&Packet) -> Result<(), Refusal>,
    ) -> Result<(), Refusal> {
        match packet.command {
            Command::AddNotify => {
                let found = self.find(packet.station);
                if let Some(at) = found.filter(|&at| newer(packet.sequence, self.rows[at].sequence))
                {
                    self.remove_row(at);
                }
            }
            Command::MoveNotify => {
                let found = self.find(packet.station);
                let older = found.filter(|&at| newer(packet.sequence, self.rows[at].sequence));
                let stale = found.is_some() && older.is_none();
                answer(&Packet {
                    command: Command::MoveResponse,
                    status: if stale { STALE_MOVE } else { SUCCESSFUL },
                    context: older.map_or(&[], |at| self.rows[at].context()),
                    ..*packet
                })?;
                if let Some(at) = older {
                    self.remove_row(at);
                }
            }
            Command::MoveResponse => {
                let closed = self.moves().iter().position(|open| {
                    open.identifier == packet.identifier
                        && open.station == packet.station
                        && open.sequence == packet.sequence
                        && open.old == sender
                });
                if let Some(closed) = closed {
                    self.remove_move(closed);
                    self.answered = self.answered.wrapping_add(1);
                    self.settle(packet);
                }
            }
        }
        Ok(())
    }

    /// What a MOVE-response that closed a move does to a row of its station numbered exactly as it is.
    fn settle(&mut self, packet: &Packet) {
        let found = self
            .find(packet.station)
            .filter(|&at| self.rows[at].sequence == packet.sequence);
        if let Some(at) = found {
            if packet.status == SUCCESSFUL {
                self.rows[at].set_context(packet.context);
            } else {
                self.remove_row(at);
            }
        }
    }
}
