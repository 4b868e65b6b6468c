//! Lists of calls on one lent AP, with result, record and buffer compared after each.

use std::fmt;

use floor::alone::{Alone, Call, Done};
use floor::packet::{self, Command, Packet, LONGEST_CONTEXT};
use floor::xorshift::Xorshift;
use floor::{Refusal, Station};
use skelmarith::{LoneAccessPoint, Reply, NONE};

use crate::edits::{self, Edit, Field};
use crate::numbers;
use crate::packets::{self, hex, GUARD};
use crate::shortest::shortest;
use crate::stations::{context, octets, old, sequence, station};
use crate::tally::Tally;
use floor::twins::{alone_of, clean_point, compare_alone, kept_point};

const CALLS: u64 = 500_000;
const LONGEST_LIST: usize = 400;

const ROWS: &str = "16 rows";
const MOVES: &str = "8 moves";
const SEVEN: &str = "seven packets sent";
const RESENT: &str = "several notices sent again";
const GIVEN_UP: &str = "moves given up";
const ANSWERED: &str = "moves answered";
const IDENTIFIER: &str = "identifier from 65535 to 0";
const COUNTS: &str = "counts wrap";
const CONTEXT: &str = "answer with 64 octets of context";
const STALE: &str = "STALE_MOVE answered";
const RECORD: &str = "14 of a record";
const EDITED: &str = "accepted on a record that the caller wrote";

#[derive(Clone, Debug, PartialEq, Eq)]
enum Step {
    SetUp {
        number: u16,
        ap_count: u16,
        timeout: u16,
        resends: u16,
    },
    Join {
        station: Station,
        sequence: u16,
        old: Option<u32>,
        context: Vec<u8>,
        room: usize,
    },
    Leave {
        station: Station,
    },
    Tick {
        room: usize,
    },
    Outside {
        from: u16,
        packet: Vec<u8>,
        room: usize,
    },
    Who {
        station: Station,
    },
    Edit(Edit),
    Restore,
}

impl fmt::Display for Step {
    fn fmt(&self, f: &mut fmt::Formatter) -> fmt::Result {
        match self {
            Step::SetUp {
                number,
                ap_count,
                timeout,
                resends,
            } => write!(
                f,
                "set-up as AP {number} of {ap_count}, T {timeout}, R {resends}"
            ),
            Step::Join {
                station,
                sequence,
                old,
                context,
                room,
            } => write!(
                f,
                "join {} {sequence}, old {old:?}, context '{}', buffer of {room}",
                hex(station),
                hex(context)
            ),
            Step::Leave { station } => write!(f, "leave {}", hex(station)),
            Step::Tick { room } => write!(f, "tick, buffer of {room}"),
            Step::Outside { from, packet, room } => write!(
                f,
                "outside bytes from {from}: '{}', buffer of {room}",
                hex(packet)
            ),
            Step::Who { station } => write!(f, "who {}", hex(station)),
            Step::Edit(edit) => write!(f, "(the caller writes {edit:?})"),
            Step::Restore => write!(f, "(the caller puts the record before the last edits back)"),
        }
    }
}

impl Step {
    fn room(&self) -> usize {
        match self {
            Step::Join { room, .. } | Step::Tick { room } | Step::Outside { room, .. } => *room,
            _ => 0,
        }
    }

    fn act(&self, alone: &mut Alone, buffer: &mut [u8]) -> Option<Result<Done, Refusal>> {
        let call = match *self {
            Step::SetUp {
                number,
                ap_count,
                timeout,
                resends,
            } => {
                return Some(Alone::new(number, ap_count, timeout, resends).map(|new| {
                    *alone = new;
                    Done::default()
                }))
            }
            Step::Join {
                station,
                sequence,
                old,
                ref context,
                ..
            } => Call::Join {
                station,
                sequence,
                old,
                context,
            },
            Step::Leave { station } => Call::Leave { station },
            Step::Tick { .. } => Call::Tick,
            Step::Outside {
                from, ref packet, ..
            } => Call::Outside {
                from,
                octets: packet,
            },
            Step::Who { station } => Call::Who { station },
            Step::Edit(_) | Step::Restore => return None,
        };
        Some(alone.call(&call, buffer))
    }

    fn call(&self, lone: &mut LoneAccessPoint, buffer: &mut [u8]) -> Option<Reply> {
        Some(match *self {
            Step::SetUp {
                number,
                ap_count,
                timeout,
                resends,
            } => lone.set_up(number, ap_count, timeout, resends),
            Step::Join {
                ref station,
                sequence,
                old,
                ref context,
                ..
            } => lone.join(buffer, station, sequence, old.unwrap_or(NONE), context),
            Step::Leave { ref station } => lone.leave(station),
            Step::Tick { .. } => lone.tick(buffer),
            Step::Outside {
                from, ref packet, ..
            } => lone.outside(buffer, from, packet),
            Step::Who { ref station } => lone.who(station),
            Step::Edit(_) | Step::Restore => return None,
        })
    }
}

fn reply_of(result: Result<Done, Refusal>) -> Reply {
    match result {
        Ok(done) => Reply {
            answer: 0,
            sent: done.sent,
            given_up: done.given_up,
            held: u8::from(done.held),
            to: done.to,
            len: done.length,
        },
        Err(refusal) => Reply {
            answer: refusal.number(),
            ..Reply::default()
        },
    }
}

/// An AP on both sides.
struct Pair {
    lone: LoneAccessPoint,
    alone: Alone,
    saved: Option<(LoneAccessPoint, bool)>,
    clean: bool,
    edited: Option<Field>,
}

impl Pair {
    fn new() -> Pair {
        Pair {
            lone: LoneAccessPoint::BLANK,
            alone: alone_of(&LoneAccessPoint::BLANK),
            saved: None,
            clean: false,
            edited: None,
        }
    }

    fn step(&mut self, step: &Step, tally: &mut Tally) -> Result<(), String> {
        match step {
            Step::Edit(edit) => {
                if self.saved.is_none() {
                    self.saved = Some((self.lone.clone(), self.clean));
                }
                edit.write_lone(&mut self.lone);
                self.alone = alone_of(&self.lone);
                self.clean = false;
                self.edited = Some(edit.field);
                return Ok(());
            }
            Step::Restore => {
                if let Some((lone, clean)) = self.saved.take() {
                    self.lone = lone;
                    self.alone = alone_of(&self.lone);
                    self.clean = clean;
                }
                return Ok(());
            }
            _ => {}
        }
        let before = self.lone.clone();
        let alone_before = self.alone.clone();
        let room = step.room();
        let mut library_buffer: Vec<u8> = (0..room + 2 * GUARD).map(|at| !(at as u8)).collect();
        let mut buffer = library_buffer.clone();
        let (Some(library), Some(here)) = (
            step.call(&mut self.lone, &mut library_buffer[GUARD..GUARD + room]),
            step.act(&mut self.alone, &mut buffer[GUARD..GUARD + room]),
        ) else {
            return Ok(());
        };
        let here = reply_of(here);
        tally.count += 1;
        tally.answer(library.answer);
        if library != here {
            return Err(format!("the library answers {library:?}, here {here:?}"));
        }
        if library_buffer != buffer {
            return Err(format!(
                "the buffer, with {GUARD} octets on both sides: the library\n{}\nhere\n{}",
                hex(&library_buffer),
                hex(&buffer)
            ));
        }
        compare_alone(&self.lone, &self.alone)?;
        if library.answer != 0 && self.lone != before {
            return Err("refused, and the record was changed".to_string());
        }
        let is_set_up = matches!(step, Step::SetUp { .. });
        if is_set_up && library.answer == 0 {
            self.clean = true;
            self.saved = None;
        } else {
            kept_point(&before.point, &self.lone.point)?;
        }
        if self.clean {
            clean_point(&self.lone.point)?;
        }
        tally.mark(RECORD, here.answer == 14 && !is_set_up);
        if let Some(cause) = self.edited.and_then(Field::refused) {
            tally.mark(cause, here.answer == 14 && !is_set_up);
        }
        if here.answer == 0 && !is_set_up {
            self.reached(&alone_before, &here, &buffer[GUARD..], tally);
        }
        Ok(())
    }

    fn reached(&self, before: &Alone, reply: &Reply, sent: &[u8], tally: &mut Tally) {
        let (before, after) = (&before.point, &self.alone.point);
        tally.mark(EDITED, !self.clean);
        tally.mark(ROWS, after.row_count == 16);
        tally.mark(MOVES, after.move_count == 8);
        tally.mark(SEVEN, reply.sent == 7 && reply.len == 112);
        tally.mark(
            RESENT,
            reply.sent > 1 && reply.len == 18 * usize::from(reply.sent),
        );
        tally.mark(GIVEN_UP, reply.given_up > 0);
        tally.mark(ANSWERED, after.answered != before.answered);
        tally.mark(
            IDENTIFIER,
            before.next_identifier == 65535 && after.next_identifier == 0,
        );
        tally.mark(
            COUNTS,
            after.opened < before.opened
                || after.resent < before.resent
                || after.answered < before.answered
                || after.given_up < before.given_up,
        );
        let answer = reply.len > 0 && sent[1] == Command::MoveResponse as u8;
        tally.mark(CONTEXT, answer && reply.len == packet::LONGEST);
        tally.mark(STALE, answer && sent[7] == packet::STALE_MOVE);
    }
}

struct Source {
    numbers: Xorshift,
    /// Edits in a thousand steps.
    edits: usize,
    moving: bool,
    planned: Vec<Step>,
}

impl Source {
    fn new(mut numbers: Xorshift, list: u64) -> Source {
        let mut planned = vec![set_up(&mut numbers, false)];
        if numbers.chance(40) {
            for field in [
                Field::NextIdentifier,
                Field::Opened,
                Field::Resent,
                Field::Answered,
                Field::GivenUp,
            ] {
                let last = if field == Field::NextIdentifier {
                    u64::from(u16::MAX)
                } else {
                    u64::from(u32::MAX)
                };
                planned.push(edit(field, last - numbers.below(3) as u64));
            }
        }
        if numbers.chance(25) {
            planned.push(edit(Field::Unused, numbers.below(1 << 32) as u64));
        }
        planned.reverse();
        Source {
            numbers,
            edits: [0, 0, 100][list as usize % 3],
            moving: list.is_multiple_of(2),
            planned,
        }
    }

    fn next(&mut self, alone: &Alone) -> Step {
        if let Some(step) = self.planned.pop() {
            return step;
        }
        match self.numbers.below(1000) {
            0..=2 => return set_up(&mut self.numbers, true),
            other if other < self.edits => return self.edit(alone),
            _ => {}
        }
        self.call(alone)
    }

    fn edit(&mut self, alone: &Alone) -> Step {
        let used = [alone.point.row_count, alone.point.move_count];
        let edit = edits::of_lone(&mut self.numbers, alone.ap_count, used);
        if edit.field != Field::Unused || self.numbers.chance(20) {
            self.planned.push(Step::Restore);
            for _ in 0..1 + self.numbers.below(3) {
                let call = self.call(alone);
                self.planned.push(call);
            }
        }
        Step::Edit(edit)
    }

    fn call(&mut self, alone: &Alone) -> Step {
        const STATIONS: usize = 24;
        let numbers = &mut self.numbers;
        let usable = usize::from(alone.point.row_count) <= alone.point.rows.len()
            && usize::from(alone.point.move_count) <= alone.point.moves.len();
        let point = Some(&alone.point).filter(|_| usable);
        match numbers.below(100) {
            0..=39 => {
                let station = station(numbers, STATIONS);
                let number = u16::from(alone.number);
                let old = if self.moving && numbers.chance(60) {
                    Some(numbers.below(usize::from(alone.ap_count.clamp(1, 8))) as u32)
                } else {
                    old(numbers, alone.ap_count, number, None)
                };
                Step::Join {
                    station,
                    sequence: sequence(numbers, point, station),
                    old,
                    context: context(numbers),
                    room: room(numbers, 112),
                }
            }
            40..=43 => Step::Leave {
                station: station(numbers, STATIONS),
            },
            44..=57 => {
                let due = point.map_or(0, |point| 18 * point.due());
                Step::Tick {
                    room: match numbers.below(4) {
                        0 => due.saturating_sub(1),
                        1 => due,
                        _ => room(numbers, 144),
                    },
                }
            }
            58..=62 => Step::Who {
                station: station(numbers, STATIONS),
            },
            _ => self.outside(alone, usable),
        }
    }

    /// Bytes from outside: an answer to an open move, a notice or an announcement of a station that is there, or anything.
    fn outside(&mut self, alone: &Alone, usable: bool) -> Step {
        let numbers = &mut self.numbers;
        let (rows, moves) = if usable {
            (alone.point.rows(), alone.point.moves())
        } else {
            (&[][..], &[][..])
        };
        let mut from = numbers.below(usize::from(alone.ap_count.clamp(1, 8))) as u16;
        let length = match numbers.below(3) {
            0 => numbers.below(LONGEST_CONTEXT + 1),
            1 => LONGEST_CONTEXT,
            _ => 0,
        };
        let context = octets(numbers, length);
        let mut fields = Packet {
            command: packets::command(numbers),
            identifier: numbers.below(65536) as u16,
            status: numbers.below(2) as u8,
            station: station(numbers, 24),
            sequence: numbers.below(4096) as u16,
            context: &context,
        };
        if let (Command::MoveResponse, false) = (fields.command, moves.is_empty()) {
            let open = moves[numbers.below(moves.len())];
            fields.identifier = open.identifier;
            fields.station = open.station;
            fields.sequence = open.sequence;
            from = u16::from(open.old);
            // One in five misses the move by one field.
            match numbers.below(20) {
                0 => fields.identifier ^= 1,
                1 => fields.station[5] ^= 1,
                2 => fields.sequence ^= 1,
                3 => from ^= 1,
                _ => {}
            }
        } else if !rows.is_empty() && numbers.chance(80) {
            let row = rows[numbers.below(rows.len())];
            fields.station = row.station;
            let steps = [1, 1, 1, 2, 2047, 2048, 2049, 0, 4095][numbers.below(9)];
            fields.sequence = (row.sequence % 4096 + steps) % 4096;
        }
        fields.sequence %= 4096;
        let mut written = [0; packet::LONGEST];
        let length = packet::write(&fields, &mut written).expect("within the limits");
        let mut packet = written[..length].to_vec();
        match numbers.below(20) {
            0..=1 => packets::damage(&mut packet, numbers),
            2 => packet = packets::any(numbers),
            3 => packet.resize(length + numbers.below(20), 0xff),
            _ => {}
        }
        match numbers.below(40) {
            0 => from = u16::from(alone.number),
            1 => from = u16::from(alone.ap_count),
            2 => from += 256,
            3 => from = numbers.below(65536) as u16,
            _ => {}
        }
        let row = rows.iter().find(|row| row.station == fields.station);
        let answer = 18 + row.map_or(0, |row| row.context().len());
        Step::Outside {
            from,
            packet,
            room: match numbers.below(5) {
                0 => answer,
                1 => answer - 1,
                _ => room(numbers, 82),
            },
        }
    }
}

fn edit(field: Field, value: u64) -> Step {
    Step::Edit(Edit {
        field,
        ap: 0,
        slot: 0,
        value,
    })
}

/// The length of a buffer: mostly enough, else at or below the lengths that packets have.
fn room(numbers: &mut Xorshift, enough: usize) -> usize {
    match numbers.below(10) {
        0 => [0, 15, 16, 17, 18, 19, 31, 32, 35, 36][numbers.below(10)],
        1 => numbers.below(enough + 1),
        2 => enough - 1,
        3 => enough + numbers.below(40),
        _ => enough,
    }
}

fn set_up(numbers: &mut Xorshift, any: bool) -> Step {
    if any && numbers.chance(70) {
        const REFUSED: [[u16; 4]; 9] = [
            [0, 0, 1, 0],
            [0, 9, 1, 0],
            [0, 256, 1, 0],
            [0, 258, 1, 0],
            [0, 2, 0, 0],
            [0, 2, 1, 8],
            [0, 2, 1, 256],
            [2, 2, 1, 0],
            [257, 2, 1, 0],
        ];
        let [number, ap_count, timeout, resends] = REFUSED[numbers.below(REFUSED.len())];
        return Step::SetUp {
            number,
            ap_count,
            timeout,
            resends,
        };
    }
    let ap_count = match numbers.below(3) {
        0 => 8,
        _ => 1 + numbers.below(8),
    };
    Step::SetUp {
        number: numbers.below(ap_count) as u16,
        ap_count: ap_count as u16,
        timeout: match numbers.below(20) {
            0 => 65535,
            _ => 1 + numbers.below(8) as u16,
        },
        resends: numbers.below(8) as u16,
    }
}

fn new_tally() -> Tally {
    let mut marks = vec![
        ROWS, MOVES, SEVEN, RESENT, GIVEN_UP, ANSWERED, IDENTIFIER, COUNTS, CONTEXT, STALE, RECORD,
        EDITED,
    ];
    marks.extend(&edits::REFUSED[..4]);
    marks.extend(&edits::REFUSED[9..]);
    Tally::new(
        "calls on one lent AP",
        "calls and set-ups",
        &[0, 1, 2, 3, 4, 5, 6, 7, 8, 9, 10, 11, 13, 14, 15, 16, 17],
        &marks,
    )
}

fn run(steps: &[Step], tally: &mut Tally) -> Result<(), (usize, String)> {
    let mut pair = Pair::new();
    for (at, step) in steps.iter().enumerate() {
        pair.step(step, tally).map_err(|text| (at, text))?;
    }
    Ok(())
}

fn describe(seed: u64, list: u64, steps: &[Step]) -> String {
    let differs = |steps: &[Step]| run(steps, &mut new_tally()).is_err();
    let steps = shortest(steps, differs);
    let mut text = format!(
        "seed {seed}, list {list}; {} steps, the shortest list found:\n",
        steps.len()
    );
    for step in &steps {
        text += &format!("  {step}\n");
    }
    if let Err((at, difference)) = run(&steps, &mut new_tally()) {
        text += &format!("after step {}: {difference}", at + 1);
    }
    text
}

pub fn compare(seed: u64, factor: u64) -> Tally {
    let mut tally = new_tally();
    let mut list = 0;
    while tally.count < CALLS * factor {
        let mut source = Source::new(numbers(seed, 4, list), list);
        let length = LONGEST_LIST / 10 + source.numbers.below(LONGEST_LIST);
        let mut pair = Pair::new();
        let mut steps = Vec::with_capacity(length);
        for _ in 0..length {
            steps.push(source.next(&pair.alone));
            let last = &steps[steps.len() - 1];
            if pair.step(last, &mut tally).is_err() {
                tally.differs(describe(seed, list, &steps));
                return tally;
            }
        }
        list += 1;
    }
    tally
}
