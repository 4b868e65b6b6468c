//! Lists of events on a lent floor, with the whole record compared after each.

use std::fmt;

use floor::floor::{MOST_PACKETS, MOST_POINTS};
use floor::sequence::newer;
use floor::xorshift::Xorshift;
use floor::{Event, Floor, Refusal, Reply, Station};
use skelmarith::{Line, Network, NONE};

use crate::edits::{self, Edit, Field};
use crate::numbers;
use crate::packets::hex;
use crate::shortest::shortest;
use crate::stations::{context, old, point_number, sequence, station};
use crate::tally::Tally;
use floor::twins::{clean_floor, compare_floor, floor_of, kept_floor};

const EVENTS: u64 = 600_000;
const LONGEST_LIST: usize = 600;

const ROWS: &str = "16 rows";
const MOVES: &str = "8 moves";
const AIR: &str = "64 in the air";
const LOST: &str = "packets lost in a full air";
const IDENTIFIER: &str = "identifier from 65535 to 0";
const COUNTS: [&str; 4] = [
    "opened wraps",
    "resent wraps",
    "answered wraps",
    "given up wraps",
];
const SEQUENCE: &str = "join over 4095";
const RECORD: &str = "14 of a record";
const EDITED: &str = "accepted on a record that the caller wrote";
const WHO: &str = "who with tables";

#[derive(Clone, Debug, PartialEq, Eq)]
pub enum Step {
    SetUp {
        ap_count: u16,
        timeout: u16,
        resends: u16,
    },
    Join {
        at: u16,
        station: Station,
        sequence: u16,
        old: Option<u32>,
        context: Vec<u8>,
    },
    Leave {
        at: u16,
        station: Station,
    },
    Deliver {
        packet: u16,
    },
    Repeat {
        packet: u16,
    },
    Lose {
        packet: u16,
    },
    Tick {
        at: u16,
    },
    Who {
        station: Station,
    },
    /// The caller writes the record.
    Edit(Edit),
    /// The caller puts back what the record was before the last edit.
    Restore,
}

impl fmt::Display for Step {
    /// As a line of a script, where it has one.
    fn fmt(&self, f: &mut fmt::Formatter) -> fmt::Result {
        let or_none = |text: String| {
            if text.is_empty() {
                "-".to_string()
            } else {
                text
            }
        };
        match self {
            Step::SetUp {
                ap_count,
                timeout,
                resends,
            } => write!(f, "(set-up {ap_count} {timeout} {resends})"),
            Step::Join {
                at,
                station,
                sequence,
                old,
                context,
            } => write!(
                f,
                "join {at} {} {sequence} {} {}",
                hex(station),
                or_none(old.map_or(String::new(), |old| old.to_string())),
                or_none(hex(context))
            ),
            Step::Leave { at, station } => write!(f, "leave {at} {} - - -", hex(station)),
            Step::Deliver { packet } => write!(f, "deliver {packet} - - - -"),
            Step::Repeat { packet } => write!(f, "repeat {packet} - - - -"),
            Step::Lose { packet } => write!(f, "lose {packet} - - - -"),
            Step::Tick { at } => write!(f, "tick {at} - - - -"),
            Step::Who { station } => write!(f, "who - {} - - -", hex(station)),
            Step::Edit(edit) => write!(f, "(the caller writes {edit:?})"),
            Step::Restore => write!(f, "(the caller puts the record before the last edits back)"),
        }
    }
}

impl Step {
    fn event(&self) -> Option<Event<'_>> {
        Some(match *self {
            Step::Join {
                at,
                station,
                sequence,
                old,
                ref context,
            } => Event::Join {
                at,
                station,
                sequence,
                old,
                context,
            },
            Step::Leave { at, station } => Event::Leave { at, station },
            Step::Deliver { packet } => Event::Deliver { packet },
            Step::Repeat { packet } => Event::Repeat { packet },
            Step::Lose { packet } => Event::Lose { packet },
            Step::Tick { at } => Event::Tick { at },
            Step::Who { station } => Event::Who { station },
            Step::SetUp { .. } | Step::Edit(_) | Step::Restore => return None,
        })
    }

    /// The step on this crate's floor alone; nothing for what the caller does.
    pub fn act(&self, floor: &mut Floor) -> Option<Result<Reply, Refusal>> {
        match *self {
            Step::SetUp {
                ap_count,
                timeout,
                resends,
            } => Some(Floor::new(ap_count, timeout, resends).map(|new| {
                *floor = new;
                Reply::default()
            })),
            _ => self.event().map(|event| floor.event(&event)),
        }
    }

    fn call(&self, network: &mut Network) -> Option<Line> {
        Some(match *self {
            Step::SetUp {
                ap_count,
                timeout,
                resends,
            } => network.set_up(ap_count, timeout, resends),
            Step::Join {
                at,
                ref station,
                sequence,
                old,
                ref context,
            } => network.join(at, station, sequence, old.unwrap_or(NONE), context),
            Step::Leave { at, ref station } => network.leave(at, station),
            Step::Deliver { packet } => network.deliver(packet),
            Step::Repeat { packet } => network.repeat(packet),
            Step::Lose { packet } => network.lose(packet),
            Step::Tick { at } => network.tick(at),
            Step::Who { ref station } => network.who(station),
            Step::Edit(_) | Step::Restore => return None,
        })
    }
}

fn line_of(result: Result<Reply, Refusal>) -> Line {
    match result {
        Ok(reply) => Line {
            answer: 0,
            sent: reply.sent,
            given_up: reply.given_up,
            held: reply.held,
            tables: reply.tables(),
        },
        Err(refusal) => Line {
            answer: refusal.number(),
            ..Line::default()
        },
    }
}

/// A floor on both sides.
struct Pair {
    network: Network,
    floor: Floor,
    /// The record before the last edits, and whether it was clean.
    saved: Option<(Network, bool)>,
    /// Whether nobody but the library has written the record since set-up.
    clean: bool,
    /// The field that the caller wrote last.
    edited: Option<Field>,
}

impl Pair {
    fn new() -> Pair {
        Pair {
            network: Network::BLANK,
            floor: floor_of(&Network::BLANK),
            saved: None,
            clean: false,
            edited: None,
        }
    }

    /// A step on both sides, with everything compared after it.
    fn step(&mut self, step: &Step, tally: &mut Tally) -> Result<(), String> {
        match step {
            Step::Edit(edit) => {
                if self.saved.is_none() {
                    self.saved = Some((self.network.clone(), self.clean));
                }
                edit.write_floor(&mut self.network);
                self.floor = floor_of(&self.network);
                self.clean = false;
                self.edited = Some(edit.field);
                return Ok(());
            }
            Step::Restore => {
                if let Some((network, clean)) = self.saved.take() {
                    self.network = network;
                    self.floor = floor_of(&self.network);
                    self.clean = clean;
                }
                return Ok(());
            }
            _ => {}
        }
        let before = self.network.clone();
        let floor_before = self.floor.clone();
        let (Some(library), Some(here)) = (step.call(&mut self.network), step.act(&mut self.floor))
        else {
            return Ok(());
        };
        let here = line_of(here);
        tally.count += 1;
        tally.answer(library.answer);
        if library != here {
            return Err(format!("the library answers {library:?}, here {here:?}"));
        }
        compare_floor(&self.network, &self.floor)?;
        if library.answer != 0 && self.network != before {
            return Err("refused, and the record was changed".to_string());
        }
        let is_set_up = matches!(step, Step::SetUp { .. });
        if is_set_up && library.answer == 0 {
            self.clean = true;
            self.saved = None;
        } else {
            kept_floor(&before, &self.network)?;
        }
        if self.clean {
            clean_floor(&self.network)?;
        }
        self.reached(step, &floor_before, here, tally);
        Ok(())
    }

    fn reached(&self, step: &Step, before: &Floor, line: Line, tally: &mut Tally) {
        let is_set_up = matches!(step, Step::SetUp { .. });
        tally.mark(RECORD, line.answer == 14 && !is_set_up);
        if let Some(cause) = self.edited.and_then(Field::refused) {
            tally.mark(cause, line.answer == 14 && !is_set_up);
        }
        if line.answer != 0 || is_set_up {
            return;
        }
        tally.mark(EDITED, !self.clean);
        tally.mark(WHO, line.tables > 0);
        let sent_to = usize::from(before.air.count) + usize::from(line.sent);
        tally.mark(
            LOST,
            sent_to > MOST_PACKETS && !matches!(step, Step::Deliver { .. }),
        );
        tally.mark(AIR, usize::from(self.floor.air.count) == MOST_PACKETS);
        if let Step::Join {
            at,
            station,
            sequence,
            ..
        } = step
        {
            let point = &before.points[usize::from(*at)];
            let over = point.find(*station).is_some_and(|row| {
                let number = point.rows[row].sequence;
                newer(*sequence, number) && *sequence < number
            });
            tally.mark(SEQUENCE, over);
        }
        let used = usize::from(before.ap_count).min(MOST_POINTS);
        for (before, after) in before.points.iter().zip(&self.floor.points).take(used) {
            tally.mark(ROWS, after.row_count == 16);
            tally.mark(MOVES, after.move_count == 8);
            tally.mark(
                IDENTIFIER,
                before.next_identifier == 65535 && after.next_identifier == 0,
            );
            let counts = [
                (before.opened, after.opened),
                (before.resent, after.resent),
                (before.answered, after.answered),
                (before.given_up, after.given_up),
            ];
            for (mark, (before, after)) in COUNTS.into_iter().zip(counts) {
                tally.mark(mark, after < before);
            }
        }
    }
}

/// How a list is made: which events are likely, and on what floor.
pub struct Mood {
    /// Of join, leave, deliver, repeat, lose, tick, who.
    weights: [usize; 7],
    stations: usize,
    /// Joins crowd round one AP.
    crowded: bool,
    /// Joins come from another AP.
    moving: bool,
    /// Edits and set-ups in a thousand steps.
    edits: usize,
    smallest_floor: usize,
    longest_timeout: usize,
}

const MOODS: [Mood; 6] = [
    // everything
    Mood {
        weights: [30, 4, 35, 5, 5, 12, 9],
        stations: 24,
        crowded: false,
        moving: false,
        edits: 0,
        smallest_floor: 1,
        longest_timeout: 9,
    },
    // full tables, and little is delivered
    Mood {
        weights: [70, 3, 8, 6, 3, 5, 5],
        stations: 40,
        crowded: true,
        moving: false,
        edits: 0,
        smallest_floor: 2,
        longest_timeout: 50,
    },
    // many moves, which run out
    Mood {
        weights: [45, 2, 20, 3, 8, 17, 5],
        stations: 30,
        crowded: true,
        moving: true,
        edits: 0,
        smallest_floor: 2,
        longest_timeout: 6,
    },
    // few stations that go round and round
    Mood {
        weights: [35, 2, 40, 8, 4, 6, 5],
        stations: 5,
        crowded: false,
        moving: true,
        edits: 0,
        smallest_floor: 2,
        longest_timeout: 30,
    },
    // lent records: values at the limits and past them, rubbish in what is not used
    Mood {
        weights: [40, 5, 25, 5, 5, 12, 8],
        stations: 24,
        crowded: true,
        moving: false,
        edits: 120,
        smallest_floor: 1,
        longest_timeout: 9,
    },
    Mood {
        weights: [40, 3, 30, 5, 3, 14, 5],
        stations: 20,
        crowded: false,
        moving: true,
        edits: 40,
        smallest_floor: 2,
        longest_timeout: 3,
    },
];

pub struct Source {
    numbers: Xorshift,
    mood: &'static Mood,
    /// What comes next before anything else.
    planned: Vec<Step>,
}

impl Source {
    /// The steps of list `list`; edits are left out where they are not `with_edits`.
    pub fn new(mut numbers: Xorshift, list: u64, with_edits: bool) -> Source {
        let moods = if with_edits { MOODS.len() } else { 4 };
        let mood = &MOODS[list as usize % moods];
        let mut planned = vec![set_up(&mut numbers, mood, false)];
        if with_edits && numbers.chance(40) {
            planned.extend(before_the_wrap(&mut numbers));
        }
        if with_edits && numbers.chance(25) {
            planned.push(Step::Edit(Edit {
                field: Field::Unused,
                ap: 0,
                slot: 0,
                value: numbers.below(1 << 32) as u64,
            }));
        }
        planned.reverse();
        Source {
            numbers,
            mood,
            planned,
        }
    }

    pub fn next(&mut self, floor: &Floor) -> Step {
        if let Some(step) = self.planned.pop() {
            return step;
        }
        let mood = self.mood;
        match self.numbers.below(1000) {
            0 => return set_up(&mut self.numbers, mood, true),
            other if other < mood.edits => return self.edit(floor),
            _ => {}
        }
        self.event(floor)
    }

    /// An edit, some events, and mostly the record from before it again.
    fn edit(&mut self, floor: &Floor) -> Step {
        let points = floor.points.iter().take(usize::from(floor.ap_count));
        let rows = points.clone().map(|point| point.row_count).max();
        let moves = points.map(|point| point.move_count).max();
        let used = [rows.unwrap_or(0), moves.unwrap_or(0), floor.air.count];
        let numbers = &mut self.numbers;
        let edit = edits::of_floor(numbers, floor.ap_count, used);
        let harmless = matches!(
            edit.field,
            Field::NextIdentifier
                | Field::Opened
                | Field::Resent
                | Field::Answered
                | Field::GivenUp
                | Field::Unused
        );
        if !harmless || numbers.chance(10) {
            self.planned.push(Step::Restore);
            for _ in 0..1 + self.numbers.below(3) {
                let event = self.event(floor);
                self.planned.push(event);
            }
        }
        Step::Edit(edit)
    }

    fn event(&mut self, floor: &Floor) -> Step {
        let Mood {
            weights, stations, ..
        } = *self.mood;
        let numbers = &mut self.numbers;
        let mut left = numbers.below(weights.iter().sum());
        let kind = weights.iter().position(|&weight| {
            let here = left < weight;
            left = left.wrapping_sub(weight);
            here
        });
        let at = point_number(numbers, floor.ap_count);
        match kind {
            Some(0) => self.join(floor),
            Some(1) => Step::Leave {
                at,
                station: station(numbers, stations),
            },
            Some(5) => Step::Tick { at },
            Some(6) => Step::Who {
                station: station(numbers, stations),
            },
            kind => {
                let packet = packet_number(numbers, floor.air.count);
                match kind {
                    Some(2) => Step::Deliver { packet },
                    Some(3) => Step::Repeat { packet },
                    _ => Step::Lose { packet },
                }
            }
        }
    }

    fn join(&mut self, floor: &Floor) -> Step {
        let Mood {
            stations,
            crowded,
            moving,
            ..
        } = *self.mood;
        let numbers = &mut self.numbers;
        let station = station(numbers, stations);
        let at = if crowded && numbers.chance(70) {
            0
        } else {
            point_number(numbers, floor.ap_count)
        };
        let was = floor
            .points
            .iter()
            .take(usize::from(floor.ap_count))
            .enumerate()
            .position(|(i, point)| {
                i != usize::from(at)
                    && usize::from(point.row_count) <= point.rows.len()
                    && point.find(station).is_some()
            });
        let beside = Some(u32::from(floor.ap_count > 1 && at == 0));
        let old = match was {
            None if moving && numbers.chance(90) => beside,
            _ => old(numbers, floor.ap_count, at, was),
        };
        let point = floor
            .points
            .get(usize::from(at))
            .filter(|point| usize::from(point.row_count) <= point.rows.len());
        let elsewhere = was.and_then(|was| floor.points.get(was));
        Step::Join {
            at,
            station,
            sequence: sequence(
                numbers,
                point
                    .filter(|point| point.find(station).is_some())
                    .or(elsewhere),
                station,
            ),
            old,
            context: context(numbers),
        }
    }
}

fn set_up(numbers: &mut Xorshift, mood: &Mood, any: bool) -> Step {
    if any && numbers.chance(80) {
        const REFUSED: [[u16; 3]; 8] = [
            [0, 1, 0],
            [9, 1, 0],
            [256, 1, 0],
            [258, 1, 0],
            [2, 0, 0],
            [2, 1, 8],
            [2, 1, 256],
            [65535, 65535, 65535],
        ];
        let [ap_count, timeout, resends] = REFUSED[numbers.below(REFUSED.len())];
        return Step::SetUp {
            ap_count,
            timeout,
            resends,
        };
    }
    let smallest = mood.smallest_floor;
    Step::SetUp {
        ap_count: if numbers.chance(30) {
            8
        } else {
            (smallest + numbers.below(9 - smallest)) as u16
        },
        timeout: if numbers.chance(4) {
            65535
        } else {
            1 + numbers.below(mood.longest_timeout) as u16
        },
        resends: match numbers.below(4) {
            0 => 0,
            1 => 7,
            _ => numbers.below(4) as u16,
        },
    }
}

/// Every AP's next identifier and counts just before they wrap.
fn before_the_wrap(numbers: &mut Xorshift) -> Vec<Step> {
    let mut edits = Vec::new();
    for ap in 0..MOST_POINTS {
        for field in [
            Field::NextIdentifier,
            Field::Opened,
            Field::Resent,
            Field::Answered,
            Field::GivenUp,
        ] {
            let last = if field == Field::NextIdentifier {
                u64::from(u16::MAX)
            } else {
                u64::from(u32::MAX)
            };
            edits.push(Step::Edit(Edit {
                field,
                ap,
                slot: 0,
                value: last - numbers.below(3) as u64,
            }));
        }
    }
    edits
}

fn packet_number(numbers: &mut Xorshift, count: u8) -> u16 {
    let in_air = numbers.below(usize::from(count.clamp(1, 64))) as u16;
    match numbers.below(100) {
        0 => u16::from(count),
        1 => in_air + 256,
        2 => 63 + numbers.below(3) as u16,
        3 => numbers.below(65536) as u16,
        4..=30 => 0,
        _ => in_air,
    }
}

/// Runs a list; says at which step the two sides differ, and how.
fn run(steps: &[Step], tally: &mut Tally) -> Result<(), (usize, String)> {
    let mut pair = Pair::new();
    for (at, step) in steps.iter().enumerate() {
        pair.step(step, tally).map_err(|text| (at, text))?;
    }
    Ok(())
}

fn new_tally() -> Tally {
    let mut marks = vec![
        ROWS, MOVES, AIR, LOST, IDENTIFIER, SEQUENCE, RECORD, EDITED, WHO,
    ];
    marks.extend(COUNTS);
    marks.extend(&edits::REFUSED[1..]);
    Tally::new(
        "events on a lent floor",
        "events and set-ups",
        &[0, 7, 9, 11, 12, 13, 14, 15, 16, 17],
        &marks,
    )
}

fn describe(seed: u64, list: u64, steps: &[Step]) -> String {
    let differs = |steps: &[Step]| run(steps, &mut new_tally()).is_err();
    let steps = shortest(steps, differs);
    let mut text = format!(
        "seed {seed}, list {list}; {} steps, the shortest list found:\n",
        steps.len()
    );
    for step in &steps {
        text += &format!("  {step}\n");
    }
    if let Err((at, difference)) = run(&steps, &mut new_tally()) {
        text += &format!("after step {}: {difference}", at + 1);
    }
    text
}

pub fn compare(seed: u64, factor: u64) -> Tally {
    let mut tally = new_tally();
    let mut list = 0;
    while tally.count < EVENTS * factor {
        let mut source = Source::new(numbers(seed, 3, list), list, true);
        let length = LONGEST_LIST / 10 + source.numbers.below(LONGEST_LIST);
        let mut pair = Pair::new();
        let mut steps = Vec::with_capacity(length);
        for _ in 0..length {
            steps.push(source.next(&pair.floor));
            let last = &steps[steps.len() - 1];
            if pair.step(last, &mut tally).is_err() {
                tally.differs(describe(seed, list, &steps));
                return tally;
            }
        }
        list += 1;
    }
    tally
}
