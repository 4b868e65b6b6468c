//! Long mixed scripts, the same for the same seed.

use std::io::{self, Write};

use crate::sequence::newer;
use crate::xorshift::Xorshift;
use crate::{script, Event, Floor};

const POINTS: usize = 8;
const STATIONS: usize = 40;
const UNREADABLE: [&str; 8] = [
    "",
    "join 0 020000000001 1 -",
    "tick 00 - - - -",
    "tick 65536 - - - -",
    "who 0 020000000001 - - -",
    "join 0 02000000000A 1 - -",
    "deliver 0  - - - -",
    "join 0 020000000001 1 - abc",
];

/// Where a station joined last, and its number then.
#[derive(Clone, Copy)]
struct Whereabouts {
    at: usize,
    sequence: u16,
}

/// The AP that all terminals crowd round in the last 64 of every 512 lines.
fn crowded(line: usize) -> usize {
    (line / 512 + line / 4096) % POINTS
}

/// In 256 of every 4096 lines nothing is delivered: packets are lost, and the clock of the crowded AP runs.
fn outage(line: usize) -> bool {
    line / 256 % 16 == 15
}

pub struct Generator {
    numbers: Xorshift,
    floor: Floor,
    stations: [Whereabouts; STATIONS],
}

impl Generator {
    pub fn new(seed: u64) -> Generator {
        let mut numbers = Xorshift::new(seed);
        let floor = Floor::new(POINTS as u16, 20, 3).expect("within the limits");
        let stations = std::array::from_fn(|_| Whereabouts {
            at: POINTS,
            sequence: numbers.below(4096) as u16,
        });
        Generator {
            numbers,
            floor,
            stations,
        }
    }

    fn join(&mut self, line: usize) -> String {
        let numbers = &mut self.numbers;
        let station = numbers.below(STATIONS);
        let mut at = if line / 64 % 8 == 7 {
            crowded(line)
        } else {
            numbers.below(POINTS)
        };
        let before = self.stations[station];
        let mut sequence = match numbers.below(20) {
            0 => before.sequence,
            1 => (before.sequence + 4096 - numbers.below(2100) as u16) % 4096,
            _ => (before.sequence + 1 + numbers.below(4) as u16) % 4096,
        };
        let old = match numbers.below(100) {
            0..=3 => "-".to_string(),
            4 => "8".to_string(),
            5..=7 => numbers.below(POINTS).to_string(),
            _ if before.at == POINTS => "-".to_string(),
            _ => before.at.to_string(),
        };
        let octets = match numbers.below(100) {
            0..=9 => numbers.below(65),
            10..=29 => 1 + numbers.below(8),
            30 => 65,
            _ => 0,
        };
        let context = match octets {
            0 => "-".to_string(),
            _ => (0..octets)
                .map(|_| format!("{:02x}", numbers.below(256)))
                .collect(),
        };
        let mut first = 2;
        match numbers.below(300) {
            0 => first = 3,
            1 => at = POINTS,
            2 => sequence = 4096,
            _ => {}
        }
        format!("join {at} {first:02x}00000000{station:02x} {sequence} {old} {context}")
    }

    /// A packet in flight, but for one time in a hundred.
    fn packet(&mut self) -> usize {
        let count = usize::from(self.floor.air.count);
        match self.numbers.below(100) {
            0 => count + self.numbers.below(3),
            _ => self.numbers.below(count.max(1)),
        }
    }

    fn line(&mut self, line: usize) -> String {
        let station = self.numbers.below(STATIONS);
        match self.numbers.below(1000) {
            0..=249 => self.join(line),
            250..=689 if outage(line) && self.numbers.chance(50) => {
                format!("tick {} - - - -", crowded(line))
            }
            250..=689 if outage(line) => format!("lose {} - - - -", self.packet()),
            250..=689 => format!("deliver {} - - - -", self.packet()),
            690..=809 => format!("tick {} - - - -", self.numbers.below(POINTS)),
            810..=909 => format!("who - 0200000000{station:02x} - - -"),
            910..=934 => {
                let at = self.stations[station].at % POINTS;
                format!("leave {at} 0200000000{station:02x} - - -")
            }
            935..=964 => format!("repeat {} - - - -", self.packet()),
            965..=994 => format!("lose {} - - - -", self.packet()),
            _ => UNREADABLE[self.numbers.below(UNREADABLE.len())].to_string(),
        }
    }

    /// The floor and the whereabouts after a line, so that the next ones are mostly accepted.
    fn follow(&mut self, line: &str) {
        let mut buffer = [0; script::LONGEST_LINE / 2];
        let Some(event) = script::event(line.as_bytes(), &mut buffer) else {
            return;
        };
        let accepted = self.floor.event_unchecked_14(&event).is_ok();
        if let (
            true,
            Event::Join {
                at,
                station,
                sequence,
                ..
            },
        ) = (accepted, event)
        {
            let whereabouts = &mut self.stations[usize::from(station[5])];
            if newer(sequence, whereabouts.sequence) {
                *whereabouts = Whereabouts {
                    at: usize::from(at),
                    sequence,
                };
            }
        }
    }
}

/// Writes a script of `lines` lines of events on eight APs.
pub fn write_script(out: &mut impl Write, lines: usize, seed: u64) -> io::Result<()> {
    let mut generator = Generator::new(seed);
    out.write_all(script::SET_UP_NAMES)?;
    writeln!(out, "\n{POINTS} 20 3")?;
    out.write_all(script::EVENT_NAMES)?;
    writeln!(out)?;
    for number in 0..lines {
        let line = generator.line(number);
        writeln!(out, "{line}")?;
        generator.follow(&line);
    }
    Ok(())
}
