//! Scripts of the floor rehearsal: their lines read, the answers written.

use std::io::{self, ErrorKind, Read, Write};

use crate::{Event, Floor, Refusal, Reply, Station};

pub const SET_UP_NAMES: &[u8] = b"APS TIMEOUT RESENDS";
pub const EVENT_NAMES: &[u8] = b"EVENT AT STATION SEQ OLD CONTEXT";
pub const ANSWER_NAMES: &[u8] = b"EVENT ANSWER SENT GIVENUP HELD TABLES";

/// The octets that a line may have before its 0A.
pub const LONGEST_LINE: usize = 255;

/// Room for the context of any line.
pub type ContextBuffer = [u8; LONGEST_LINE / 2];

const CHUNK: usize = 1 << 16;

/// The lines of a script, read in large parts.
pub struct Lines<R> {
    input: R,
    buffer: Box<[u8]>,
    start: usize,
    end: usize,
    ended: bool,
}

#[derive(Clone, Copy, Debug, PartialEq, Eq)]
pub enum Line<'a> {
    Octets(&'a [u8]),
    TooLong,
}

impl<R: Read> Lines<R> {
    pub fn new(input: R) -> Lines<R> {
        Lines {
            input,
            buffer: vec![0; CHUNK].into_boxed_slice(),
            start: 0,
            end: 0,
            ended: false,
        }
    }

    pub fn next_line(&mut self) -> io::Result<Option<Line<'_>>> {
        let mut dropped = false;
        loop {
            let waiting = &self.buffer[self.start..self.end];
            let (length, used) = match waiting.iter().position(|&octet| octet == b'\n') {
                Some(length) => (length, length + 1),
                None if self.ended && waiting.is_empty() && !dropped => return Ok(None),
                None if self.ended => (waiting.len(), waiting.len()),
                None => {
                    if waiting.len() > LONGEST_LINE {
                        dropped = true;
                        self.start = self.end;
                    }
                    self.fill()?;
                    continue;
                }
            };
            let start = self.start;
            self.start += used;
            return Ok(Some(if dropped || length > LONGEST_LINE {
                Line::TooLong
            } else {
                Line::Octets(&self.buffer[start..start + length])
            }));
        }
    }

    fn fill(&mut self) -> io::Result<()> {
        self.buffer.copy_within(self.start..self.end, 0);
        self.end -= self.start;
        self.start = 0;
        let count = loop {
            match self.input.read(&mut self.buffer[self.end..]) {
                Err(error) if error.kind() == ErrorKind::Interrupted => {}
                result => break result?,
            }
        };
        self.end += count;
        self.ended = count == 0;
        Ok(())
    }
}

fn fields<const N: usize>(line: &[u8]) -> Option<[&[u8]; N]> {
    let mut rest = line.split(|&octet| octet == b' ');
    let mut fields = [&line[..0]; N];
    for field in &mut fields {
        *field = rest.next()?;
    }
    rest.next().is_none().then_some(fields)
}

fn number(field: &[u8]) -> Option<u16> {
    if field.is_empty() || field.len() > 5 || (field[0] == b'0' && field.len() > 1) {
        return None;
    }
    let value = field.iter().try_fold(0u32, |value, octet| {
        octet
            .is_ascii_digit()
            .then(|| value * 10 + u32::from(octet - b'0'))
    })?;
    u16::try_from(value).ok()
}

fn hex_digit(octet: u8) -> Option<u8> {
    match octet {
        b'0'..=b'9' => Some(octet - b'0'),
        b'a'..=b'f' => Some(octet - b'a' + 10),
        _ => None,
    }
}

/// Puts the octets of an even run of hex digits at the front of `octets`; returns how many.
fn hex(field: &[u8], octets: &mut [u8]) -> Option<usize> {
    let digits = field.chunks_exact(2);
    if !digits.remainder().is_empty() || digits.len() > octets.len() {
        return None;
    }
    for (octet, pair) in octets.iter_mut().zip(digits) {
        *octet = hex_digit(pair[0])? << 4 | hex_digit(pair[1])?;
    }
    Some(field.len() / 2)
}

fn station(field: &[u8]) -> Option<Station> {
    let mut station = [0; 6];
    (field.len() == 12).then_some(())?;
    hex(field, &mut station)?;
    Some(station)
}

fn missing(field: &[u8]) -> Option<()> {
    (field == b"-").then_some(())
}

/// The event of a line, if the line is readable. A join's context is put into `buffer`.
pub fn event<'a>(line: &[u8], buffer: &'a mut ContextBuffer) -> Option<Event<'a>> {
    let [name, at, mac, sequence, old, context] = fields(line)?;
    if name == b"join" {
        let (at, station, sequence) = (number(at)?, station(mac)?, number(sequence)?);
        let old = if old == b"-" {
            None
        } else {
            Some(u32::from(number(old)?))
        };
        let length = match context {
            b"-" => 0,
            b"" => return None,
            digits => hex(digits, buffer)?,
        };
        return Some(Event::Join {
            at,
            station,
            sequence,
            old,
            context: &buffer[..length],
        });
    }
    missing(sequence)?;
    missing(old)?;
    missing(context)?;
    match name {
        b"leave" => Some(Event::Leave {
            at: number(at)?,
            station: station(mac)?,
        }),
        b"who" => {
            missing(at)?;
            Some(Event::Who {
                station: station(mac)?,
            })
        }
        b"deliver" | b"repeat" | b"lose" | b"tick" => {
            missing(mac)?;
            let at = number(at)?;
            Some(match name {
                b"deliver" => Event::Deliver { packet: at },
                b"repeat" => Event::Repeat { packet: at },
                b"lose" => Event::Lose { packet: at },
                _ => Event::Tick { at },
            })
        }
        _ => None,
    }
}

fn name(event: &Event) -> &'static [u8] {
    match event {
        Event::Join { .. } => b"join",
        Event::Leave { .. } => b"leave",
        Event::Deliver { .. } => b"deliver",
        Event::Repeat { .. } => b"repeat",
        Event::Lose { .. } => b"lose",
        Event::Tick { .. } => b"tick",
        Event::Who { .. } => b"who",
    }
}

fn push_number(out: &mut Vec<u8>, number: u8) {
    out.push(b' ');
    if number >= 100 {
        out.push(b'0' + number / 100);
    }
    if number >= 10 {
        out.push(b'0' + number / 10 % 10);
    }
    out.push(b'0' + number % 10);
}

fn push_refused(out: &mut Vec<u8>, name: &[u8], refusal: Refusal) {
    out.extend_from_slice(name);
    push_number(out, refusal.number());
    out.extend_from_slice(b" 0 0 - -\n");
}

/// Writes the line of an event's answer.
pub fn push_answer(out: &mut Vec<u8>, event: &Event, answer: Result<Reply, Refusal>) {
    match answer {
        Err(refusal) => push_refused(out, name(event), refusal),
        Ok(reply) => {
            out.extend_from_slice(name(event));
            out.extend_from_slice(b" 0");
            push_number(out, reply.sent);
            push_number(out, reply.given_up);
            if matches!(event, Event::Who { .. }) {
                push_number(out, reply.held);
                push_number(out, reply.tables());
                out.push(b'\n');
            } else {
                out.extend_from_slice(b" - -\n");
            }
        }
    }
}

/// The floor that the first three lines set up.
fn set_up<R: Read>(lines: &mut Lines<R>) -> io::Result<Result<Floor, Refusal>> {
    if lines.next_line()? != Some(Line::Octets(SET_UP_NAMES)) {
        return Ok(Err(Refusal::Record));
    }
    let values = match lines.next_line()? {
        Some(Line::Octets(line)) => fields(line).and_then(|[ap_count, timeout, resends]| {
            Some((number(ap_count)?, number(timeout)?, number(resends)?))
        }),
        _ => None,
    };
    let names_again = lines.next_line()? == Some(Line::Octets(EVENT_NAMES));
    Ok(match values {
        Some((ap_count, timeout, resends)) if names_again => Floor::new(ap_count, timeout, resends),
        _ => Err(Refusal::Record),
    })
}

/// The floor rehearsal from `input` to `output`; `TEST_14` says whether each event tests the whole record first.
pub fn run<const TEST_14: bool>(input: impl Read, mut output: impl Write) -> io::Result<()> {
    let mut lines = Lines::new(input);
    let mut out = Vec::with_capacity(CHUNK + LONGEST_LINE);
    out.extend_from_slice(ANSWER_NAMES);
    out.push(b'\n');
    match set_up(&mut lines)? {
        Err(refusal) => push_refused(&mut out, b"?", refusal),
        Ok(mut floor) => {
            let mut buffer = [0; LONGEST_LINE / 2];
            while let Some(line) = lines.next_line()? {
                let event = match line {
                    Line::Octets(line) => event(line, &mut buffer),
                    Line::TooLong => None,
                };
                match event {
                    None => push_refused(&mut out, b"?", Refusal::UnreadableLine),
                    Some(event) => {
                        let answer = if TEST_14 {
                            floor.event(&event)
                        } else {
                            floor.event_unchecked_14(&event)
                        };
                        push_answer(&mut out, &event, answer);
                    }
                }
                if out.len() >= CHUNK {
                    output.write_all(&out)?;
                    out.clear();
                }
            }
        }
    }
    output.write_all(&out)?;
    output.flush()
}
