//! One access point alone: its record with its own number, the floor's AP count, T and R, and the calls that it takes.
//! The packets that it sends are written at the front of a lent buffer.

use crate::access_point::{AccessPoint, Join, Old, Sending, MOST_RESENDS};
use crate::floor::{individual, MOST_POINTS};
use crate::packet::{self, Packet};
use crate::{Refusal, Station};

const ADD_NOTIFY_LENGTH: usize = 16;
const NOTICE_LENGTH: usize = 18;

#[derive(Clone, Debug, PartialEq, Eq)]
pub struct Alone {
    pub number: u8,
    pub ap_count: u8,
    pub timeout: u16,
    pub resends: u8,
    pub point: AccessPoint,
}

#[derive(Clone, Copy, Debug, PartialEq, Eq)]
pub enum Call<'a> {
    Join {
        station: Station,
        sequence: u16,
        old: Option<u32>,
        context: &'a [u8],
    },
    Leave {
        station: Station,
    },
    Tick,
    Outside {
        from: u16,
        octets: &'a [u8],
    },
    Who {
        station: Station,
    },
}

/// The answer to an accepted call. Packet k of the `sent` ones goes to AP `to[k]`; together they are the first `length`
/// octets of the buffer.
#[derive(Clone, Copy, Debug, Default, PartialEq, Eq)]
pub struct Done {
    pub sent: u8,
    pub given_up: u8,
    pub held: bool,
    pub to: [u8; MOST_POINTS],
    pub length: usize,
}

impl Done {
    /// Writes a packet for `to` behind the ones before it; the buffer has room for it.
    fn send(&mut self, buffer: &mut [u8], to: u8, packet: &Packet) -> Result<(), Refusal> {
        self.length += packet::write(packet, &mut buffer[self.length..])?;
        self.to[usize::from(self.sent)] = to;
        self.sent += 1;
        Ok(())
    }
}

fn room(buffer: &[u8], length: usize) -> Result<(), Refusal> {
    if buffer.len() < length {
        Err(Refusal::ShortBuffer)
    } else {
        Ok(())
    }
}

impl Alone {
    pub fn new(number: u16, ap_count: u16, timeout: u16, resends: u16) -> Result<Alone, Refusal> {
        if ap_count == 0
            || usize::from(ap_count) > MOST_POINTS
            || timeout == 0
            || resends > u16::from(MOST_RESENDS)
            || number >= ap_count
        {
            return Err(Refusal::Record);
        }
        Ok(Alone {
            number: number as u8,
            ap_count: ap_count as u8,
            timeout,
            resends: resends as u8,
            point: AccessPoint::EMPTY,
        })
    }

    /// Whether refusal 14 does not apply to the record.
    pub fn is_valid(&self) -> bool {
        (1..=MOST_POINTS).contains(&usize::from(self.ap_count))
            && self.timeout >= 1
            && self.resends <= MOST_RESENDS
            && self.number < self.ap_count
            && self.point.is_valid(self.ap_count)
    }

    /// A call, with the test of 14 before everything else.
    pub fn call(&mut self, call: &Call, buffer: &mut [u8]) -> Result<Done, Refusal> {
        if !self.is_valid() {
            return Err(Refusal::Record);
        }
        self.call_unchecked_14(call, buffer)
    }

    /// A call on a record that only `new` and calls have written, to which 14 does not apply.
    pub fn call_unchecked_14(&mut self, call: &Call, buffer: &mut [u8]) -> Result<Done, Refusal> {
        match *call {
            Call::Join {
                station,
                sequence,
                old,
                context,
            } => {
                individual(station)?;
                let old = Old::of(old, self.number, self.ap_count);
                self.join(
                    &Join {
                        station,
                        sequence,
                        old,
                        context,
                    },
                    buffer,
                )
            }
            Call::Leave { station } => {
                individual(station)?;
                self.point.leave(station);
                Ok(Done::default())
            }
            Call::Tick => self.tick(buffer),
            Call::Outside { from, octets } => self.outside(from, octets, buffer),
            Call::Who { station } => {
                individual(station)?;
                Ok(Done {
                    held: self.point.find(station).is_some(),
                    ..Done::default()
                })
            }
        }
    }

    fn join(&mut self, join: &Join, buffer: &mut [u8]) -> Result<Done, Refusal> {
        let found = self.point.admit(join)?;
        let others = self.ap_count - 1;
        let length = match join.old {
            Old::Unknown => usize::from(others) * ADD_NOTIFY_LENGTH,
            Old::Here => 0,
            Old::Other(_) => NOTICE_LENGTH,
        };
        room(buffer, length)?;
        let mut done = Done::default();
        match self.point.join(join, found, self.timeout, self.resends) {
            Sending::Nothing => {}
            Sending::Announcement(packet) => {
                for to in (0..self.ap_count).filter(|&to| to != self.number) {
                    done.send(buffer, to, &packet)?;
                }
            }
            Sending::Notice { old, packet } => done.send(buffer, old, &packet)?,
        }
        Ok(done)
    }

    fn tick(&mut self, buffer: &mut [u8]) -> Result<Done, Refusal> {
        room(buffer, self.point.due() * NOTICE_LENGTH)?;
        let mut done = Done::default();
        done.given_up = self.point.tick(self.timeout, |old, notice| {
            let written = done.send(buffer, old, notice);
            debug_assert!(written.is_ok());
        });
        Ok(done)
    }

    fn outside(&mut self, from: u16, octets: &[u8], buffer: &mut [u8]) -> Result<Done, Refusal> {
        if from >= u16::from(self.ap_count) || from == u16::from(self.number) {
            return Err(Refusal::NoSuchPoint);
        }
        let from = from as u8;
        let packet = packet::read(octets)?;
        let mut done = Done::default();
        self.point
            .receive(from, &packet, |answer| done.send(buffer, from, answer))?;
        Ok(done)
    }
}

#[cfg(test)]
mod tests {
    use super::*;

    const STATION: Station = [2, 0, 0, 0, 0, 1];

    fn join(old: Option<u32>, sequence: u16, context: &[u8]) -> Call<'_> {
        Call::Join {
            station: STATION,
            sequence,
            old,
            context,
        }
    }

    #[test]
    fn limits_of_set_up() {
        for (number, ap_count, timeout, resends) in [
            (0, 0, 1, 0),
            (0, 9, 1, 0),
            (0, 256, 1, 0),
            (0, 1, 0, 0),
            (0, 1, 1, 8),
            (0, 1, 1, 256),
            (1, 1, 1, 0),
            (256, 1, 1, 0),
        ] {
            assert_eq!(
                Alone::new(number, ap_count, timeout, resends).err(),
                Some(Refusal::Record)
            );
        }
        assert!(Alone::new(7, 8, 65535, 7).is_ok());
    }

    #[test]
    fn outside_bytes() {
        let mut alone = Alone::new(0, 2, 1, 0).unwrap();
        let mut buffer = [0xee; 20];
        alone.call(&join(None, 10, &[0xab]), &mut buffer).unwrap();
        buffer = [0xee; 20];
        let notice = [0, 1, 0, 5, 0, 18, 6, 0, 2, 0, 0, 0, 0, 1, 0, 11, 0, 0];
        let outside = |from, octets| Call::Outside { from, octets };
        let before = alone.clone();
        for (call, room, refusal) in [
            (outside(0, &notice[..]), 20, Refusal::NoSuchPoint),
            (outside(2, &[]), 20, Refusal::NoSuchPoint),
            (outside(1, &notice[..5]), 20, Refusal::ShortHeader),
            (outside(1, &notice), 18, Refusal::ShortBuffer),
        ] {
            assert_eq!(alone.call(&call, &mut buffer[..room]), Err(refusal));
        }
        assert_eq!((&alone, buffer), (&before, [0xee; 20]));
        let done = alone.call(&outside(1, &notice), &mut buffer).unwrap();
        assert_eq!((done.sent, done.to[0], done.length), (1, 1, 19));
        assert_eq!(
            buffer,
            [0, 2, 0, 5, 0, 19, 6, 0, 2, 0, 0, 0, 0, 1, 0, 11, 0, 1, 0xab, 0xee]
        );
        assert_eq!(alone.point, {
            let mut empty = AccessPoint::EMPTY;
            empty.next_identifier = 1;
            empty
        });
        alone.point.row_count = 17;
        assert_eq!(
            alone.call(&outside(9, &notice), &mut buffer),
            Err(Refusal::Record)
        );
    }

    #[test]
    fn joins_and_ticks() {
        let mut alone = Alone::new(1, 4, 2, 1).unwrap();
        let mut buffer = [0xee; 64];
        let before = alone.clone();
        let plain = join(Some(4), 10, &[0xab]);
        assert_eq!(
            alone.call(&plain, &mut buffer[..47]),
            Err(Refusal::ShortBuffer)
        );
        assert_eq!((&alone, buffer), (&before, [0xee; 64]));
        let done = alone.call(&plain, &mut buffer[..48]).unwrap();
        assert_eq!((done.sent, done.length), (3, 48));
        assert_eq!(done.to, [0, 2, 3, 0, 0, 0, 0, 0]);
        for copy in buffer[..48].chunks(16) {
            assert_eq!(copy, [0, 0, 0, 0, 0, 16, 6, 0, 2, 0, 0, 0, 0, 1, 0, 10]);
        }
        assert_eq!(alone.call(&plain, &mut buffer[..0]), Err(Refusal::NotNewer));
        let again = join(Some(1), 11, &[]);
        assert_eq!(alone.call(&again, &mut []), Ok(Done::default()));
        let moving = join(Some(3), 12, &[]);
        let done = alone.call(&moving, &mut buffer).unwrap();
        assert_eq!((done.sent, done.to[0], done.length), (1, 3, 18));
        let notice = [0, 1, 0, 1, 0, 18, 6, 0, 2, 0, 0, 0, 0, 1, 0, 12, 0, 0];
        assert_eq!(buffer[..18], notice);
        assert_eq!(alone.call(&Call::Tick, &mut []), Ok(Done::default()));
        assert_eq!(
            alone.call(&Call::Tick, &mut [0; 17]),
            Err(Refusal::ShortBuffer)
        );
        let mut again = [0; 18];
        let done = alone.call(&Call::Tick, &mut again).unwrap();
        assert_eq!((done.sent, done.to[0], done.length), (1, 3, 18));
        assert_eq!(again, notice);
        assert_eq!(alone.call(&Call::Tick, &mut []), Ok(Done::default()));
        let done = alone.call(&Call::Tick, &mut []).unwrap();
        assert_eq!((done.sent, done.given_up, done.length), (0, 1, 0));
        assert_eq!((alone.point.resent, alone.point.given_up), (1, 1));
        assert_eq!(alone.point.moves, AccessPoint::EMPTY.moves);
        let who = Call::Who { station: STATION };
        assert!(alone.call(&who, &mut []).unwrap().held);
        let leave = Call::Leave { station: STATION };
        assert_eq!(alone.call(&leave, &mut []), Ok(Done::default()));
        assert!(!alone.call(&who, &mut []).unwrap().held);
        let group = Call::Who { station: [1; 6] };
        assert_eq!(alone.call(&group, &mut []), Err(Refusal::GroupStation));
    }
}
