//! The floor: up to eight access points, the packets in flight between them, and the seven events.

use crate::access_point::{AccessPoint, Join, Old, Sending, MOST_RESENDS};
use crate::packet::{self, Octets};
use crate::{Refusal, Station};

pub const MOST_POINTS: usize = 8;
pub const MOST_PACKETS: usize = 64;

#[derive(Clone, Copy, Debug, PartialEq, Eq)]
pub struct InFlight {
    pub sender: u8,
    pub receiver: u8,
    pub octets: Octets,
}

impl InFlight {
    pub const NONE: InFlight = InFlight {
        sender: 0,
        receiver: 0,
        octets: Octets::NONE,
    };
}

/// The packets in flight, in order of sending. What is not used is kept as in an AP's record.
#[derive(Clone, Debug, PartialEq, Eq)]
pub struct Air {
    pub count: u8,
    pub packets: [InFlight; MOST_PACKETS],
}

impl Air {
    pub const EMPTY: Air = Air {
        count: 0,
        packets: [InFlight::NONE; MOST_PACKETS],
    };

    pub fn packets(&self) -> &[InFlight] {
        &self.packets[..usize::from(self.count)]
    }

    /// With 64 in flight the packet is lost.
    fn send(&mut self, sender: u8, receiver: u8, octets: Octets) {
        if let Some(free) = self.packets.get_mut(usize::from(self.count)) {
            *free = InFlight {
                sender,
                receiver,
                octets,
            };
            self.count += 1;
        }
    }

    fn get(&self, k: u16) -> Result<InFlight, Refusal> {
        self.packets()
            .get(usize::from(k))
            .copied()
            .ok_or(Refusal::NoSuchPacket)
    }

    fn take(&mut self, k: u16) -> Result<InFlight, Refusal> {
        let taken = self.get(k)?;
        self.packets
            .copy_within(usize::from(k) + 1..usize::from(self.count), usize::from(k));
        self.count -= 1;
        self.packets[usize::from(self.count)] = InFlight::NONE;
        Ok(taken)
    }
}

#[derive(Clone, Copy, Debug, PartialEq, Eq)]
pub enum Event<'a> {
    Join {
        at: u16,
        station: Station,
        sequence: u16,
        old: Option<u32>,
        context: &'a [u8],
    },
    Leave {
        at: u16,
        station: Station,
    },
    Deliver {
        packet: u16,
    },
    Repeat {
        packet: u16,
    },
    Lose {
        packet: u16,
    },
    Tick {
        at: u16,
    },
    Who {
        station: Station,
    },
}

/// The answer to an accepted event. `held` is a who's, and 0 for the others.
#[derive(Clone, Copy, Debug, Default, PartialEq, Eq)]
pub struct Reply {
    pub sent: u8,
    pub given_up: u8,
    pub held: u8,
}

impl Reply {
    pub fn tables(&self) -> u8 {
        self.held.count_ones() as u8
    }
}

#[derive(Clone, Debug, PartialEq, Eq)]
pub struct Floor {
    pub ap_count: u8,
    pub timeout: u16,
    pub resends: u8,
    pub points: [AccessPoint; MOST_POINTS],
    pub air: Air,
}

impl Floor {
    pub fn new(ap_count: u16, timeout: u16, resends: u16) -> Result<Floor, Refusal> {
        if ap_count == 0
            || usize::from(ap_count) > MOST_POINTS
            || timeout == 0
            || resends > u16::from(MOST_RESENDS)
        {
            return Err(Refusal::Record);
        }
        Ok(Floor {
            ap_count: ap_count as u8,
            timeout,
            resends: resends as u8,
            points: [AccessPoint::EMPTY; MOST_POINTS],
            air: Air::EMPTY,
        })
    }

    /// Whether refusal 14 does not apply to the whole record.
    pub fn is_valid(&self) -> bool {
        (1..=MOST_POINTS).contains(&usize::from(self.ap_count))
            && self.timeout >= 1
            && self.resends <= MOST_RESENDS
            && usize::from(self.air.count) <= MOST_PACKETS
            && self
                .points()
                .iter()
                .all(|point| point.is_valid(self.ap_count))
            && self.air.packets().iter().all(|packet| {
                packet.sender < self.ap_count
                    && packet.receiver < self.ap_count
                    && usize::from(packet.octets.length) <= packet::LONGEST
                    && packet::read(packet.octets.as_slice()).is_ok()
            })
    }

    /// An event, with the test of 14 before everything else.
    pub fn event(&mut self, event: &Event) -> Result<Reply, Refusal> {
        if !self.is_valid() {
            return Err(Refusal::Record);
        }
        self.event_unchecked_14(event)
    }

    /// An event on a floor that only `new` and events have written, to which 14 does not apply.
    pub fn event_unchecked_14(&mut self, event: &Event) -> Result<Reply, Refusal> {
        match *event {
            Event::Join {
                at,
                station,
                sequence,
                old,
                context,
            } => self.join(at, station, sequence, old, context),
            Event::Leave { at, station } => {
                let at = self.on_floor(at)?;
                individual(station)?;
                self.points[usize::from(at)].leave(station);
                Ok(Reply::default())
            }
            Event::Deliver { packet } => {
                let packet = self.air.take(packet)?;
                Ok(self.hand_over(&packet))
            }
            Event::Repeat { packet } => {
                let packet = self.air.get(packet)?;
                Ok(self.hand_over(&packet))
            }
            Event::Lose { packet } => self.air.take(packet).map(|_| Reply::default()),
            Event::Tick { at } => self.tick(at),
            Event::Who { station } => self.who(station),
        }
    }

    fn points(&self) -> &[AccessPoint] {
        &self.points[..usize::from(self.ap_count)]
    }

    fn on_floor(&self, at: u16) -> Result<u8, Refusal> {
        if at < u16::from(self.ap_count) {
            Ok(at as u8)
        } else {
            Err(Refusal::NoSuchPoint)
        }
    }

    fn join(
        &mut self,
        at: u16,
        station: Station,
        sequence: u16,
        old: Option<u32>,
        context: &[u8],
    ) -> Result<Reply, Refusal> {
        let at = self.on_floor(at)?;
        individual(station)?;
        let join = Join {
            station,
            sequence,
            old: Old::of(old, at, self.ap_count),
            context,
        };
        let point = &mut self.points[usize::from(at)];
        let found = point.admit(&join)?;
        let sent = match point.join(&join, found, self.timeout, self.resends) {
            Sending::Nothing => 0,
            Sending::Announcement(packet) => {
                let octets = Octets::of(&packet);
                for receiver in (0..self.ap_count).filter(|&receiver| receiver != at) {
                    self.air.send(at, receiver, octets);
                }
                self.ap_count - 1
            }
            Sending::Notice { old, packet } => {
                self.air.send(at, old, Octets::of(&packet));
                1
            }
        };
        Ok(Reply {
            sent,
            ..Reply::default()
        })
    }

    fn tick(&mut self, at: u16) -> Result<Reply, Refusal> {
        let at = self.on_floor(at)?;
        let Floor {
            points,
            air,
            timeout,
            ..
        } = self;
        let mut sent = 0;
        let given_up = points[usize::from(at)].tick(*timeout, |old, notice| {
            air.send(at, old, Octets::of(notice));
            sent += 1;
        });
        Ok(Reply {
            sent,
            given_up,
            held: 0,
        })
    }

    fn hand_over(&mut self, packet: &InFlight) -> Reply {
        let mut reply = Reply::default();
        // 14 keeps a packet that the reader refuses out of the air.
        if let Ok(fields) = packet::read(packet.octets.as_slice()) {
            let Floor { points, air, .. } = self;
            let receiver = &mut points[usize::from(packet.receiver)];
            let received = receiver.receive(packet.sender, &fields, |answer| {
                air.send(packet.receiver, packet.sender, Octets::of(answer));
                reply.sent = 1;
                Ok(())
            });
            debug_assert!(received.is_ok());
        }
        reply
    }

    fn who(&self, station: Station) -> Result<Reply, Refusal> {
        individual(station)?;
        let held = (0..).zip(self.points()).fold(0, |held, (i, point)| {
            held | u8::from(point.find(station).is_some()) << i
        });
        Ok(Reply {
            held,
            ..Reply::default()
        })
    }
}

pub(crate) fn individual(station: Station) -> Result<(), Refusal> {
    if station[0] % 2 == 1 {
        Err(Refusal::GroupStation)
    } else {
        Ok(())
    }
}

#[cfg(test)]
mod tests {
    use super::*;

    fn busy() -> Floor {
        let mut floor = Floor::new(2, 5, 1).unwrap();
        for sequence in 1..4 {
            let station = [2, 0, 0, 0, 0, sequence as u8];
            floor
                .event(&Event::Join {
                    at: 0,
                    station,
                    sequence,
                    old: Some(1),
                    context: &[],
                })
                .unwrap();
        }
        floor
    }

    #[test]
    fn limits_of_set_up() {
        for (ap_count, timeout, resends) in [(0, 1, 0), (9, 1, 0), (1, 0, 0), (1, 1, 8)] {
            assert_eq!(
                Floor::new(ap_count, timeout, resends).err(),
                Some(Refusal::Record)
            );
        }
        assert!(Floor::new(8, 65535, 7).is_ok());
    }

    #[test]
    fn a_bad_record_is_14_before_all_else() {
        let edits: [fn(&mut Floor); 16] = [
            |floor| floor.ap_count = 0,
            |floor| floor.ap_count = 9,
            |floor| floor.timeout = 0,
            |floor| floor.resends = 8,
            |floor| floor.air.count = 65,
            |floor| floor.air.packets[2].sender = 2,
            |floor| floor.air.packets[2].receiver = 2,
            |floor| floor.air.packets[2].octets.length = 83,
            |floor| floor.air.packets[2].octets.octets[14] = 0x10,
            |floor| floor.points[0].row_count = 17,
            |floor| floor.points[0].move_count = 9,
            |floor| floor.points[0].rows[2].sequence = 4096,
            |floor| floor.points[0].rows[2].context_length = 65,
            |floor| floor.points[0].rows[2].station = floor.points[0].rows[0].station,
            |floor| floor.points[0].moves[2].old = 2,
            |floor| floor.points[0].moves[2].ticks_left = 0,
        ];
        for edit in edits {
            let mut floor = busy();
            edit(&mut floor);
            let before = floor.clone();
            assert_eq!(floor.event(&Event::Tick { at: 9 }), Err(Refusal::Record));
            assert_eq!(floor, before);
        }
        // what is not used is not looked at
        let mut floor = busy();
        floor.points[0].rows[3].sequence = 4096;
        floor.points[2].row_count = 17;
        floor.air.packets[3].sender = 9;
        assert_eq!(
            floor.event(&Event::Tick { at: 9 }),
            Err(Refusal::NoSuchPoint)
        );
    }
}
