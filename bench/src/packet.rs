//! Packets: read, written, and as they are held in flight.

use crate::{sequence, Refusal, Station};

pub const LONGEST_CONTEXT: usize = 64;
pub const LONGEST: usize = 18 + LONGEST_CONTEXT;

pub const SUCCESSFUL: u8 = 0;
pub const STALE_MOVE: u8 = 1;

#[derive(Clone, Copy, Debug, PartialEq, Eq)]
pub enum Command {
    AddNotify = 0,
    MoveNotify = 1,
    MoveResponse = 2,
}

/// A packet's fields. `status` counts in a MOVE-response only, `context` in the two MOVE commands.
#[derive(Clone, Copy, Debug, PartialEq, Eq)]
pub struct Packet<'a> {
    pub command: Command,
    pub identifier: u16,
    pub status: u8,
    pub station: Station,
    pub sequence: u16,
    pub context: &'a [u8],
}

fn pair(octets: &[u8], at: usize) -> u16 {
    u16::from_be_bytes([octets[at], octets[at + 1]])
}

pub fn read(octets: &[u8]) -> Result<Packet<'_>, Refusal> {
    if octets.len() < 6 {
        return Err(Refusal::ShortHeader);
    }
    if octets[0] != 0 {
        return Err(Refusal::Version);
    }
    let command = match octets[1] {
        0 => Command::AddNotify,
        1 => Command::MoveNotify,
        2 => Command::MoveResponse,
        _ => return Err(Refusal::Command),
    };
    let length = usize::from(pair(octets, 4));
    if length > octets.len() {
        return Err(Refusal::LengthAboveOctets);
    }
    let fits = match command {
        Command::AddNotify => length == 16,
        Command::MoveNotify | Command::MoveResponse => length >= 18,
    };
    if !fits {
        return Err(Refusal::Length);
    }
    let data = &octets[6..length];
    if data[0] != 6 {
        return Err(Refusal::AddressLength);
    }
    let sequence = pair(data, 8);
    if sequence > sequence::LAST {
        return Err(Refusal::Sequence);
    }
    let status = match command {
        Command::MoveResponse => data[1],
        Command::AddNotify | Command::MoveNotify => 0,
    };
    if status > STALE_MOVE {
        return Err(Refusal::Status);
    }
    let context = match command {
        Command::AddNotify => &data[10..],
        Command::MoveNotify | Command::MoveResponse => {
            let context_length = usize::from(pair(data, 10));
            if context_length > LONGEST_CONTEXT || length != 18 + context_length {
                return Err(Refusal::Context);
            }
            &data[12..]
        }
    };
    let mut station = [0; 6];
    station.copy_from_slice(&data[2..8]);
    Ok(Packet {
        command,
        identifier: pair(octets, 2),
        status,
        station,
        sequence,
        context,
    })
}

/// Fills the front of `buffer` and returns the length.
pub fn write(packet: &Packet, buffer: &mut [u8]) -> Result<usize, Refusal> {
    if packet.sequence > sequence::LAST {
        return Err(Refusal::Sequence);
    }
    let (octet_7, context) = match packet.command {
        Command::AddNotify => (0, None),
        Command::MoveNotify => (0, Some(packet.context)),
        Command::MoveResponse => (packet.status, Some(packet.context)),
    };
    if octet_7 > STALE_MOVE {
        return Err(Refusal::Status);
    }
    let length = match context {
        None => 16,
        Some(context) if context.len() > LONGEST_CONTEXT => return Err(Refusal::Context),
        Some(context) => 18 + context.len(),
    };
    let Some((head, rest)) = buffer
        .get_mut(..length)
        .and_then(|front| front.split_first_chunk_mut::<16>())
    else {
        return Err(Refusal::ShortBuffer);
    };
    let [i0, i1] = packet.identifier.to_be_bytes();
    let [l0, l1] = (length as u16).to_be_bytes();
    let [a, b, c, d, e, f] = packet.station;
    let [s0, s1] = packet.sequence.to_be_bytes();
    let command = packet.command as u8;
    *head = [
        0, command, i0, i1, l0, l1, 6, octet_7, a, b, c, d, e, f, s0, s1,
    ];
    if let (Some(context), Some((size, rest))) = (context, rest.split_first_chunk_mut()) {
        *size = (context.len() as u16).to_be_bytes();
        rest.copy_from_slice(context);
    }
    Ok(length)
}

/// A packet's octets, by value.
#[derive(Clone, Copy, Debug, PartialEq, Eq)]
pub struct Octets {
    pub length: u8,
    pub octets: [u8; LONGEST],
}

impl Octets {
    pub const NONE: Octets = Octets {
        length: 0,
        octets: [0; LONGEST],
    };

    /// The octets of a packet whose fields are within the limits.
    pub fn of(packet: &Packet) -> Octets {
        let mut written = Octets::NONE;
        written.length =
            write(packet, &mut written.octets).expect("fields within the limits") as u8;
        written
    }

    pub fn as_slice(&self) -> &[u8] {
        &self.octets[..usize::from(self.length)]
    }
}

#[cfg(test)]
mod tests {
    use super::*;

    const P7: [u8; 16] = [0, 0, 0, 0, 0, 0x10, 6, 0, 2, 0, 0, 0, 0, 1, 0, 0x0a];
    const P8: [u8; 18] = [0, 1, 0, 0, 0, 0x12, 6, 0, 2, 0, 0, 0, 0, 1, 0, 0x0b, 0, 0];
    const P9: [u8; 19] = [
        0, 2, 0, 0, 0, 0x13, 6, 0, 2, 0, 0, 0, 0, 1, 0, 0x0b, 0, 1, 0xab,
    ];

    #[test]
    fn document_01_p7_to_p11() {
        let p7 = read(&P7).unwrap();
        assert_eq!(
            (p7.command, p7.identifier, p7.sequence),
            (Command::AddNotify, 0, 10)
        );
        let p8 = read(&P8).unwrap();
        assert_eq!((p8.command, p8.sequence), (Command::MoveNotify, 11));
        let p9 = read(&P9).unwrap();
        assert_eq!(
            (p9.command, p9.status, p9.context),
            (Command::MoveResponse, SUCCESSFUL, &[0xab][..])
        );
        let mut p10 = P7.to_vec();
        p10[5] = 0x11;
        p10.push(0);
        assert_eq!(read(&p10), Err(Refusal::Length));
        let mut p11 = P7;
        p11[14..].copy_from_slice(&[0x10, 0]);
        assert_eq!(read(&p11), Err(Refusal::Sequence));
    }

    #[test]
    fn written_as_read() {
        for octets in [&P7[..], &P8, &P9] {
            let mut buffer = [0xee; 20];
            let packet = read(octets).unwrap();
            let length = write(&packet, &mut buffer).unwrap();
            assert_eq!(&buffer[..length], octets);
            assert!(buffer[length..].iter().all(|&octet| octet == 0xee));
            assert_eq!(
                write(&packet, &mut buffer[..length - 1]),
                Err(Refusal::ShortBuffer)
            );
        }
    }

    #[test]
    fn refused_in_order() {
        assert_eq!(read(&P8[..5]), Err(Refusal::ShortHeader));
        let edits: [(usize, u8, Refusal); 7] = [
            (0, 1, Refusal::Version),
            (1, 3, Refusal::Command),
            (5, 0x14, Refusal::LengthAboveOctets),
            (5, 0x11, Refusal::Length),
            (6, 5, Refusal::AddressLength),
            (7, 2, Refusal::Status),
            (17, 0, Refusal::Context),
        ];
        for (at, octet, refusal) in edits {
            let mut packet = P9;
            packet[at] = octet;
            assert_eq!(read(&packet), Err(refusal));
        }
    }

    #[test]
    fn contexts_of_64_and_65() {
        let context = [7; 65];
        let mut packet = read(&P9).unwrap();
        let mut buffer = [0; 90];
        packet.context = &context[..64];
        assert_eq!(write(&packet, &mut buffer), Ok(82));
        assert_eq!(read(&buffer), Ok(packet));
        packet.context = &context;
        assert_eq!(write(&packet, &mut buffer), Err(Refusal::Context));
    }
}
