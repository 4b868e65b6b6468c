//! The refusals, with document 01's numbers.

#[derive(Clone, Copy, Debug, PartialEq, Eq)]
pub enum Refusal {
    ShortHeader = 1,
    Version = 2,
    Command = 3,
    LengthAboveOctets = 4,
    Length = 5,
    AddressLength = 6,
    Sequence = 7,
    Status = 8,
    Context = 9,
    ShortBuffer = 10,
    NoSuchPoint = 11,
    NoSuchPacket = 12,
    GroupStation = 13,
    Record = 14,
    NotNewer = 15,
    RowsFull = 16,
    MovesFull = 17,
    UnreadableLine = 18,
}

impl Refusal {
    pub fn number(self) -> u8 {
        self as u8
    }
}
