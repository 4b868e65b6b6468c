//! Stations, numbers and contexts as the lists of events and calls use them: mostly such that something happens.

use floor::access_point::AccessPoint;
use floor::xorshift::Xorshift;
use floor::Station;

/// One of `count` stations, each of which differs from some other one in a single octet; a group address now and then.
pub fn station(numbers: &mut Xorshift, count: usize) -> Station {
    let which = numbers.below(count);
    let mut station = [2, 0, 0, 0, 0, 0];
    station[which % 6] ^= 2 * (which / 6 + 1) as u8;
    if numbers.chance(2) {
        station[0] |= 1;
    }
    station
}

pub fn octets(numbers: &mut Xorshift, length: usize) -> Vec<u8> {
    (0..length).map(|_| numbers.below(256) as u8).collect()
}

pub fn context(numbers: &mut Xorshift) -> Vec<u8> {
    let length = match numbers.below(100) {
        0..=49 => 0,
        50..=69 => 1 + numbers.below(8),
        70..=79 => 64,
        80..=81 => 63,
        82..=83 => 65,
        84 => 66 + numbers.below(300),
        _ => numbers.below(65),
    };
    octets(numbers, length)
}

/// A sequence number near that of the station's row at `point`, if it has one, or at a place where numbers wrap.
pub fn sequence(numbers: &mut Xorshift, point: Option<&AccessPoint>, station: Station) -> u16 {
    const STARTS: [u16; 10] = [0, 1, 10, 2046, 2047, 2048, 2049, 4093, 4094, 4095];
    let start = point
        .and_then(|point| Some(point.rows()[point.find(station)?].sequence))
        .unwrap_or(STARTS[numbers.below(STARTS.len())]);
    let ahead = match numbers.below(100) {
        0..=59 => 1,
        60..=74 => 1 + numbers.below(50),
        75..=79 => 0,
        80..=83 => 4095,
        84..=87 => 2047,
        88..=90 => 2048,
        91..=92 => 2049,
        93 => 4096 - numbers.below(60),
        94..=96 => numbers.below(4096),
        97 => return 4096,
        98 => return start.wrapping_add(4096),
        _ => return 4096 + numbers.below(61440) as u16,
    };
    (start % 4096 + ahead as u16) % 4096
}

/// An AP number: mostly one of the floor; else the first that is not, one that is when cut to eight bits, or any.
pub fn point_number(numbers: &mut Xorshift, ap_count: u8) -> u16 {
    let on_floor = numbers.below(usize::from(ap_count.clamp(1, 8))) as u16;
    match numbers.below(100) {
        0 => u16::from(ap_count),
        1 => on_floor + 256,
        2 => 65535,
        3 => numbers.below(65536) as u16,
        _ => on_floor,
    }
}

/// A join's old AP at AP `at`: where the station `was`, none, this AP, another, or one that is not on the floor.
pub fn old(numbers: &mut Xorshift, ap_count: u8, at: u16, was: Option<usize>) -> Option<u32> {
    let on_floor = numbers.below(usize::from(ap_count.clamp(1, 8))) as u32;
    match numbers.below(100) {
        0..=19 => None,
        20..=29 => Some(u32::from(at)),
        30..=44 => Some(on_floor),
        45 => Some(u32::from(ap_count)),
        46 => Some(on_floor + 256),
        47 => Some(on_floor + 65536),
        48 => Some(u32::MAX - numbers.below(3) as u32),
        49 => Some(numbers.below(1 << 32) as u32),
        _ => was.map(|was| was as u32).or(Some(on_floor)),
    }
}
