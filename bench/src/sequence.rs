//! Sequence numbers, 0 to 4095, and which of two is newer.

pub const LAST: u16 = 4095;

/// The number in -2048..2047 that differs from `n` - `m` by a multiple of 4096.
pub fn distance(n: u16, m: u16) -> i16 {
    let ahead = (n.wrapping_sub(m) % 4096) as i16;
    if ahead < 2048 {
        ahead
    } else {
        ahead - 4096
    }
}

pub fn newer(n: u16, m: u16) -> bool {
    distance(n, m) >= 1
}

#[cfg(test)]
mod tests {
    use super::*;

    #[test]
    fn document_01_p1_to_p6() {
        assert_eq!(distance(0, 4095), 1);
        assert_eq!(distance(10, 10), 0);
        assert_eq!(distance(2047, 0), 2047);
        assert_eq!(distance(2048, 0), -2048);
        assert_eq!(distance(0, 2048), -2048);
        assert_eq!(distance(0, 2047), -2047);
        assert!(newer(0, 4095) && !newer(2048, 0) && !newer(0, 2048));
    }
}
