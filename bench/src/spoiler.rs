//! Spoils a script of more than 100 octets: octets, lengths of lines, the end, the set-up.

use crate::xorshift::Xorshift;

/// The start of the line that the octet `at` is in.
fn line_start(script: &[u8], at: usize) -> usize {
    script[..at]
        .iter()
        .rposition(|&octet| octet == b'\n')
        .map_or(0, |end| end + 1)
}

/// Octets that decide something in a script, and one time in four any octet.
fn octet(numbers: &mut Xorshift) -> u8 {
    const TELLING: &[u8] = b" -\n\r\t019afAG?\x00";
    match numbers.below(4) {
        0 => numbers.below(256) as u8,
        _ => TELLING[numbers.below(TELLING.len())],
    }
}

fn spoil_octet(script: &mut Vec<u8>, at: usize, numbers: &mut Xorshift) {
    match numbers.below(3) {
        0 => script.insert(at, octet(numbers)),
        1 => script[at] = octet(numbers),
        _ => {
            script.remove(at);
        }
    }
}

/// A line of 250 to 260 octets: a run of one octet, or a join with a context or a number of that length.
fn long_line(numbers: &mut Xorshift) -> Vec<u8> {
    let length = 250 + numbers.below(11);
    let mut line = match numbers.below(4) {
        0 => Vec::new(),
        1 => b"join 0 020000000001 1 - ".to_vec(),
        2 => b"join 1 020000000002 2 0 a".to_vec(),
        _ => b"tick ".to_vec(),
    };
    let filler = b"a0 \r"[numbers.below(4)];
    line.resize(length, filler);
    line.push(b'\n');
    line
}

pub fn spoil(script: &mut Vec<u8>, numbers: &mut Xorshift) {
    let head = script.len().min(70);
    match numbers.below(6) {
        0 => script.truncate(numbers.below(script.len() + 1)),
        1 => spoil_octet(script, numbers.below(head), numbers),
        2 => {
            for _ in 0..1 + numbers.below(20) {
                let at = head + numbers.below(script.len() - head);
                spoil_octet(script, at, numbers);
            }
        }
        3 => {
            for _ in 0..1 + numbers.below(5) {
                let at = line_start(script, numbers.below(script.len()));
                script.splice(at..at, long_line(numbers));
            }
        }
        4 => {
            script.pop();
            if numbers.chance(50) {
                script.push(b'\n');
                script.extend(long_line(numbers));
                script.pop();
            }
        }
        _ => {
            const VALUES: [&str; 14] = [
                "0 20 3",
                "9 20 3",
                "8 0 3",
                "8 20 8",
                "8 65536 3",
                "08 20 3",
                "8 20",
                "8 20 3 1",
                "8  20 3",
                "",
                "8 20 3 ",
                "8 20 -",
                "1 1 0",
                "8 65535 7",
            ];
            let from = line_start(script, head.min(20));
            let to = from
                + script[from..]
                    .iter()
                    .position(|&octet| octet == b'\n')
                    .unwrap_or(0);
            script.splice(from..to, VALUES[numbers.below(VALUES.len())].bytes());
        }
    }
}
