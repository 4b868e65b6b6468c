//! Whole scripts: generated ones, lists of events as lines, and both spoiled.

use floor::script::{self, EVENT_NAMES, SET_UP_NAMES};
use floor::spoiler::spoil;
use floor::{generator, Floor};
use skelmarith as linked;

use crate::floors::{Source, Step};
use crate::numbers;
use crate::packets::GUARD;
use crate::shortest::shortest;
use crate::tally::Tally;

const SCRIPTS: u64 = 5_000;

const SPOILED: &str = "spoiled";
const BAD_SET_UP: &str = "bad set-up";
const NO_LAST_0A: &str = "no 0A at the end";
const LONG_LINES: &str = "lines of 256 octets and more";
const LONGEST_LINES: &str = "lines of 255 octets";
const SHORT_BUFFER: &str = "buffer one octet too short";

/// A script of the generator's, or a list of events on any floor with an unreadable line here and there; how often it was spoiled.
fn script(seed: u64, case: u64) -> (Vec<u8>, usize) {
    let mut numbers = numbers(seed, 5, case);
    let mut script = Vec::new();
    if case.is_multiple_of(2) {
        let lines = match numbers.below(10) {
            0 => 1500 + numbers.below(1500),
            _ => numbers.below(300),
        };
        let seed = numbers.below(1 << 32) as u64;
        generator::write_script(&mut script, lines, seed).expect("a vector takes all");
    } else {
        let lines = numbers.below(400);
        script.extend_from_slice(SET_UP_NAMES);
        let mut floor = Floor::new(1, 1, 0).expect("within the limits");
        let mut source = Source::new(crate::numbers(seed, 6, case), case / 2, false);
        for _ in 0..=lines {
            let step = source.next(&floor);
            match step {
                Step::SetUp {
                    ap_count,
                    timeout,
                    resends,
                } if script.len() == SET_UP_NAMES.len() => {
                    script.extend(format!("\n{ap_count} {timeout} {resends}\n").bytes());
                    script.extend_from_slice(EVENT_NAMES);
                }
                // A set-up in the midst of a script is an unreadable line.
                Step::SetUp { .. } => {
                    script.extend(step.to_string().bytes());
                    script.push(b'\n');
                    continue;
                }
                _ => script.extend(step.to_string().bytes()),
            }
            script.push(b'\n');
            step.act(&mut floor);
        }
    }
    let spoiled = [0, 0, 1, 2][numbers.below(4)];
    for _ in 0..spoiled {
        if script.len() > 100 {
            spoil(&mut script, &mut numbers);
        }
    }
    (script, spoiled)
}

fn rehearsed<const TEST_14: bool>(script: &[u8]) -> Vec<u8> {
    let mut out = Vec::new();
    script::run::<TEST_14>(script, &mut out).expect("a vector takes all");
    out
}

/// Runs the library into a buffer of `room` octets; says how it differs from `expected`.
fn compare_with(script: &[u8], expected: &[u8], room: usize) -> Result<u8, String> {
    let mut buffer: Vec<u8> = (0..room + 2 * GUARD).map(|at| !(at as u8)).collect();
    let mut wanted_buffer = buffer.clone();
    let wanted = if room < expected.len() {
        linked::Written { answer: 10, len: 0 }
    } else {
        wanted_buffer[GUARD..GUARD + expected.len()].copy_from_slice(expected);
        linked::Written {
            answer: 0,
            len: expected.len(),
        }
    };
    let library = linked::rehearse(script, &mut buffer[GUARD..GUARD + room]);
    if library != wanted {
        return Err(format!(
            "buffer of {room}: the library answers {library:?}, wanted {wanted:?}"
        ));
    }
    if buffer != wanted_buffer {
        let differs = |at: &usize| buffer[*at] != wanted_buffer[*at];
        let at = (0..buffer.len()).find(differs).unwrap_or(0);
        let line = |buffer: &[u8]| {
            let output = &buffer[GUARD..GUARD + library.len];
            let line_of_at = wanted_buffer[GUARD.min(at)..at]
                .iter()
                .filter(|&&octet| octet == b'\n');
            let mut lines = output.split(|&octet| octet == b'\n');
            let line = lines.nth(line_of_at.count()).unwrap_or_default();
            line.escape_ascii().to_string()
        };
        return Err(format!(
            "buffer of {room} with {GUARD} octets on both sides, octet {at}: the library {:02x} in '{}', here {:02x} in '{}'",
            buffer[at],
            line(&buffer),
            wanted_buffer[at],
            line(&wanted_buffer)
        ));
    }
    Ok(library.answer)
}

fn rooms(script: &[u8], length: usize, case: u64) -> [usize; 3] {
    [
        length,
        length.saturating_sub(1 + case as usize % 3 * (case as usize % length.max(1))),
        32 * script.len() + 51,
    ]
}

fn difference(script: &[u8], case: u64) -> Result<[u8; 3], String> {
    let expected = rehearsed::<true>(script);
    if rehearsed::<false>(script) != expected {
        return Err("here, with the test of 14 and without".to_string());
    }
    let mut answers = [0; 3];
    for (answer, room) in answers.iter_mut().zip(rooms(script, expected.len(), case)) {
        *answer = compare_with(script, &expected, room)?;
    }
    Ok(answers)
}

fn lines(script: &[u8]) -> Vec<Vec<u8>> {
    script
        .split_inclusive(|&octet| octet == b'\n')
        .map(<[u8]>::to_vec)
        .collect()
}

fn describe(seed: u64, case: u64, script: &[u8]) -> String {
    let lines = shortest(&lines(script), |lines| {
        difference(&lines.concat(), case).is_err()
    });
    let mut text = format!(
        "seed {seed}, script {case}; {} lines, the shortest script found:\n",
        lines.len()
    );
    for line in &lines {
        text += &format!("  {}\n", line.escape_ascii());
    }
    if let Err(difference) = difference(&lines.concat(), case) {
        text += &difference;
    }
    text
}

pub fn compare(seed: u64, factor: u64) -> Tally {
    let mut tally = Tally::new(
        "scripts",
        "scripts, each into three buffers; answers of their lines, 10 of the call",
        &[0, 7, 9, 10, 11, 12, 13, 14, 15, 16, 17, 18],
        &[
            SPOILED,
            BAD_SET_UP,
            NO_LAST_0A,
            LONG_LINES,
            LONGEST_LINES,
            SHORT_BUFFER,
        ],
    );
    for case in 0..SCRIPTS * factor {
        let (script, spoiled) = script(seed, case);
        tally.count += 1;
        let answers = match difference(&script, case) {
            Ok(answers) => answers,
            Err(_) => {
                tally.differs(describe(seed, case, &script));
                break;
            }
        };
        for answer in answers.into_iter().filter(|&answer| answer != 0) {
            tally.answer(answer);
        }
        tally.mark(SHORT_BUFFER, answers[1] == 10);
        let output = rehearsed::<false>(&script);
        for line in output.split(|&octet| octet == b'\n').skip(1) {
            let answer = line.split(|&octet| octet == b' ').nth(1);
            let answer = answer.and_then(|answer| std::str::from_utf8(answer).ok()?.parse().ok());
            if let Some(answer) = answer {
                tally.answer(answer);
            }
        }
        let bad = output.ends_with(b"? 14 0 0 - -\n");
        tally.mark(BAD_SET_UP, bad);
        tally.mark(SPOILED, spoiled > 0);
        tally.mark(
            NO_LAST_0A,
            script.last().is_some_and(|&octet| octet != b'\n'),
        );
        let has_line = |test: &dyn Fn(usize) -> bool| {
            script
                .split(|&octet| octet == b'\n')
                .any(|line| test(line.len()))
        };
        tally.mark(LONG_LINES, has_line(&|length| length > 255));
        tally.mark(LONGEST_LINES, has_line(&|length| length == 255));
    }
    tally
}
