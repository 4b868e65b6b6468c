//! Blocks of calls timed on each side in turn, and the line of a table that they give.

use std::time::{Duration, Instant};

/// One side's block of calls on a record that is put back before each block.
pub trait Side {
    fn restore(&mut self);
    fn block(&mut self);
}

struct On<'a, R, B> {
    start: &'a R,
    record: R,
    block: B,
}

impl<R: Clone, B: FnMut(&mut R)> Side for On<'_, R, B> {
    fn restore(&mut self) {
        self.record.clone_from(self.start);
    }

    fn block(&mut self) {
        (self.block)(&mut self.record);
    }
}

/// A side whose `block` works on a copy of `start`.
pub fn on<'a, R: Clone>(start: &'a R, block: impl FnMut(&mut R) + 'a) -> Box<dyn Side + 'a> {
    Box::new(On {
        start,
        record: start.clone(),
        block,
    })
}

/// Nanoseconds a call on each side, the best of `rounds`; a block is `calls` calls, and a round as many blocks as take a millisecond: so
/// short that other work on the machine leaves some rounds alone.
pub fn best<const SIDES: usize>(
    rounds: usize,
    calls: usize,
    mut sides: [Box<dyn Side + '_>; SIDES],
) -> [f64; SIDES] {
    const ROUND: Duration = Duration::from_millis(1);
    let mut best = [f64::INFINITY; SIDES];
    for _ in 0..rounds {
        for (side, best) in sides.iter_mut().zip(&mut best) {
            let mut time = Duration::ZERO;
            let mut blocks = 0;
            while time < ROUND {
                side.restore();
                let began = Instant::now();
                side.block();
                time += began.elapsed();
                blocks += 1;
            }
            *best = best.min(time.as_nanos() as f64 / (blocks * calls) as f64);
        }
    }
    best
}

pub fn heading(title: &str) {
    println!("\n{title}\n");
    println!(
        "| nanoseconds a call | library | Rust | Rust, no test of 14 | library / Rust | library / Rust, no test of 14 |"
    );
    println!("|---|---|---|---|---|---|");
}

fn figure(nanoseconds: f64) -> String {
    if nanoseconds < 10.0 {
        format!("{nanoseconds:.1}")
    } else {
        format!("{nanoseconds:.0}")
    }
}

pub fn line(what: &str, [library, with_14, without_14]: [f64; 3]) {
    println!(
        "| {what} | {} | {} | {} | {:.2} | {:.1} |",
        figure(library),
        figure(with_14),
        figure(without_14),
        library / with_14,
        library / without_14
    );
}

pub fn line_of_two(what: &str, [library, rust]: [f64; 2]) {
    println!(
        "| {what} | {} | {} | | {:.2} | |",
        figure(library),
        figure(rust),
        library / rust
    );
}
