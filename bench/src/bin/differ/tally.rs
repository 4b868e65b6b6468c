//! What a part of the test compared and met.

use std::time::Duration;

pub const ANSWERS: usize = 19;

/// A part's counts. `wanted` are the answers that it is to meet, `marks` what it is to reach, each with how often it was.
pub struct Tally {
    part: &'static str,
    counted: &'static str,
    pub count: u64,
    answers: [u64; ANSWERS],
    wanted: &'static [u8],
    marks: Vec<(&'static str, u64)>,
    difference: Option<String>,
}

impl Tally {
    pub fn new(
        part: &'static str,
        counted: &'static str,
        wanted: &'static [u8],
        marks: &[&'static str],
    ) -> Tally {
        Tally {
            part,
            counted,
            count: 0,
            answers: [0; ANSWERS],
            wanted,
            marks: marks.iter().map(|&mark| (mark, 0)).collect(),
            difference: None,
        }
    }

    pub fn answer(&mut self, answer: u8) {
        if let Some(count) = self.answers.get_mut(usize::from(answer)) {
            *count += 1;
        }
    }

    /// Counts a mark where it `was_reached`.
    pub fn mark(&mut self, mark: &'static str, was_reached: bool) {
        if was_reached {
            let found = self.marks.iter_mut().find(|(name, _)| *name == mark);
            found.expect("a mark of this part").1 += 1;
        }
    }

    pub fn differs(&mut self, text: String) {
        self.difference = Some(text);
    }

    /// Prints all of it; returns whether it is as it should be.
    pub fn report(&self, time: Duration) -> bool {
        let Tally {
            part,
            counted,
            count,
            ..
        } = self;
        println!("\n{part}: {count} {counted}, {:.1} s", time.as_secs_f64());
        let answers: Vec<String> = (0..ANSWERS)
            .filter(|&answer| self.answers[answer] > 0)
            .map(|answer| format!("{answer}: {}", self.answers[answer]))
            .collect();
        println!("  answers  {}", answers.join("  "));
        if !self.marks.is_empty() {
            let marks: Vec<String> = self
                .marks
                .iter()
                .map(|(mark, count)| format!("{mark}: {count}"))
                .collect();
            println!("  reached  {}", marks.join(", "));
        }
        if let Some(difference) = &self.difference {
            println!("DIFFERENCE in {part}\n{difference}");
            return false;
        }
        let mut good = true;
        for &answer in self.wanted {
            if self.answers[usize::from(answer)] == 0 {
                println!("  never met: answer {answer}");
                good = false;
            }
        }
        for (mark, count) in &self.marks {
            if *count == 0 {
                println!("  never reached: {mark}");
                good = false;
            }
        }
        good
    }
}
