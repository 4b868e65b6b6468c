//! Long scripts: a million lines of mixed events on eight APs.

use std::fs::File;
use std::io;
use std::path::Path;
use std::process::{Command, Stdio};
use std::time::{Duration, Instant};

use floor::{generator, script};
use skelmarith as linked;

/// A way to run the script, and its best time so far.
struct Runner<'a> {
    what: &'static str,
    /// How many lines below are the two of Rust that this one is held beside.
    beside: Option<[usize; 2]>,
    run: Box<dyn FnMut() -> io::Result<()> + 'a>,
    best: Duration,
}

fn runner<'a>(what: &'static str, run: impl FnMut() -> io::Result<()> + 'a) -> Runner<'a> {
    Runner {
        what,
        beside: None,
        run: Box::new(run),
        best: Duration::MAX,
    }
}

impl Runner<'_> {
    fn beside(self, below: [usize; 2]) -> Self {
        Runner {
            beside: Some(below),
            ..self
        }
    }
}

/// A program on the script in `file`, its output thrown away.
fn run_program(program: &Path, words: &[&str], file: &Path) -> io::Result<()> {
    let status = Command::new(program)
        .args(words)
        .stdin(File::open(file)?)
        .stdout(Stdio::null())
        .status()?;
    if status.success() {
        Ok(())
    } else {
        Err(io::Error::other(format!(
            "{} ended with {status}",
            program.display()
        )))
    }
}

/// The script through the library into `out`.
fn rehearse(script: &[u8], out: &mut [u8], expected: &[u8]) -> io::Result<()> {
    let written = linked::rehearse(script, out);
    if (written.answer, written.len) == (0, expected.len()) {
        Ok(())
    } else {
        Err(io::Error::other(format!("skel_rehearse: {written:?}")))
    }
}

/// Times all of `runners` in each round and prints them.
fn time(rounds: usize, lines: usize, mut runners: Vec<Runner>) -> io::Result<()> {
    for _ in 0..rounds {
        for runner in &mut runners {
            let began = Instant::now();
            (runner.run)()?;
            runner.best = runner.best.min(began.elapsed());
        }
    }
    println!(
        "| | million lines a second | nanoseconds a line | by Rust's | by Rust's, no test of 14 |"
    );
    println!("|---|---|---|---|---|");
    for (at, runner) in runners.iter().enumerate() {
        let time = runner.best.as_secs_f64();
        let by = |below: usize| {
            let rust = runners.get(at + below);
            rust.map_or(String::new(), |rust| {
                format!("{:.2}", time / rust.best.as_secs_f64())
            })
        };
        let [with_14, without_14] = runner
            .beside
            .map_or_else(Default::default, |beside| beside.map(by));
        println!(
            "| {} | {:.2} | {:.0} | {with_14} | {without_14} |",
            runner.what,
            lines as f64 / time / 1e6,
            time * 1e9 / lines as f64
        );
    }
    Ok(())
}

pub fn measure(rounds: usize, lines: usize) -> io::Result<()> {
    let mut script = Vec::new();
    generator::write_script(&mut script, lines, 1)?;
    println!(
        "\nScripts: {lines} lines of mixed events on eight APs (`script {lines} 1`), {} octets\n",
        script.len()
    );
    let mut expected = Vec::new();
    script::run::<false>(&script[..], &mut expected)?;
    // Pages that are not written cost nothing.
    let mut long = vec![0; 32 * script.len() + 51];
    rehearse(&script, &mut long, &expected)?;
    assert!(long[..expected.len()] == expected);
    let mut short = vec![0; expected.len()];
    let mut with_14 = Vec::with_capacity(2 * expected.len());
    let mut without_14 = Vec::with_capacity(2 * expected.len());
    let file = std::env::temp_dir().join(format!("measure.{}", std::process::id()));
    let rehearsal = Path::new(env!("CARGO_MANIFEST_DIR")).join("../target/bin/rehearsal");
    let rust = std::env::current_exe()?.with_file_name("rehearse");
    std::fs::write(&file, &script)?;

    let mut runners = vec![
        runner("library, `skel_rehearse` into a long buffer", || {
            rehearse(&script, &mut long, &expected)
        })
        .beside([2, 3]),
        runner(
            "library, `skel_rehearse` into a buffer just long enough: all lines twice",
            || rehearse(&script, &mut short, &expected),
        )
        .beside([1, 2]),
        runner("Rust, from memory to memory", || {
            with_14.clear();
            script::run::<true>(&script[..], &mut with_14)
        }),
        runner("Rust, from memory to memory, no test of 14", || {
            without_14.clear();
            script::run::<false>(&script[..], &mut without_14)
        }),
    ];
    if rehearsal.exists() {
        let program = runner("program `target/bin/rehearsal`, file to /dev/null", || {
            run_program(&rehearsal, &[], &file)
        });
        runners.push(program.beside([1, 2]));
    }
    if rust.exists() {
        runners.push(runner(
            "program `rehearse` (Rust), file to /dev/null",
            || run_program(&rust, &[], &file),
        ));
        runners.push(runner(
            "program `rehearse --no-14` (Rust), file to /dev/null",
            || run_program(&rust, &["--no-14"], &file),
        ));
    }
    let timed = time(rounds.div_ceil(20), lines, runners);
    std::fs::remove_file(&file)?;
    timed?;
    assert!(with_14 == expected && without_14 == expected && short == expected);
    Ok(())
}
