//! Holds a program against the oracle: feeds it each case, from a file or through a pipe in pieces,
//! and compares what it prints.
use crate::random::Random;
use std::env;
use std::fs::{self, File};
use std::io::Write;
use std::path::{Path, PathBuf};
use std::process::{Child, Command, Stdio};
use std::thread;
use std::time::Duration;

/// Differences printed before a trial gives up.
const SHOWN: usize = 5;

pub struct Case {
    pub group: &'static str,
    pub input: Vec<u8>,
}

pub struct Trial {
    pub program: PathBuf,
    /// A folder for input files.
    pub scratch: PathBuf,
    pub seed: u64,
    pub expected: fn(&[u8]) -> String,
}

/// The folder of the programs and the archive.
pub fn target() -> PathBuf {
    let repository = || Path::new(env!("CARGO_MANIFEST_DIR")).join("../../target");
    env::var_os("REACTIVE_TARGET").map_or_else(repository, PathBuf::from)
}

pub fn seed(usual: u64) -> u64 {
    env::var("ORACLE_SEED").map_or(usual, |text| text.parse().expect("ORACLE_SEED is a number"))
}

pub fn hex(bytes: &[u8]) -> String {
    bytes.iter().map(|byte| format!("{byte:02x}")).collect()
}

/// Cases of odd number go through a pipe.
pub fn is_piped(number: usize) -> bool {
    number % 2 == 1
}

impl Trial {
    /// Runs all cases on all cores, and fails if any differs.
    pub fn run(&self, cases: &[Case]) {
        let threads = thread::available_parallelism().map_or(1, |count| count.get());
        let differences: Vec<String> = thread::scope(|scope| {
            let workers: Vec<_> =
                (0..threads).map(|first| scope.spawn(move || self.run_every(cases, first, threads))).collect();
            workers.into_iter().flat_map(|worker| worker.join().expect("a worker ends")).collect()
        });
        for difference in &differences {
            println!("{difference}");
        }
        assert!(differences.is_empty(), "{} differs from the oracle", self.program.display());
    }

    fn run_every(&self, cases: &[Case], first: usize, step: usize) -> Vec<String> {
        let mut differences = Vec::new();
        for (number, case) in cases.iter().enumerate().skip(first).step_by(step) {
            let expected = (self.expected)(&case.input);
            let printed = self.print_of(number, &case.input);
            if printed != expected.as_bytes() {
                differences.push(self.difference(number, case, &expected, &printed));
            }
            if differences.len() == SHOWN {
                break;
            }
        }
        differences
    }

    fn difference(&self, number: usize, case: &Case, expected: &str, printed: &[u8]) -> String {
        let printed = String::from_utf8_lossy(printed);
        let line = expected.split('\n').zip(printed.split('\n')).take_while(|(one, other)| one == other).count();
        format!(
            "seed {} case {number} ({}, {})\ninput {}\nline {}: expected {:?}, printed {:?}",
            self.seed,
            case.group,
            if is_piped(number) { "through a pipe" } else { "from a file" },
            hex(&case.input),
            line + 1,
            expected.split('\n').nth(line),
            printed.split('\n').nth(line),
        )
    }

    fn print_of(&self, number: usize, input: &[u8]) -> Vec<u8> {
        if is_piped(number) {
            let mut random = Random::of(self.seed, number as u64);
            let mut child = self.start(Stdio::piped());
            let mut pipe = child.stdin.take().expect("a pipe");
            thread::scope(|scope| {
                scope.spawn(move || feed(&mut pipe, input, &mut random));
                printed(child)
            })
        } else {
            let path = self.scratch.join(format!("{}-{number}", self.seed));
            fs::write(&path, input).expect("the input is written");
            let printed = printed(self.start(Stdio::from(File::open(&path).expect("the input is there"))));
            fs::remove_file(&path).expect("the input is removed");
            printed
        }
    }

    fn start(&self, input: Stdio) -> Child {
        let mut command = Command::new(&self.program);
        command.stdin(input).stdout(Stdio::piped()).stderr(Stdio::piped());
        command.spawn().unwrap_or_else(|error| panic!("{}: {error}", self.program.display()))
    }
}

/// What a program prints on either stream; a program that is killed prints that too.
fn printed(child: Child) -> Vec<u8> {
    let output = child.wait_with_output().expect("the program ends");
    let mut bytes = [output.stdout, output.stderr].concat();
    if output.status.code().is_none() {
        bytes.extend(format!("{}\n", output.status).bytes());
    }
    bytes
}

/// Writes in pieces, of one byte or of up to half the input. After the first it waits, so that
/// a program that has started reads that one by itself.
fn feed(pipe: &mut impl Write, input: &[u8], random: &mut Random) {
    let length = input.len() as i64;
    let most = random.one_of(&[1, 13, 700, 60_000]).clamp(1 + length / 400, (length / 2).max(1));
    let pause = random.one_of(&[1, 1, 1, 4]);
    let mut rest = input;
    while !rest.is_empty() {
        let (piece, after) = rest.split_at((random.between(1, most) as usize).min(rest.len()));
        // A program may stop reading before the end.
        if pipe.write_all(piece).is_err() {
            return;
        }
        if rest.len() == input.len() {
            thread::sleep(Duration::from_millis(pause));
        }
        thread::yield_now();
        rest = after;
    }
}
