//! The programs as a person runs them, on files and on pipes: what they print, what they say on standard error, and their status.

mod closings;
mod streams;
mod texts;

use crate::adversary::Adversary;
use crate::caches::{self, Cache, Rule};
use crate::random::Random;
use crate::tally::Tally;
use std::cell::Cell;
use std::fs;
use std::io::Write;
use std::os::unix::process::ExitStatusExt;
use std::path::{Path, PathBuf};
use std::process::{Command, Output, Stdio};
use std::thread;

/// The programs, and a folder for their input.
pub struct Programs {
    bin: PathBuf,
    folder: PathBuf,
    runs: Cell<u64>,
}

/// A run of a program and what it must give. The status of one that a signal ended is the signal's number below 0.
struct Case {
    kind: &'static str,
    program: &'static str,
    words: Vec<String>,
    input: Vec<u8>,
    out: String,
    err: String,
    status: i32,
}

fn status(output: &Output) -> i32 {
    output.status.code().unwrap_or_else(|| -output.status.signal().expect("a status or a signal"))
}

/// The beginning of a text, for a message.
fn start(text: &str) -> &str {
    let end = text.char_indices().nth(300).map_or(text.len(), |(i, _)| i);
    &text[..end]
}

impl Programs {
    pub fn new(bin: &Path) -> Programs {
        let folder = std::env::temp_dir().join(format!("dimityquartz-tests-{}", std::process::id()));
        fs::create_dir_all(&folder).expect("a folder for input");
        Programs { bin: bin.to_path_buf(), folder, runs: Cell::new(0) }
    }

    /// How many runs were compared.
    pub fn runs(&self) -> u64 {
        self.runs.get()
    }

    fn file(&self, name: &str, bytes: &[u8]) -> String {
        let path = self.folder.join(name);
        fs::write(&path, bytes).expect("a file of input");
        path.to_str().expect("a path that is text").to_string()
    }

    fn command(&self, program: &str, words: &[String]) -> Command {
        let mut command = Command::new(self.bin.join(program));
        command.args(words).stdin(Stdio::piped()).stdout(Stdio::piped()).stderr(Stdio::piped());
        command
    }

    /// Runs a program with bytes on its standard input, in pieces of this size.
    fn fed(&self, program: &str, words: &[String], bytes: &[u8], piece: usize) -> Output {
        let mut child = self.command(program, words).spawn().expect("a program that runs");
        let mut input = child.stdin.take().expect("its standard input");
        thread::scope(|scope| {
            // A program that does not read all of its input ends the pipe early, so a failed write is no fault.
            scope.spawn(move || bytes.chunks(piece).all(|some| input.write_all(some).is_ok()));
            child.wait_with_output().expect("what the program gives")
        })
    }

    fn check(&self, tally: &mut Tally, case: &Case, output: &Output) {
        self.runs.set(self.runs.get() + 1);
        let out = String::from_utf8_lossy(&output.stdout);
        let err = String::from_utf8_lossy(&output.stderr);
        let what = format!("{} {} ({})", case.program, case.words.join(" "), case.kind);
        assert_eq!(err, case.err, "{what}: standard error");
        assert_eq!(status(output), case.status, "{what}: status");
        let differs = out.lines().zip(case.out.lines()).position(|(a, b)| a != b);
        assert!(out == case.out, "{what}: line {differs:?} of standard output; it is {:?}, and should be {:?}", start(&out), start(&case.out));
        tally.add(&format!("{}: {}", case.program, case.kind));
    }

    /// Runs a case, with its input on a pipe.
    fn run(&self, tally: &mut Tally, case: &Case) {
        let output = self.fed(case.program, &case.words, &case.input, 1 << 20);
        self.check(tally, case, &output);
    }

    /// Runs a case three times: on a pipe, on a pipe that is fed in small pieces, and from a file. `err` has NAME for the input's.
    fn run_input(&self, random: &mut Random, tally: &mut Tally, mut case: Case) {
        let err = case.err.clone();
        case.err = err.replace("NAME", "standard input");
        self.run(tally, &case);
        let piece = random.between(1, 9).max(case.input.len() / 50);
        self.check(tally, &case, &self.fed(case.program, &case.words, &case.input, piece));
        let path = self.file("input", &case.input);
        case.err = err.replace("NAME", &path);
        case.words.push(path);
        self.check(tally, &case, &self.fed(case.program, &case.words, &[], 1));
    }
}

impl Drop for Programs {
    fn drop(&mut self) {
        let _ = fs::remove_dir_all(&self.folder);
    }
}

/// What `play` reads.
fn day_bytes(k: u16, m: u16, trace: &[u64]) -> Vec<u8> {
    let mut bytes = [k.to_le_bytes(), m.to_le_bytes()].concat();
    for page in trace {
        bytes.extend((*page as u32).to_le_bytes());
    }
    bytes
}

/// A line for each request.
fn served_lines(k: u16, trace: &[u64]) -> String {
    if k == 0 || k > 4096 {
        return "refused 1 at 0\n".repeat(trace.len());
    }
    let mut cache = Cache::new(k as usize, Rule::Lru);
    trace.iter().map(|page| cache.request(*page).line(*page)).collect()
}

fn report_lines(m: u16, trace: &[u64]) -> String {
    if trace.len() > 4096 {
        return format!("refused 4 at {}\n", trace.len());
    }
    if m == 0 || m > 4096 {
        return format!("refused 5 at {m}\n");
    }
    let row = caches::report(trace, m as usize);
    let (house, known) = row.split_at(m as usize);
    (0..m as usize).map(|i| format!("{}: house {} known {}\n", i + 1, house[i], known[i])).collect()
}

/// Mostly what is taken, now and then an edge of it or more.
fn small_or_edge(random: &mut Random, most: usize) -> u16 {
    match random.below(12) {
        0 => 0,
        1 => 4097,
        2 => u16::MAX,
        3 => 4096,
        _ => random.between(1, most) as u16,
    }
}

fn random_day(random: &mut Random, longest: usize) -> Case {
    let (k, m) = (small_or_edge(random, 12), small_or_edge(random, 30));
    let (len, pages) = (random.between(0, longest), random.between(1, 60));
    let trace = random.trace(len, pages);
    let mut case = Case {
        kind: "whole days",
        program: "play",
        words: vec![],
        input: day_bytes(k, m, &trace),
        out: served_lines(k, &trace) + &report_lines(m, &trace),
        err: String::new(),
        status: 0,
    };
    match random.below(4) {
        0 => {
            let whole = random.between(0, trace.len());
            case.kind = "days that end inside a request";
            case.input.truncate(4 + 4 * whole);
            case.input.extend(&[1, 2, 3][..random.between(1, 3)]);
            case.out = served_lines(k, &trace[..whole]);
            case.err = format!("play: NAME ends inside a request, after request {whole}\n");
            case.status = 1;
        }
        1 => {
            let n = random.between(0, 3);
            case.kind = "days that end inside the header";
            case.input.truncate(n);
            case.out.clear();
            case.err = format!("play: NAME ends inside its header, after {n} of 4 bytes\n");
            case.status = 1;
        }
        _ => {}
    }
    case
}

const POLICIES: [Rule; 3] = [Rule::Lru, Rule::Fifo, Rule::LeastRequested];

fn challenge_lines(k: u16, h: u16, rounds: u16, rule: Rule) -> String {
    if k == 0 || k > 4096 {
        return "refused 1 at 0\n".to_string();
    }
    if h == 0 || h > k {
        return format!("refused 6 at {h}\n");
    }
    let (k, h, rounds) = (k as usize, h as usize, rounds as usize);
    let mut cache = Cache::new(k, rule);
    let mut adversary = Adversary::new(k, h);
    let mut text = String::new();
    for _ in 0..h + rounds * k {
        let page = adversary.ask(&cache.pages());
        text += &cache.request(page).line(page);
    }
    let asked = h + rounds * k;
    text + &format!("asked {asked} keeper {asked} rival {}\n", h + rounds * (k + 1 - h))
}

fn random_challenge(random: &mut Random) -> Case {
    let k = if random.one_in(9) { [0, 4097, u16::MAX][random.between(0, 2)] } else { random.between(1, 40) as u16 };
    let h = if random.one_in(9) { [0, k.wrapping_add(1)][random.between(0, 1)] } else { random.between(1, k.clamp(1, 4096) as usize) as u16 };
    let (rounds, policy) = (random.between(0, 9) as u16, random.between(0, 2));
    let settings = [k.to_le_bytes(), h.to_le_bytes(), rounds.to_le_bytes()].concat();
    let mut case = Case {
        kind: "challenges",
        program: "challenge",
        words: vec![],
        input: [&settings[..], &[policy as u8]].concat(),
        out: challenge_lines(k, h, rounds, POLICIES[policy]),
        err: String::new(),
        status: 0,
    };
    if random.one_in(3) {
        case.kind = "challenges with damaged settings";
        case.out.clear();
        case.status = 1;
        case.err = match random.below(3) {
            0 => {
                case.input.truncate(random.between(0, 6));
                format!("challenge: NAME ends after {} of 7 bytes\n", case.input.len())
            }
            1 => {
                case.input.extend(random.numbers(1)[0].to_le_bytes().iter().take(random.between(1, 8)));
                "challenge: NAME goes on after 7 bytes\n".to_string()
            }
            _ => {
                case.input[6] = random.between(3, 255) as u8;
                format!("challenge: NAME asks for policy {} in byte 7: there are 0, 1 and 2\n", case.input[6])
            }
        };
    }
    case
}

/// What a call with these words must give, whatever the input: for each program the same.
fn calls(program: &'static str, folder: &str) -> Vec<Case> {
    let case = |kind, words: &[&str], out: &str, err: &str, status| Case {
        kind,
        program,
        words: words.iter().map(|word| word.to_string()).collect(),
        input: vec![0; 100_000],
        out: out.to_string(),
        err: err.to_string(),
        status,
    };
    let missing = format!("{folder}/none");
    let unread = |name: &str, why: &str| format!("{program}: cannot read {name}: {why}\n");
    vec![
        case("a second argument", &["a", "b"], "", &format!("{program}: argument 2: there may be one argument at most\n"), 1),
        case("a file that is not there", &[&missing], "", &unread(&missing, "No such file or directory (os error 2)"), 1),
        case("a folder", &[folder], "", &unread(folder, "Is a directory (os error 21)"), 1),
    ]
}

pub fn run(random: &mut Random, tally: &mut Tally, programs: &Programs) {
    for _ in 0..150 {
        let case = random_day(random, 120);
        programs.run_input(random, tally, case);
        let case = random_challenge(random);
        programs.run_input(random, tally, case);
    }
    for _ in 0..6 {
        let case = random_day(random, 40_000);
        programs.run_input(random, tally, case);
    }
    let folder = programs.folder.to_str().expect("a path that is text").to_string();
    for program in ["play", "challenge"] {
        for case in calls(program, &folder) {
            programs.run(tally, &case);
        }
    }
    texts::run(random, tally, programs);
    closings::run(random, tally, programs);
    streams::run(random, tally, programs);
    tally.need(30, &["play: whole days", "play: days that end inside a request", "play: days that end inside the header"]);
    tally.need(30, &["challenge: challenges", "challenge: challenges with damaged settings"]);
}
