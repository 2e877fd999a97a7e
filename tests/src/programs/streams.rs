//! Streams that fail: a full disk, a pipe that nobody reads, an input that is closed, and a system whose calls do a part and are interrupted.

use super::{Case, Programs, challenge_lines, day_bytes, report_lines, served_lines, status};
use crate::caches::Rule;
use crate::random::Random;
use crate::tally::Tally;
use std::fs::{File, OpenOptions};
use std::process::{Command, Output, Stdio};

/// All that a program can be asked for, each with an input that it takes.
fn asked() -> Vec<(&'static str, &'static str, Vec<u8>)> {
    let (day, settings) = (day_bytes(3, 4, &[1, 2, 3]), vec![3, 0, 3, 0, 9, 0, 0]);
    let text = b"1 2 3".to_vec();
    vec![
        ("play", "", day.clone()),
        ("play", "--summary", day.clone()),
        ("play", "--unpack", day),
        ("play", "--pack", text.clone()),
        ("play", "--text", text),
        ("play", "--help", vec![]),
        ("challenge", "", settings.clone()),
        ("challenge", "--summary", settings),
        ("challenge", "--places 3 --rounds 2", vec![]),
        ("challenge", "--help", vec![]),
    ]
}

fn words(line: &str) -> Vec<String> {
    line.split_whitespace().map(str::to_string).collect()
}

fn full() -> File {
    OpenOptions::new().write(true).open("/dev/full").expect("/dev/full")
}

/// Standard output that takes nothing: a full device, and a pipe that nobody reads. A program tells both, since the signal for such a pipe is ignored.
fn unwritable(programs: &Programs, tally: &mut Tally) {
    for (program, line, input) in asked() {
        let mut words = words(line);
        if !input.is_empty() {
            words.push(programs.file("closed", &input));
        }
        let told = |why: &str| format!("{program}: cannot write to standard output: {why}\n");
        let case = |kind, err: String| Case { kind, program, words: words.clone(), input: vec![], out: String::new(), err, status: 1 };
        let output = programs.command(program, &words).stdout(full()).output().expect("a program that runs");
        programs.check(tally, &case("a full device", told("No space left on device (os error 28)")), &output);
        let (reader, writer) = std::io::pipe().expect("a pipe");
        drop(reader);
        let output = programs.command(program, &words).stdout(writer).output().expect("a program that runs");
        programs.check(tally, &case("a pipe that nobody reads", told("Broken pipe (os error 32)")), &output);
    }
}

/// Where standard error takes nothing either, the status says that something went wrong.
fn unheard(programs: &Programs, tally: &mut Tally) {
    for (program, line) in [("play", "none"), ("challenge", "none"), ("play", "--foo"), ("challenge", "--foo")] {
        let output = programs.command(program, &words(line)).stderr(full()).output().expect("a program that runs");
        assert!(output.stdout.is_empty() && status(&output) == 1, "{program} {line} where standard error takes nothing");
        tally.add(&format!("{program}: standard error that takes nothing"));
    }
}

/// A standard input that is closed can't be read.
fn closed(programs: &Programs, tally: &mut Tally) {
    for program in ["play", "challenge"] {
        let mut command = Command::new("sh");
        command.args(["-c", "exec \"$0\" <&-"]).arg(programs.bin.join(program));
        let case = Case {
            kind: "a standard input that is closed",
            program,
            words: vec![],
            input: vec![],
            out: String::new(),
            err: format!("{program}: cannot read standard input: Bad file descriptor (os error 9)\n"),
            status: 1,
        };
        programs.check(tally, &case, &command.output().expect("a program that runs"));
    }
}

/// Runs a program under tests/src/interrupted.rs: every other read and write is interrupted, and the others do a few bytes at most.
fn interrupted(programs: &Programs, case: &Case, name: &str) -> Output {
    let mut words = case.words.clone();
    words.push(programs.file(name, &case.input));
    let library = programs.bin.join("../tests/libinterrupted.so");
    let library = library.canonicalize().expect("target/tests/libinterrupted.so, which tests/run builds");
    programs.command(case.program, &words).env("LD_PRELOAD", library).stdin(Stdio::null()).output().expect("a program that runs")
}

/// What a program says does not depend on how much the system does at once, nor on signals that interrupt it.
fn uneven(random: &mut Random, programs: &Programs, tally: &mut Tally) {
    for _ in 0..10 {
        let (len, pages) = (random.between(0, 90), random.between(1, 20));
        let trace = random.trace(len, pages);
        let text: String = trace.iter().map(|page| format!("{page}\n")).collect();
        let lines = served_lines(3, &trace) + &report_lines(4, &trace);
        let unpacked = format!("# places 3 report 4\n{text}");
        for (line, input, out) in [
            ("", day_bytes(3, 4, &trace), &lines),
            ("--text --places 3 --report 4", text.into_bytes(), &lines),
            ("--unpack", day_bytes(3, 4, &trace), &unpacked),
        ] {
            let case = Case { kind: "calls that are interrupted", program: "play", words: words(line), input, out: out.clone(), err: String::new(), status: 0 };
            programs.check(tally, &case, &interrupted(programs, &case, "day"));
        }
    }
    let case = Case {
        kind: "calls that are interrupted",
        program: "challenge",
        words: vec![],
        input: vec![3, 0, 2, 0, 9, 0, 1],
        out: challenge_lines(3, 2, 9, Rule::Fifo),
        err: String::new(),
        status: 0,
    };
    programs.check(tally, &case, &interrupted(programs, &case, "settings"));
}

pub fn run(random: &mut Random, tally: &mut Tally, programs: &Programs) {
    unwritable(programs, tally);
    unheard(programs, tally);
    closed(programs, tally);
    uneven(random, programs, tally);
}
