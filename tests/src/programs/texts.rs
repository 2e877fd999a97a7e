//! Days as text, options, and what is said of wrong arguments.

use super::{Case, POLICIES, Programs, challenge_lines, day_bytes, report_lines, served_lines, small_or_edge, status};
use crate::random::Random;
use crate::tally::Tally;
use std::ffi::OsStr;
use std::os::unix::ffi::OsStrExt;

const BAD: [&str; 10] =
    ["abc", "-1", "+5", "5.0", "4294967296", "00123x", "18446744073709551616000000000000000000000000", "a\0b\u{7f}", "\u{e9}1", "1\u{feff}"];

fn words(line: &str) -> Vec<String> {
    line.split_whitespace().map(|word| word.to_string()).collect()
}

/// What may stand between two words.
fn gap(random: &mut Random) -> &'static str {
    ["\n", "\n", " ", "\t", "\r\n", "  \n\n", " # 12 abc\n", "#\n", "\n#1\n#2\r\n"][random.between(0, 8)]
}

/// A text that names these pages.
fn text_of(random: &mut Random, trace: &[u64]) -> String {
    let mut text = if random.one_in(2) { String::new() } else { gap(random).to_string() };
    for page in trace {
        // The mark that some programs write in front of a text, which may be several texts by now.
        if random.one_in(9) {
            text += "\u{feff}";
        }
        if random.one_in(9) {
            text += "000";
        }
        text += &page.to_string();
        text += gap(random);
    }
    if random.one_in(2) {
        text.truncate(text.trim_end_matches(['\n', '\r', ' ', '\t']).len());
    }
    text
}

/// As much of a word as is told.
fn told(word: &str) -> String {
    let some = word.bytes().take(40).map(|byte| if matches!(byte, b' '..=b'~') { byte as char } else { '?' });
    some.collect::<String>() + if word.len() > 40 { "..." } else { "" }
}

/// A day as text, and now and then a word in it that is no page.
fn random_text(random: &mut Random, longest: usize) -> Case {
    let (len, pages) = (random.between(0, longest), random.between(1, 60));
    let trace = random.trace(len, pages);
    let (mut k, mut m, mut line) = (40, None, "--text".to_string());
    if random.one_in(2) {
        k = random.between(1, 12) as u16;
        line += &format!(" --places {k}");
    }
    if random.one_in(2) {
        m = Some(random.between(1, 30) as u16);
        line = format!("--report {} {line}", m.unwrap());
    }
    let mut case = Case {
        kind: "days as text",
        program: "play",
        words: words(&line),
        input: text_of(random, &trace).into_bytes(),
        out: served_lines(k, &trace) + &report_lines(m.unwrap_or(k), &trace),
        err: String::new(),
        status: 0,
    };
    if random.one_in(3) {
        let before = random.between(0, trace.len());
        let mut text = text_of(random, &trace[..before]) + "\n";
        let number = 1 + text.matches('\n').count();
        let word = BAD[random.between(0, BAD.len() - 1)];
        text += word;
        text += &[gap(random).to_string(), text_of(random, &trace[before..])].concat();
        case.kind = "text with a word that is no page";
        case.input = text.into_bytes();
        case.out = served_lines(k, &trace[..before]);
        case.err = format!("NAME:{number}: '{}' is not a page number (0 to 4294967295)\n", told(word));
        case.status = 1;
    }
    case
}

/// A text with a word that is no page, to be turned into bytes: those of the pages before it are written.
fn packed_in_part(random: &mut Random) -> Case {
    let (k, m) = (random.between(1, 4096) as u16, random.between(1, 4096) as u16);
    let mut case = random_text(random, 60);
    while case.status == 0 {
        case = random_text(random, 60);
    }
    let pages: Vec<u64> = case.out.lines().map(|line| line.split(':').next().expect("a page").parse().expect("a page")).collect();
    let packed = day_bytes(k, m, &pages);
    case.words = words(&format!("--pack --places {k} --report {m}"));
    case.kind = "text with a word that is no page, packed";
    // Not text, so it is compared as it would be shown.
    case.out = String::from_utf8_lossy(&packed).into_owned();
    case
}

/// A day in bytes whose header is overruled.
fn overruled(random: &mut Random) -> Case {
    let (len, pages) = (random.between(0, 60), random.between(1, 60));
    let trace = random.trace(len, pages);
    let (k, m) = (random.between(1, 12) as u16, random.between(1, 30) as u16);
    Case {
        kind: "days whose header is overruled",
        program: "play",
        words: words(&format!("--places {k} --report {m}")),
        input: day_bytes(small_or_edge(random, 12), small_or_edge(random, 30), &trace),
        out: served_lines(k, &trace) + &report_lines(m, &trace),
        err: String::new(),
        status: 0,
    }
}

/// A day from bytes to text and back, and from text to bytes.
fn there_and_back(random: &mut Random, tally: &mut Tally, programs: &Programs, longest: usize) {
    let (len, pages) = (random.between(0, longest), random.between(1, 60));
    let trace = random.trace(len, pages);
    let (k, m) = (random.between(1, 4096) as u16, random.between(1, 4096) as u16);
    let bytes = day_bytes(k, m, &trace);
    let lines: String = trace.iter().map(|page| format!("{page}\n")).collect();
    let case = Case {
        kind: "days unpacked",
        program: "play",
        words: words("--unpack"),
        input: bytes.clone(),
        out: format!("# places {k} report {m}\n{lines}"),
        err: String::new(),
        status: 0,
    };
    programs.run(tally, &case);
    for text in [case.out.clone(), text_of(random, &trace)] {
        let output = programs.fed("play", &words(&format!("--pack --places {k} --report {m}")), text.as_bytes(), 1 << 20);
        assert!(output.stdout == bytes && output.stderr.is_empty() && status(&output) == 0, "play --pack: a day of {} requests", trace.len());
        tally.add("play: days packed");
    }
}

/// A challenge that is set by options.
fn asked(random: &mut Random) -> Case {
    let k = random.between(1, 20) as u16;
    let (h, rounds, policy) = (random.between(1, k as usize + 1) as u16, random.between(0, 9) as u16, random.between(0, 2));
    let name = ["lru", "fifo", "lfu"][policy];
    let mut case = Case {
        kind: "challenges set by options",
        program: "challenge",
        words: words(&format!("--rounds {rounds} --policy {name} --places {k} --rival {h}")),
        input: vec![],
        out: challenge_lines(k, h, rounds, POLICIES[policy]),
        err: String::new(),
        status: 0,
    };
    if random.one_in(2) {
        case.kind = "challenges of which the last line is told";
        case.words.push("--summary".to_string());
        case.out = case.out.lines().last().expect("a line").to_string() + "\n";
    }
    case
}

/// Wrong arguments, and what is said of them. `''` is an empty word.
const WRONG: [(&str, &str, &str); 34] = [
    ("play", "--foo", "play: unknown option '--foo' (see play --help)"),
    ("play", "-h", "play: unknown option '-h' (see play --help)"),
    ("play", "--", "play: unknown option '--' (see play --help)"),
    ("play", "--places=3", "play: unknown option '--places=3' (see play --help)"),
    ("play", "--help --foo", "play: unknown option '--foo' (see play --help)"),
    ("play", "--places x", "play: --places needs a number from 1 to 4096, not 'x'"),
    ("play", "--places ''", "play: --places needs a number from 1 to 4096, not ''"),
    ("play", "--places -5", "play: --places needs a number from 1 to 4096, not '-5'"),
    ("play", "--places 18446744073709551617", "play: --places needs a number from 1 to 4096, not '18446744073709551617'"),
    ("play", "--places 0 day.txt", "play: --places needs a number from 1 to 4096, not '0'"),
    ("play", "--report 4097", "play: --report needs a number from 1 to 4096, not '4097'"),
    ("play", "--text --report +5", "play: --report needs a number from 1 to 4096, not '+5'"),
    ("play", "--text --places", "play: --places needs a number from 1 to 4096"),
    ("play", "--svg --text", "play: --svg needs a file name, not '--text'"),
    ("play", "--svg -", "play: --svg needs a file name, not '-'"),
    ("play", "--svg ''", "play: --svg needs a file name, not ''"),
    ("play", "--svg", "play: --svg needs a file name"),
    ("play", "--unpack --text", "play: --unpack does not go with --text"),
    ("play", "--pack --unpack", "play: --unpack does not go with --pack"),
    ("play", "--summary --unpack", "play: --unpack does not go with --summary"),
    ("play", "--unpack --svg x.svg", "play: --unpack does not go with --svg"),
    ("play", "--pack --summary", "play: --pack does not go with --summary"),
    ("play", "--pack --svg x.svg", "play: --pack does not go with --svg"),
    ("play", "--text a b", "play: argument 3: there may be one file at most"),
    ("play", "a --text b", "play: argument 3: there may be one file at most"),
    ("challenge", "--text", "challenge: unknown option '--text' (see challenge --help)"),
    ("challenge", "-h", "challenge: unknown option '-h' (see challenge --help)"),
    ("challenge", "--policy mru", "challenge: --policy needs lru, fifo or lfu, not 'mru'"),
    ("challenge", "--policy", "challenge: --policy needs lru, fifo or lfu"),
    ("challenge", "--rounds 65536", "challenge: --rounds needs a number from 0 to 65535, not '65536'"),
    ("challenge", "--rounds", "challenge: --rounds needs a number from 0 to 65535"),
    ("challenge", "--rival 0", "challenge: --rival needs a number from 1 to 4096, not '0'"),
    ("challenge", "--rival", "challenge: --rival needs a number from 1 to 4096"),
    ("challenge", "--summary a b", "challenge: argument 3: there may be one file at most"),
];

fn wrong(tally: &mut Tally, programs: &Programs) {
    for (program, line, err) in WRONG {
        let words = words(line).iter().map(|word| word.trim_matches('\'').to_string()).collect();
        let case = Case { kind: "wrong arguments", program, words, input: vec![], out: String::new(), err: format!("{err}\n"), status: 1 };
        programs.run(tally, &case);
    }
    for program in ["play", "challenge"] {
        let err = format!("{program}: cannot read the arguments: invalid data\n");
        let case = Case { kind: "an argument that is not text", program, words: vec![], input: vec![], out: String::new(), err, status: 1 };
        let output = programs.command(program, &[]).arg(OsStr::from_bytes(b"day\xff")).output().expect("a program that runs");
        programs.check(tally, &case, &output);
    }
}

/// A page that fits a screen.
fn help(tally: &mut Tally, programs: &Programs, program: &str) {
    let output = programs.fed(program, &words("--help"), &[], 1);
    let with_more = programs.fed(program, &words("--places 3 --help none"), &[], 1);
    assert!(with_more.stdout == output.stdout && with_more.status.success(), "{program} --help beside others");
    let page = String::from_utf8(output.stdout).expect("a page that is text");
    assert!(page.starts_with(&format!("usage: {program} [OPTION].. [FILE]\n")) && output.status.success(), "{program} --help");
    assert!(page.lines().count() <= 24 && page.lines().all(|line| line.len() <= 80), "{program} --help fits no screen");
    tally.add(&format!("{program}: --help"));
}

pub fn run(random: &mut Random, tally: &mut Tally, programs: &Programs) {
    for _ in 0..100 {
        let case = random_text(random, 120);
        programs.run_input(random, tally, case);
        let case = overruled(random);
        programs.run_input(random, tally, case);
        there_and_back(random, tally, programs, 200);
        programs.run(tally, &asked(random));
        let case = packed_in_part(random);
        programs.run_input(random, tally, case);
    }
    for _ in 0..4 {
        let case = random_text(random, 40_000);
        programs.run_input(random, tally, case);
        there_and_back(random, tally, programs, 40_000);
    }
    wrong(tally, programs);
    help(tally, programs, "play");
    help(tally, programs, "challenge");
    tally.need(30, &["play: days as text", "play: text with a word that is no page", "play: days packed", "challenge: challenges set by options"]);
}
