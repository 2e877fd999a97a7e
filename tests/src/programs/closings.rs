//! What is said when a day is over: the summary, and the picture of the report.

use super::{Case, Programs, day_bytes, report_lines, served_lines, small_or_edge};
use crate::caches;
use crate::random::Random;
use crate::tally::Tally;
use std::collections::BTreeSet;
use std::fs;
use std::os::unix::fs::{FileTypeExt, symlink};

fn some(n: u64, one: &str, many: &str) -> String {
    if n == 1 { one.to_string() } else { format!("{n} {many}") }
}

/// The paragraph of a day with k places (docs/FORMATS.md, "The summary"), or why there is none.
fn summary_lines(k: u16, trace: &[u64]) -> String {
    if k == 0 || k > 4096 {
        return "refused 1 at 0\n".to_string();
    }
    if trace.len() > 4096 {
        return format!("refused 4 at {}\n", trace.len());
    }
    if trace.is_empty() {
        return "There were no requests, and nothing was fetched.\n".to_string();
    }
    let row = caches::report(trace, 4096);
    let (house, known) = (|c: u64| row[c as usize - 1], |c: u64| row[4095 + c as usize]);
    let k = k as u64;
    let (ours, fewest) = (house(k), known(k));
    let hundredths = (100 * ours).div_ceil(fewest);
    let fetched = format!("{ours}, and nobody could have fetched fewer than {fewest}: at most {}.{:02} times as many.", hundredths / 100, hundredths % 100);
    // k x known(h) / (k - h + 1) is least for this h; both sides are multiplied out, and of several the largest is taken.
    let tight = (1..=k).reduce(|a, b| if known(b) * (k - a + 1) <= known(a) * (k - b + 1) { b } else { a }).expect("a place");
    let needed = (1..=4096).find(|c| house(*c) <= fewest).expect("enough places");
    let pages = trace.iter().collect::<BTreeSet<_>>().len() as u64;
    let places = |n| some(n, "1 place", "places");
    let lines = [
        format!("{} for {}.", some(trace.len() as u64, "1 request", "requests"), some(pages, "1 page", "different pages")),
        format!("With {} the house fetched {fetched}", places(k)),
        format!("Promised: at most {} as anybody with {}.", some(k, "as many", "times as many"), places(k)),
        format!(
            "Tightest for this day against {}: ({k} - {tight} + 1) x {ours} <= {k} x {}, so at most {}.",
            places(tight),
            known(tight),
            k * known(tight) / (k - tight + 1)
        ),
        format!("To fetch no more than {fewest} the house needs {}.", places(needed)),
    ];
    lines.map(|line| line + "\n").concat()
}

fn summed(random: &mut Random, longest: usize) -> Case {
    let (k, m) = (small_or_edge(random, 12), small_or_edge(random, 30));
    let (len, pages) = (random.between(0, longest), random.between(1, 30));
    let trace = random.trace(len, pages);
    Case {
        kind: "days whose summary is told",
        program: "play",
        words: vec!["--summary".to_string()],
        input: day_bytes(k, m, &trace),
        out: summary_lines(k, &trace) + &report_lines(m, &trace),
        err: String::new(),
        status: 0,
    }
}

/// The number behind the first such text of a line, and what follows it.
fn number<'a>(line: &'a str, before: &str) -> (u64, &'a str) {
    let rest = line.split_once(before).unwrap_or_else(|| panic!("no {before:?} in {line:?}")).1;
    let end = rest.find(|c: char| !c.is_ascii_digit()).unwrap_or(rest.len());
    (rest[..end].parse().expect("a number"), &rest[end..])
}

/// Sees that a picture has the axes, both curves and the mark where docs/FORMATS.md and docs/ARCHITECTURE.md ("picture") have them.
fn looked_at(text: &str, k: u64, m: u64, row: &[u64]) {
    assert!(text.is_ascii() && text.starts_with("<svg ") && text.ends_with("</svg>\n"), "a picture of {m} places");
    let lines_with = |what: &str| -> Vec<&str> { text.lines().filter(|line| line.contains(what)).collect() };
    let fetches: Vec<(u64, u64)> = lines_with("stroke='#ccc'").iter().map(|line| (number(line, "M80 ").0, number(line, "'end'>").0)).collect();
    let (top_at, top) = *fetches.last().expect("an axis for fetches");
    let height = |n: u64| 420 - 330 * n / top;
    let apart = fetches[1].1;
    assert!(matches!(apart, 1 | 2 | 5 | 10 | 20 | 50 | 100 | 200 | 500 | 1000) && fetches.len() <= 6, "the axis for fetches: {fetches:?}");
    assert!(top_at == 90 && top >= row[0].max(1) && top < row[0].max(1) + apart, "the axis for {} fetches ends at {top}", row[0]);
    assert!(fetches.iter().zip(0..).all(|((y, n), i)| *n == i * apart && *y == height(*n)), "the axis for fetches: {fetches:?}");
    let (house, known) = row.split_at(m as usize);
    for (colour, curve) in [("#d2691e' stroke-width='6' d=", house), ("#102a5c' stroke-width='2.5' stroke-dasharray='9 4' d=", known)] {
        let steps = (1..m).filter(|c| height(curve[*c as usize]) != height(curve[*c as usize - 1]));
        let steps: String = steps.map(|c| format!("H{}V{}", 80 + 680 * c / m, height(curve[c as usize]))).collect();
        let drawn = lines_with(&format!("{colour}'M80"));
        assert!(drawn.len() == 1 && drawn[0].contains(&format!("{colour}'M80 {}{steps}H760'/>", height(curve[0]))), "a curve of {m} places: {drawn:?}");
    }
    let marks = lines_with(", gap ");
    if k == 0 || k > m {
        return assert!(marks.is_empty(), "a mark at {k} of {m} places");
    }
    let (ours, fewest) = (house[k as usize - 1], known[k as usize - 1]);
    assert!(marks.len() == 1 && marks[0].contains(&format!(">{k}: house {ours} known {fewest}, gap {}<", ours - fewest)), "the mark at {k} of {m} places: {marks:?}");
    let x = 80 + 340 * (2 * k - 1) / m;
    assert!(text.contains(&format!("'M{x} 70V420'")) && text.contains(&format!("'M{x} {}V{}'", height(ours), height(fewest))), "the strokes at {k} of {m} places");
}

const OLD: &str = "what stood there before";

/// A day whose report is drawn: the picture takes the place of what stood under its name, or that stays.
fn drawn(random: &mut Random, tally: &mut Tally, programs: &Programs) {
    let (k, m) = (small_or_edge(random, 12), small_or_edge(random, 30));
    let (len, pages) = (if random.one_in(20) { 4097 } else { random.between(0, 120) }, random.between(1, 30));
    let trace = random.trace(len, pages);
    let out = programs.file("out.svg", OLD.as_bytes());
    let fits = m > 0 && m <= 4096 && trace.len() <= 4096;
    let case = Case {
        kind: if fits { "days whose report is drawn" } else { "days with no report to draw" },
        program: "play",
        words: vec!["--svg".to_string(), out.clone()],
        input: day_bytes(k, m, &trace),
        out: served_lines(k, &trace) + &report_lines(m, &trace),
        err: if fits { String::new() } else { "play: there is no report to draw\n".to_string() },
        status: !fits as i32,
    };
    programs.run(tally, &case);
    let text = fs::read_to_string(&out).expect("a picture");
    assert!(!fs::exists(format!("{out}.part")).expect("a folder"), "something stands beside the picture");
    if fits {
        looked_at(&text, k as u64, m as u64, &caches::report(&trace, m as usize));
    } else {
        assert_eq!(text, OLD, "the file where there is no report");
    }
}

/// A picture that can't be written: what is told, and that nothing but what stood there before is under its name.
fn undrawn(tally: &mut Tally, programs: &Programs) {
    let trace = [1, 2, 3, 1, 4, 1, 2, 5, 3, 1];
    let lines = served_lines(3, &trace) + &report_lines(4, &trace);
    let folder = programs.folder.to_str().expect("a path that is text");
    let try_one = |tally: &mut Tally, kind, out: &str, why: &str| {
        let case = Case {
            kind,
            program: "play",
            words: ["--svg", out].map(str::to_string).to_vec(),
            input: day_bytes(3, 4, &trace),
            out: lines.clone(),
            err: format!("play: cannot write {out}: {why}\n"),
            status: 1,
        };
        programs.run(tally, &case);
    };
    try_one(tally, "a picture in a folder that is not there", &format!("{folder}/none/out.svg"), "No such file or directory (os error 2)");
    let place = format!("{folder}/place");
    fs::create_dir(&place).expect("a folder");
    try_one(tally, "a picture that goes to a full device", "/dev/full", "No space left on device (os error 28)");
    try_one(tally, "a picture by the name of a folder", &place, "Is a directory (os error 21)");
    assert!(!fs::exists(format!("{place}.part")).expect("a folder"), "half a picture stays beside {place}");
    let out = programs.file("kept.svg", OLD.as_bytes());
    let kept = || assert_eq!(fs::read_to_string(&out).expect("the file of before"), OLD, "the file where no picture was written");
    fs::create_dir(format!("{out}.part")).expect("a folder");
    try_one(tally, "a picture whose other name is a folder's", &out, "Is a directory (os error 21)");
    kept();
    fs::remove_dir(format!("{out}.part")).expect("the folder of before");
    // The picture is written to a full disk, as far as the program can tell.
    symlink("/dev/full", format!("{out}.part")).expect("a link");
    try_one(tally, "a picture on a full disk", &out, "No space left on device (os error 28)");
    kept();
    assert!(fs::symlink_metadata(format!("{out}.part")).is_err(), "half a picture stays beside {out}");
    assert!(fs::symlink_metadata("/dev/full").expect("/dev/full").file_type().is_char_device(), "/dev/full was replaced");
    unfinished(tally, programs, &out);
    kept();
}

/// A day that is not played to its end has no picture.
fn unfinished(tally: &mut Tally, programs: &Programs, out: &str) {
    let case = Case {
        kind: "a picture of a day that does not end well",
        program: "play",
        words: ["--text", "--places", "2", "--svg", out].map(str::to_string).to_vec(),
        input: b"1 2\nx 3".to_vec(),
        out: "1: fetched\n2: fetched\n".to_string(),
        err: "standard input:2: 'x' is not a page number (0 to 4294967295)\n".to_string(),
        status: 1,
    };
    programs.run(tally, &case);
}

/// The example of docs/, byte by byte: in a file, in one that a link's name becomes, and on standard output behind the lines.
fn example(tally: &mut Tally, programs: &Programs) {
    let example = fs::read_to_string("docs/examples/ten.svg").expect("the example");
    let drawn = |out: &str| {
        let words = ["--text", "docs/examples/ten.txt", "--places", "3", "--report", "4", "--svg", out].map(str::to_string);
        let output = programs.fed("play", &words, &[], 1);
        assert!(output.status.success(), "docs/examples/ten.svg as {out}");
        String::from_utf8(output.stdout).expect("lines")
    };
    let out = programs.file("ten.svg", b"");
    let lines = drawn(&out);
    assert_eq!(fs::read_to_string(&out).expect("a picture"), example, "docs/examples/ten.svg");
    assert_eq!(drawn("/dev/stdout"), lines + &example, "docs/examples/ten.svg on standard output");
    let (file, link) = (programs.file("linked.svg", OLD.as_bytes()), format!("{out}.link"));
    symlink(&file, &link).expect("a link");
    drawn(&link);
    assert!(fs::symlink_metadata(&link).expect("a picture").is_file(), "a link to a file is replaced");
    assert_eq!(fs::read_to_string(&file).expect("the file of before"), OLD, "the file that a link led to");
    tally.add("play: the picture of the example");
}

pub fn run(random: &mut Random, tally: &mut Tally, programs: &Programs) {
    for _ in 0..100 {
        let case = summed(random, 120);
        programs.run_input(random, tally, case);
        drawn(random, tally, programs);
    }
    let case = summed(random, 9_000);
    programs.run_input(random, tally, case);
    undrawn(tally, programs);
    example(tally, programs);
    tally.need(30, &["play: days whose summary is told", "play: days whose report is drawn"]);
    tally.need(5, &["play: days with no report to draw"]);
}
