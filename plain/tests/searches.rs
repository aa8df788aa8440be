//! Searches by a clock of the tests' own, and without a choice, which the command line refuses.
use crate::alloc;
use kit::{Vec, io, time::Clock};
use log_pieces::Granularity;
use search_engine::{
    NoClock, SearchDemand, SearchOptions, SearchTask, Stages, answer_of, answer_with_reasons, run_search_for, run_search_with,
};
use std::cell::Cell;
use std::time::Duration;

/// A log of 12 records that takes 6 choices.
const HARD: &str = "\
pciex-log 2
memory 0 4096 64
sub 1 0 add 40 01000000
sub 2 0 add 40 02000000
sub 3 0 add 40 04000000
sub 4 0 swap 44 01000000
sub 7 0 read 40 2 F F
ans 7 0 data 0600000000000000
sub 7 1 read 40 2 F F
ans 7 1 data 0700000001000000
ans 1 0 done
ans 2 0 done
ans 3 0 done
ans 4 0 done
end
";

/// A clock that is so many milliseconds later each time that it is read.
struct Ticks {
    time: Cell<u64>,
    step: u64,
}

impl Clock for Ticks {
    fn monotonic(&self) -> io::Result<Duration> {
        Ok(Duration::from_millis(self.time.replace(self.time.get() + self.step)))
    }

    fn since_1970(&self) -> io::Result<Duration> {
        Ok(Duration::ZERO)
    }
}

fn options(limit: u64, stages: Stages) -> SearchOptions {
    SearchOptions { limit, granularity: Granularity::Whole, stages }
}

/// The exit status, what is written and what is told of the search of a log.
fn searched<C: Clock>(options: SearchOptions, work: u64, clock: &C) -> (u8, String, String) {
    let (mut reader, mut out, mut errors) = (HARD.as_bytes(), Vec::new(alloc()), Vec::new(alloc()));
    let task = SearchTask { demand: SearchDemand { options, work, has_core: false }, clock };
    let status = run_search_for(alloc(), task, &mut reader, &mut out, &mut errors).unwrap();
    (status, text(out.as_slice()), text(errors.as_slice()))
}

fn text(bytes: &[u8]) -> String {
    String::from_utf8(bytes.to_vec()).unwrap()
}

/// The lines that say after how many choices, of so many.
fn choices(counts: &[u64], limit: u64) -> String {
    let lines = counts.iter().map(|count| format!("{count} of {limit} choices\n"));
    format!("12 records\n{}", lines.collect::<String>())
}

#[test]
fn choices_are_told() {
    let given_up = "pciex: given up at line 8 (open requests: 5)\npciex: lines 3 to 7 have a history\n";
    for (name, limit, stages, step, told, exit) in [
        ("at the end of a search that is over at once", 1000, Stages::Shown, 0, choices(&[6], 1000), 0),
        ("after two seconds, and four later", 100, Stages::Shown, 1000, choices(&[2, 6], 100), 0),
        ("no pause is longer than 16 seconds", 100, Stages::Shown, 16_000, choices(&[1, 2, 3, 4, 5, 6], 100), 0),
        ("sixteen seconds are longer than fifteen", 100, Stages::Shown, 15_000, choices(&[1, 2, 3, 5, 6], 100), 0),
        ("the limit is told once", 1, Stages::Shown, 2000, choices(&[1], 1) + given_up, 3),
        ("no long log", 100, Stages::OfLongLogs, 2000, String::new(), 0),
        ("hidden", 100, Stages::Hidden, 2000, String::new(), 0),
    ] {
        let clock = Ticks { time: Cell::new(0), step };
        let (status, _, errors) = searched(options(limit, stages), 1_000_000, &clock);
        assert_eq!((status, errors), (exit, told), "{name}");
    }
}

#[test]
fn no_choice_is_a_limit() {
    let (status, out, errors) = searched(options(0, Stages::Hidden), 1, &NoClock);
    assert_eq!((status, out.as_str(), errors.as_str()), (3, "limit 0\n", ""));
    let (mut reader, mut out, mut errors) = (HARD.as_bytes(), Vec::new(alloc()), Vec::new(alloc()));
    assert_eq!(run_search_with(alloc(), options(0, Stages::Hidden), &mut reader, &mut out, &mut errors), Ok(3));
    assert!(errors.is_empty());
}

#[test]
fn answers_end_at_their_bounds() {
    let told = "pciex: given up at line 8 (open requests: 5)\npciex: lines 3 to 7 have a history\n";
    let farther = "pciex: given up at line 8 (open requests: 4)\npciex: lines 3 to 7 have a history\n";
    for (limit, work, status, answer, reasons) in [
        (1000, u64::MAX, 0, "pciex-trace 2\n", ""),
        (1000, 1, 3, "work 1\n", ""),
        (1000, 1000, 3, "work 1000\n", farther),
        (1, 1000, 3, "limit 1\n", told),
        (0, 1, 3, "limit 0\n", ""),
    ] {
        let outcome = answer_of(alloc(), HARD.as_bytes(), limit, work).unwrap();
        assert_eq!(outcome.status, status, "{limit} {work}");
        assert!(text(outcome.text.as_slice()).starts_with(answer), "{limit} {work}");
        let mut lines = Vec::new(alloc());
        let outcome = answer_with_reasons(alloc(), HARD.as_bytes(), options(limit, Stages::Hidden), work, &mut lines).unwrap();
        assert_eq!((outcome.status, text(lines.as_slice()).as_str()), (status, reasons), "{limit} {work}");
        assert!(text(outcome.text.as_slice()).starts_with(answer), "{limit} {work}");
    }
}
