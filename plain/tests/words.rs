//! Words of a command line on one thread, which leaves runs, sweeps and files to the program; and a window of a picture that
//! the words refuse.
use crate::alloc;
use cli_commands::{Host, NoClock, Outcome, on_one_thread};
use draw_engine::run_draw;
use history_picture::Window;
use kit::Vec;
use std::io::sink;

/// What becomes of the words, with what is told.
fn done(words: &[&str]) -> (Outcome, String) {
    let (mut reader, mut out, mut errors) = ("zz\n".as_bytes(), Vec::new(alloc()), Vec::new(alloc()));
    let host = Host { alloc: alloc(), is_terminal: false, clock: &NoClock };
    let outcome = on_one_thread(words, host, &mut reader, &mut out, &mut errors);
    assert!(out.is_empty());
    (outcome, String::from_utf8(errors.as_slice().to_vec()).unwrap())
}

#[test]
fn a_run_and_a_sweep_are_left_undone() {
    let (run, told) = done(&["pciex", "run", "--requesters", "7", "--each", "100000"]);
    assert!(matches!(run, Outcome::Run { is_told: false, .. }) && told.is_empty());
    let (sweep, told) = done(&["pciex", "sweep", "--seeds", "1..3", "--events=20", "--keep-going"]);
    assert!(matches!(sweep, Outcome::Sweep(asked) if asked.storm.seed == 1 && asked.last == 3 && asked.keeps_going));
    assert!(told.is_empty());
}

#[test]
fn a_file_is_no_argument() {
    for word in ["0", "script.txt"] {
        for subcommand in ["tlp", "step"] {
            let (outcome, told) = done(&["pciex", subcommand, word]);
            assert!(matches!(outcome, Outcome::Ended(2)));
            assert!(told.starts_with(&format!("error: unexpected argument '{word}'")), "{told}");
            let file = format!("reads standard input, or a file: pciex {subcommand} FILE\n");
            assert!(told.ends_with(&file), "{told}");
        }
    }
}

#[test]
fn a_window_from_behind_the_end_has_the_last_point() {
    let trace = "pciex-trace 2\nmemory 0 4096 64\nsub 1 0 0 add 40 07000000\nans 1 0 1 data 00000000\nhistory\nent 1 0 add 40 07000000\nend\n";
    let (mut reader, mut out) = (trace.as_bytes(), Vec::new(alloc()));
    assert_eq!(run_draw(alloc(), Window { from: 9, to: 0 }, &mut reader, &mut out, &mut sink()), Ok(0));
    let picture = String::from_utf8(out.as_slice().to_vec()).unwrap();
    assert!(picture.contains(">points 0 to 0 of 1</text>"), "{picture}");
}
