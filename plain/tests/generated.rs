//! Storms of `generate`: arrivals by the plan, and a writer that has no more room.
use crate::alloc;
use parameters::Plan;
use generate_engine::run_generate;
use kit::{Vec, io};
use lane_core::Fate;
use line_loop::EngineFault;
use parameters::Storm;
use std::io::Write;

/// A storm with something of all.
fn mixed(events: u64) -> Storm {
    Storm { seed: 7, events, requesters: 3, lose: 16, corrupt: 32, block: 64 }
}

/// The storm's script.
fn script_of(storm: &Storm) -> Vec<u8> {
    let mut script = Vec::new(alloc());
    assert_eq!(run_generate(alloc(), storm, &mut script), Ok(0));
    script
}

fn word_of(fate: Fate) -> &'static str {
    match fate {
        Fate::Good => "good",
        Fate::Failed => "failed",
        Fate::Lost => "lost",
    }
}

#[test]
fn arrivals_follow_the_plan() {
    let script = script_of(&mixed(20_000));
    let text = std::str::from_utf8(script.as_slice()).unwrap();
    let plan = Plan { lose_every: 16, corrupt_every: 32 };
    for event in ["deliver", "deliver-dllp"] {
        for lane in ["up1", "up3", "down1", "down3", "in", "out"] {
            let beginning = format!("{event} {lane} ");
            let mut count = 0;
            for line in text.lines().filter(|line| line.starts_with(&beginning)) {
                count += 1;
                assert_eq!(&line[beginning.len()..], word_of(plan.fate(count)), "{beginning}{count}");
            }
            assert!(count > 100, "{beginning}: {count} lines");
        }
    }
}

/// Takes so many bytes, and then none.
struct Bounded {
    taken: std::vec::Vec<u8>,
    room: usize,
}

impl Write for Bounded {
    fn write(&mut self, buf: &[u8]) -> io::Result<usize> {
        let count = buf.len().min(self.room - self.taken.len());
        self.taken.extend_from_slice(&buf[..count]);
        Ok(count)
    }

    fn flush(&mut self) -> io::Result<()> {
        Ok(())
    }
}

#[test]
fn a_full_writer_has_a_beginning() {
    let storm = mixed(1000);
    let script = script_of(&storm);
    for room in [0, 1, 40, 41, 4000, 12_000] {
        let mut writer = Bounded { taken: std::vec::Vec::new(), room };
        assert_eq!(run_generate(alloc(), &storm, &mut writer), Err(EngineFault::Write), "{room} bytes");
        assert_eq!(writer.taken.as_slice(), &script.as_slice()[..room]);
    }
}
