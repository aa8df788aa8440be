//! The recorder under threads: it has 256 places, so that the pushes of seven threads come back, and are tried again.
use crate::{add, alloc, until};
use history_words::Record;
use kit::HostRuntime;
use recorder::{Pusher, Recorder};
use std::thread;

const REQUESTERS: u8 = 7;
const EACH: u32 = 10_000;

/// Pushes submissions with the numbers from 0 on.
fn push_all(recorder: &Recorder, mut pusher: Pusher, requester: u8) {
    for number in 0..EACH {
        let mut next = Some(Record::Sub { requester, number, op: add(0), n: 0 });
        until("a push", || {
            next = next.take().and_then(|record| recorder.push(&mut pusher, record).err());
            next.is_none()
        });
    }
}

#[test]
fn seven_threads_push_through_256_places() {
    let rt = HostRuntime::new();
    let (recorder, mut taker) = Recorder::new(alloc()).unwrap();
    let mut next = [0; REQUESTERS as usize + 1];
    thread::scope(|scope| {
        for requester in 1..=REQUESTERS {
            let pusher = recorder.begin(&mut taker, requester);
            let recorder = &recorder;
            scope.spawn(move || push_all(recorder, pusher, requester));
        }
        until("records", || {
            if let Some(Record::Sub { requester, number, .. }) = recorder.pop(&rt, &mut taker) {
                assert_eq!(number, next[usize::from(requester)], "of requester {requester}");
                next[usize::from(requester)] += 1;
            }
            next[1..] == [EACH; REQUESTERS as usize]
        });
    });
    assert!(recorder.pop(&rt, &mut taker).is_none());
}
