//! Traces and histories that are put in as they are lent.
use history_check::check_claim;
use history_words::{AsClaim, Flaw, FlawKind, RecordRef};
use kit::HostRuntime;
use kit::alloc::{AllocError, Global};
use seq_memory::{EntryRef, Extent, ReplyData, ReplyRef};
use tlp_core::{OpRef, PayloadRef, Width};
use trace_store::TraceStore;

/// How many operations there are.
const OPS: u8 = 11;

/// The answer to the posted write.
const UNASKED: Flaw = Flaw {
    kind: FlawKind::Unasked,
    place: 12,
};

/// Operations, no two of them the same. The first seven are served at 40h, the others aren't. The last two have
/// operands that are too great for their widths.
fn op(which: u8) -> OpRef<'static> {
    let address = 0x40;
    match which {
        0 => OpRef::Read {
            address,
            dw: 1,
            first: 15,
            last: 0,
        },
        1 => OpRef::Write {
            address,
            first: 15,
            last: 0,
            bytes: PayloadRef::new(&[1, 2, 3, 4]),
        },
        2 => OpRef::FetchAdd {
            address,
            width: Width::Four,
            operand: 1,
        },
        3 => OpRef::FetchAdd {
            address,
            width: Width::Eight,
            operand: 1,
        },
        4 => OpRef::Swap {
            address,
            width: Width::Four,
            operand: 1,
        },
        5 => OpRef::Cas {
            address,
            width: Width::Four,
            compare: 1,
            swap: 0x08070605,
        },
        6 => OpRef::Cas {
            address,
            width: Width::Four,
            compare: 1,
            swap: 0x09070605,
        },
        7 => OpRef::Swap {
            address,
            width: Width::Sixteen,
            operand: 0,
        },
        8 => OpRef::Read {
            address: 4096,
            dw: 1,
            first: 15,
            last: 0,
        },
        9 => OpRef::Swap {
            address,
            width: Width::Four,
            operand: 0x1_0000_0001,
        },
        _ => OpRef::Cas {
            address,
            width: Width::Eight,
            compare: 1,
            swap: 0x1_0000_0000_0000_0001,
        },
    }
}

/// What a memory of zeros answers to them, one after the other.
fn reply(which: u8) -> ReplyRef<'static> {
    match which {
        0 => ReplyRef::Data(PayloadRef::new(&[0, 0, 0, 0])),
        1 => ReplyRef::Done,
        2 => ReplyRef::Data(PayloadRef::new(&[1, 2, 3, 4])),
        3 => ReplyRef::Data(PayloadRef::new(&[2, 2, 3, 4, 0, 0, 0, 0])),
        4 => ReplyRef::Data(PayloadRef::new(&[3, 2, 3, 4])),
        5 => ReplyRef::Data(PayloadRef::new(&[1, 0, 0, 0])),
        6 => ReplyRef::Data(PayloadRef::new(&[5, 6, 7, 8])),
        8 => ReplyRef::Unsupported,
        _ => ReplyRef::Aborted,
    }
}

/// Submits them, and puts them into the history.
fn submit(store: &mut TraceStore) -> Result<(), AllocError> {
    for which in 0..OPS {
        store.submitted(1, u32::from(which), 0, &op(which))?;
        store.acted(1, u32::from(which), &op(which))?;
    }
    Ok(())
}

/// Answers them from one on, of which the second is posted.
fn answer_from(store: &mut TraceStore, from: u8) -> Result<(), AllocError> {
    for which in from..OPS {
        store.answered(1, u32::from(which), 11, &reply(which))?;
    }
    Ok(())
}

/// Whether the record submits that operation.
fn is_submission(record: Option<RecordRef<'_>>, which: u8) -> bool {
    match record {
        Some(
            RecordRef::Sub {
                number,
                op: got,
                ..
            },
        ) => { number == u32::from(which) && got.to_owned() == op(which).to_owned() }
        _ => false,
    }
}

/// Whether the record has that answer.
fn is_answer(record: Option<RecordRef<'_>>, which: u8) -> bool {
    match record {
        Some(
            RecordRef::Ans {
                number,
                reply: got,
                ..
            },
        ) => number == u32::from(which) && got.to_owned() == reply(which).to_owned(),
        _ => false,
    }
}

/// Whether the entry is that operation.
fn is_act(entry: Option<EntryRef<'_>>, which: u8) -> bool {
    match entry {
        Some(entry) => entry.number == u32::from(which)
            && entry.op.to_owned() == op(which).to_owned(),
        None => false,
    }
}

/// The place so far behind the submission.
fn place_behind(which: u8, behind: u8) -> usize {
    usize::from(which) + usize::from(behind)
}

/// Whether each record and each entry is what was put in.
fn are_kept(store: &TraceStore) -> bool {
    let mut right = store.records() == 22 && store.entries() == 11;
    for which in 0..OPS {
        right &= is_submission(store.record(usize::from(which)), which);
        right &= is_answer(store.record(place_behind(which, OPS)), which);
        right &= is_act(store.entry(usize::from(which)), which);
    }
    right
}

/// Whether that record submits the operation of its own entry alone.
fn submits_itself(store: &TraceStore, which: u8) -> bool {
    let mut right = true;
    for index in 0..OPS {
        right &= store.submits(usize::from(which), usize::from(index)) == (which == index);
    }
    right
}

/// Whether each record of a submission does so.
fn submit_themselves(store: &TraceStore) -> bool {
    let mut right = true;
    for which in 0..OPS {
        right &= submits_itself(store, which);
    }
    right
}

/// Whether the memory replies to each entry as the record says that stands so far behind its submission.
fn are_replayed(store: &TraceStore, behind: u8, bytes: &mut [u8]) -> bool {
    let mut room = ReplyData::new();
    let mut right = true;
    for which in 0..OPS {
        right &= store.replays(
            usize::from(which),
            Some(place_behind(which, behind)),
            bytes,
            &mut room,
        );
    }
    right
}

/// A store of all, with the answers from one on, over 4096 bytes from 0 on.
fn filled(alloc: Global, from: u8) -> Result<TraceStore, AllocError> {
    let mut store = TraceStore::new(alloc, Extent::new(0, 128, 64).unwrap());
    store.set_extent(Extent::new(0, 4096, 64).unwrap());
    submit(&mut store)?;
    answer_from(&mut store, from)?;
    Ok(store)
}

fn keeps_all(alloc: Global) -> Result<bool, AllocError> {
    Ok(are_kept(&filled(alloc, 0)?))
}

fn tells_apart(alloc: Global) -> Result<bool, AllocError> {
    Ok(submit_themselves(&filled(alloc, 0)?))
}

/// Whether the answers are those of the memory, and those one place further on aren't.
fn replays_all(alloc: Global) -> Result<bool, AllocError> {
    let store = filled(alloc, 0)?;
    let mut bytes = kit::vec![in alloc; 0u8; 4096]?;
    let right = are_replayed(&store, OPS, &mut bytes);
    let mut others = kit::vec![in alloc; 0u8; 4096]?;
    Ok(right && !are_replayed(&store, OPS + 1, &mut others))
}

/// Whether the checker says ok if the posted write has no answer, and else where it has one.
fn is_checked(alloc: Global) -> Result<bool, AllocError> {
    let right = check_claim(alloc, &filled(alloc, 2)?).is_ok();
    let flaw = check_claim(alloc, &filled(alloc, 0)?).err();
    Ok(right && flaw == Some(UNASKED))
}

#[test]
fn each_operation_and_reply_is_kept() {
    let rt = HostRuntime::new();
    assert!(matches!(keeps_all(rt.alloc()), Ok(true)));
}

#[test]
fn operations_are_told_apart() {
    let rt = HostRuntime::new();
    assert!(matches!(tells_apart(rt.alloc()), Ok(true)));
}

#[test]
fn each_entry_is_replayed() {
    let rt = HostRuntime::new();
    assert!(matches!(replays_all(rt.alloc()), Ok(true)));
}

#[test]
fn the_checker_reads_stores() {
    let rt = HostRuntime::new();
    assert!(matches!(is_checked(rt.alloc()), Ok(true)));
}
