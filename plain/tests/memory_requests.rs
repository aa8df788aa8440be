//! Worked requests and completions.
use kit::arrayvec::ArrayVec;
use requester_core::{CompletionFault, Requester, SubmitRefusal};
use seq_memory::Reply;
use tlp_core::{Op, Tlp, TlpFault, Width, decode, encode, payload_of};

fn fetch_add() -> Op {
    Op::FetchAdd {
        address: 0x40,
        width: Width::Four,
        operand: 7,
    }
}

fn unaligned() -> Op {
    Op::Swap {
        address: 0x42,
        width: Width::Four,
        operand: 0,
    }
}

fn write() -> Op {
    Op::Write {
        address: 0x40,
        first: 15,
        last: 0,
        bytes: payload_of(&[1, 2, 3, 4]),
    }
}

/// Whether the packet has the bytes of the first request.
fn is_spelled(packet: &Tlp) -> bool {
    let mut bytes = ArrayVec::new();
    encode(packet, &mut bytes);
    let want = [0x4C, 0, 0, 1, 1, 0, 0, 0, 0, 0, 0, 0x40, 7, 0, 0, 0];
    bytes.as_slice() == want.as_slice()
}

/// Whether the first request has the number 0 and its bytes.
fn is_first(requester: &Requester, op: &Op) -> bool {
    match requester.prepare(&op.lend()) {
        Ok((number, request)) => number == 0 && is_spelled(&request),
        Err(_) => false,
    }
}

/// Whether no request can ask for this.
fn refuses(requester: &Requester, op: &Op) -> bool {
    let refusal = requester.prepare(&op.lend()).err();
    refusal == Some(SubmitRefusal::Profile(TlpFault::Unaligned))
}

fn new_prepares(op: &Op, unaligned: &Op) -> bool {
    let requester = Requester::new(1);
    is_first(&requester, op) && refuses(&requester, unaligned) && requester.port() == 1
}

#[test]
fn first_request() {
    assert!(new_prepares(&fetch_add(), &unaligned()));
}

/// Prepares and opens a request; its number and its tag.
fn submit(requester: &mut Requester, op: &Op) -> Result<(u32, u8), SubmitRefusal> {
    let (number, request) = requester.prepare(&op.lend())?;
    requester.opened(&request);
    Ok((number, request.tag))
}

/// Whether each tag is used in turn, and then none.
fn uses_all_tags(requester: &mut Requester, op: &Op) -> bool {
    let mut right = true;
    for tag in 0..=255u8 {
        right &= submit(requester, op) == Ok((u32::from(tag), tag));
    }
    right && submit(requester, op) == Err(SubmitRefusal::TagsUsed)
}

/// The number of the request that a packet answers, and whether it was aborted.
type Finished = Result<(u32, bool), CompletionFault>;

/// Packets for a requester with all tags used.
static EARLY: [(&[u8], Finished); 4] = [
    (
        &[0x4A, 0, 0, 1, 0, 0, 0, 4, 1, 0, 5, 0, 1, 2, 3, 4],
        Ok((5, false)),
    ),
    (
        &[0x4A, 0, 0, 1, 0, 0, 0, 4, 1, 0, 5, 0, 1, 2, 3, 4],
        Err(CompletionFault::Unexpected),
    ),
    (
        &[0x4A, 0, 0, 1, 0, 0, 0, 4, 2, 0, 7, 0, 1, 2, 3, 4],
        Err(CompletionFault::Unexpected),
    ),
    (
        &[0x4C, 0, 0, 1, 1, 0, 5, 0, 0, 0, 0, 0x40, 7, 0, 0, 0],
        Err(CompletionFault::Unexpected),
    ),
];

/// Packets once the tag that they freed is used again: with more data, without, and aborted.
static LATE: [(&[u8], Finished); 3] = [
    (
        &[
            0x4A, 0, 0, 2, 0, 0, 0, 8, 1, 0, 7, 0, 1, 2, 3, 4, 5, 6, 7, 8,
        ],
        Err(CompletionFault::Mismatch),
    ),
    (
        &[0x0A, 0, 0, 0, 0, 0, 0, 4, 1, 0, 7, 0],
        Err(CompletionFault::Mismatch),
    ),
    (&[0x0A, 0, 0, 0, 0, 0, 0x80, 4, 1, 0, 7, 0], Ok((7, true))),
];

/// What the packet comes to.
fn finish(requester: &mut Requester, packet: &Tlp) -> Finished {
    let answer = requester.finish(packet)?;
    Ok((answer.number, matches!(answer.reply, Reply::Aborted)))
}

/// Whether the packet with these bytes comes to that.
fn comes_to(requester: &mut Requester, bytes: &[u8], want: Finished) -> bool {
    match decode(bytes) {
        Ok(packet) => finish(requester, &packet) == want,
        Err(_) => false,
    }
}

/// Whether each of the packets in turn comes to what it should.
fn finishes(requester: &mut Requester, packets: &[(&[u8], Finished)]) -> bool {
    let mut right = true;
    for (bytes, want) in packets {
        right &= comes_to(requester, bytes, *want);
    }
    right
}

/// Whether tags are used, freed and used again.
fn uses_tags(requester: &mut Requester, op: &Op, posted: &Op) -> bool {
    uses_all_tags(requester, op)
        && submit(requester, posted) == Ok((256, 0))
        && finishes(requester, &EARLY)
        && submit(requester, op) == Ok((257, 5))
        && finishes(requester, &LATE)
}

fn new_uses_tags(op: &Op, posted: &Op) -> bool {
    let mut requester = Requester::new(1);
    uses_tags(&mut requester, op, posted)
}

#[test]
fn all_tags() {
    assert!(new_uses_tags(&fetch_add(), &write()));
}
