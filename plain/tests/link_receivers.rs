//! Worked rows of a receiver: what it answers to numbers, and what it sends back.
use dllp_core::Dllp;
use link_replay::{NakScheduled, Receiver, Reception};
use seq12::{Seq12, SequenceClass, classify};

/// The next DLLP, as bytes.
fn sent(receiver: &mut Receiver) -> [u8; 4] {
    match receiver.acknowledge() {
        Dllp::Ack(number) => dllp_core::encode(&Dllp::Ack(number)),
        Dllp::Nak(number) => dllp_core::encode(&Dllp::Nak(number)),
        Dllp::Update(..) => [0xFF; 4],
    }
}

#[test]
fn packets_of_a_fresh_receiver() {
    let mut receiver = Receiver::new();
    for (number, answer, dllp) in [
        (4095, Reception::Duplicate, [0x00, 0x00, 0x0F, 0xFF]),
        (2048, Reception::Duplicate, [0x00, 0x00, 0x0F, 0xFF]),
        (1, Reception::NakNow, [0x10, 0x00, 0x0F, 0xFF]),
    ] {
        assert_eq!(receiver.receive(Seq12::new(number), true),
            answer,
            "at {number}"
        );
        assert_eq!(sent(&mut receiver), dllp, "at {number}");
    }
    assert_eq!(receiver.receive(Seq12::new(1), true), Reception::Quiet);
    assert_eq!(receiver.nak_scheduled(), NakScheduled::Sent);
    assert_eq!(receiver.receive(Seq12::new(0), true), Reception::Accept);
    assert_eq!(receiver.next_rcv_seq(), Seq12::new(1));
}

/// The classes of numbers for a receiver that waits for the first.
fn classes_are_right() -> bool {
    let next = Seq12::new(4095).next();
    let mut right = next.previous().value() == 4095;
    for (got, class) in [
        (0, SequenceClass::Expected),
        (4095, SequenceClass::Duplicate),
        (2048, SequenceClass::Duplicate),
        (2047, SequenceClass::Ahead),
        (1, SequenceClass::Ahead),
    ] {
        right &= classify(next, Seq12::new(got)) == class;
    }
    right
}

#[test]
fn classes_beside_a_fresh_receiver() {
    assert!(classes_are_right());
}
