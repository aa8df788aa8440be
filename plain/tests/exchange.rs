//! Packets cross a link whose wire loses some, past several wraps of the sequence numbers.
use crate::alloc;
use dllp_core::Dllp;
use kit::arrayvec::ArrayVec;
use link_replay::{Receiver, Reception};
use link_replay::{Cargo, Sender, WINDOW};

/// What the receiver sends back takes effect.
fn acknowledge(sender: &mut Sender, receiver: &mut Receiver) {
    let taken = match receiver.acknowledge() {
        Dllp::Ack(number) => sender.ack(number),
        Dllp::Nak(number) => sender.nak(number),
        Dllp::Update(..) => panic!("no credits are sent"),
    };
    assert!(taken.is_ok());
}

/// Sends until all is acknowledged: every fifth packet's check fails, every seventh is lost, and the replay timer expires
/// every sixteen. All is handed up in order: gives the mark after that of the last.
fn drain(sender: &mut Sender, receiver: &mut Receiver, first: u32) -> u32 {
    let mut due = first;
    for turn in 0..100_000 {
        if turn % 7 == 6 {
            let _lost = sender.transmit();
        }
        let crossed = sender.transmit().map(|(number, cargo)| (receiver.receive(number, turn % 5 != 4), cargo.mark));
        match crossed {
            Some((Reception::Accept, mark)) => {
                assert_eq!(mark, due);
                due += 1;
            }
            Some((Reception::Quiet, _)) => {}
            _ => acknowledge(sender, receiver),
        }
        if turn % 16 == 15 {
            sender.timer();
            sender.retrained();
        }
        if sender.is_empty() {
            break;
        }
    }
    due
}

#[test]
fn each_packet_is_accepted_once() {
    let mut sender = Sender::new(alloc());
    let mut receiver = Receiver::new();
    let mut due = 0;
    for round in 1..8 {
        for mark in due..due + WINDOW as u32 {
            assert!(sender.accept(Cargo { bytes: ArrayVec::new(), mark }).is_ok());
        }
        due = drain(&mut sender, &mut receiver, due);
        assert_eq!(due, round * 2047);
    }
    assert_eq!(receiver.next_rcv_seq().value(), sender.next_transmit_seq().value());
}
