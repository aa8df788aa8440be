//! The receive queue beside one list in order of arrival.
use crate::alloc;
use dllp_core::Class;
use std::collections::VecDeque;
use tlp_core::{Tlp, decode};
use flow_control::OrderedQueue;

const CLASSES: [Class; 3] = [Class::Posted, Class::NonPosted, Class::Completion];

/// The packet of a step: a write, a read and a completion in turn, of requester 1 and a tag below 5.
fn packet(step: u32) -> Tlp {
    let tag = (step % 5) as u8;
    let tlp = match step % 3 {
        0 => decode(&[0x40, 0, 0, 1, 0, 1, tag, 0x0F, 0, 0, 0, 0, 1, 2, 3, 4]),
        1 => decode(&[0x00, 0, 0, 1, 0, 1, tag, 0x0F, 0, 0, 0, 0]),
        _ => decode(&[0x0A, 0, 0, 0, 0, 0, 0, 4, 0, 1, tag, 0]),
    };
    tlp.ok().unwrap()
}

/// The class of the packet of a step.
fn class_of_step(step: u32) -> Class {
    CLASSES[step as usize % 3]
}

/// The ordering table (section 2.4.1), a row for the packet of each class that comes later: nothing passes a posted
/// request, all else may pass, but no completion one of its own request. Packets of one tag are of one request here.
fn table_allows(later: u32, earlier: u32) -> bool {
    match (class_of_step(later), class_of_step(earlier)) {
        (Class::Posted, Class::Posted) => false,
        (Class::Posted, Class::NonPosted) => true,
        (Class::Posted, Class::Completion) => true,
        (Class::NonPosted, Class::Posted) => false,
        (Class::NonPosted, Class::NonPosted) => true,
        (Class::NonPosted, Class::Completion) => true,
        (Class::Completion, Class::Posted) => false,
        (Class::Completion, Class::NonPosted) => true,
        (Class::Completion, Class::Completion) => later % 5 != earlier % 5,
    }
}

/// A queue, and the steps of its packets in a list.
struct Both {
    queue: OrderedQueue,
    list: VecDeque<u32>,
}

impl Both {
    /// Whether the packet of a place of the list may pass every earlier one.
    fn is_takeable(&self, place: usize) -> bool {
        let Some(step) = self.list.get(place) else { return false };
        self.list.iter().take(place).all(|earlier| table_allows(*step, *earlier))
    }

    /// Both have the same items, and agree at every place and past the end.
    fn agree(&self) {
        assert_eq!(self.queue.len(), self.list.len());
        for place in 0..=self.list.len() {
            assert_eq!(self.queue.takeable(place), self.is_takeable(place), "place {place}");
            match (self.queue.at(place), self.list.get(place)) {
                (Some((tlp, mark)), Some(step)) => assert!(mark == *step && *tlp == packet(*step), "place {place}"),
                (None, None) => {}
                _ => panic!("place {place}"),
            }
        }
    }

    /// Both have the same packets of a class, in one order, with the same first place, and their arrival numbers rise.
    fn agree_of(&self, class: Class) {
        let place = self.list.iter().position(|step| class_of_step(*step) == class);
        assert_eq!(self.queue.first_of(class), place);
        let lent = self.queue.class_items(class);
        let wanted: Vec<u32> = self.list.iter().copied().filter(|step| class_of_step(*step) == class).collect();
        assert!(lent.iter().map(|arrived| arrived.mark).eq(wanted));
        assert!(lent.iter().all(|arrived| arrived.tlp == packet(arrived.mark)));
        assert!(lent.iter().zip(lent.iter().skip(1)).all(|(one, next)| one.arrival < next.arrival));
    }

    /// The greatest takeable place of both is taken.
    fn take_greatest(&mut self) {
        let Some(place) = (0..self.queue.len()).rev().find(|place| self.queue.takeable(*place)) else { return };
        assert!(self.is_takeable(place), "place {place}");
        let (tlp, mark) = self.queue.take(place);
        assert!(self.list.remove(place) == Some(mark) && tlp == packet(mark));
    }
}

/// A queue agrees with a list, its arrival numbers beginning at `start`. After every push of an odd step from `first_take`
/// on a packet is taken.
fn agrees_from(start: u64, steps: u32, first_take: u32) {
    let mut both = Both { queue: OrderedQueue::starting_at(alloc(), start), list: VecDeque::new() };
    for step in 0..steps {
        assert!(both.queue.push(packet(step), step).is_ok());
        both.list.push_back(step);
        both.agree();
        if step % 2 == 1 && first_take <= step {
            both.take_greatest();
            both.agree();
        }
        CLASSES.into_iter().for_each(|class| both.agree_of(class));
    }
}

#[test]
fn six_hundred_steps() {
    agrees_from(0, 600, 0);
}

/// Three of each class below the greatest number, then pushes and takes through it.
#[test]
fn numbers_turn_over() {
    for start in [u64::MAX - 10, u64::MAX - 9, u64::MAX - 8] {
        agrees_from(start, 60, 9);
    }
}

/// Nine packets below the greatest number, which is given to none, and more: with the tenth they are numbered anew in their
/// order.
#[test]
fn numbered_anew() {
    const TOP: u64 = u64::MAX;
    let mut queue = OrderedQueue::starting_at(alloc(), TOP - 9);
    let rows: [(u32, [&[u64]; 3]); 3] = [
        (9, [&[TOP - 9, TOP - 6, TOP - 3], &[TOP - 8, TOP - 5, TOP - 2], &[TOP - 7, TOP - 4, TOP - 1]]),
        (10, [&[0, 3, 6, 9], &[1, 4, 7], &[2, 5, 8]]),
        (12, [&[0, 3, 6, 9], &[1, 4, 7, 10], &[2, 5, 8, 11]]),
    ];
    let mut step = 0;
    for (steps, numbers) in rows {
        while step < steps {
            assert!(queue.push(packet(step), step).is_ok());
            step += 1;
        }
        for (class, wanted) in CLASSES.into_iter().zip(numbers) {
            assert!(queue.class_items(class).iter().map(|arrived| arrived.arrival).eq(wanted.iter().copied()));
        }
    }
}
