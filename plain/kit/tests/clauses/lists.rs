//! Lists, queues, texts and boxes.

use crate::{Random, and, drop_of, inserted, refused, removed, rounds, take};
use kit::alloc::{AllocError, AllocFailed, Global};
use kit::arrayvec::{ArrayString, ArrayVec};
use kit::collections::VecDeque;
use std::fmt::Write as _;
use std::io::Write as _;
use std::rc::Rc;

type List = kit::Vec<u32>;

/// What clauses say of any call: its result beside its list before and after.
fn grows(result: Result<(), Option<u32>>, item: u32, now: &List, ok: &[u32], before: (&[u32], usize), room: usize) {
    match result {
        Ok(()) => assert_eq!(now.as_slice(), ok),
        Err(back) => {
            assert!(back.is_none_or(|back| back == item));
            assert_eq!(now.as_slice(), before.0);
            assert!(before.1 < before.0.len() + room, "there was room, and the call failed");
        }
    }
    assert!(before.1 <= now.capacity());
}

/// Of vec::Vec: push insert remove pop truncate clear reserve try_reserve extend_from_slice push_reserved
#[test]
fn a_list_is_what_its_calls_make_of_it() {
    rounds(|random| {
        let mut list: List = kit::Vec::new(Global);
        assert!(list.as_slice().is_empty());
        for _ in 0..60 {
            let old: Vec<u32> = list.as_slice().to_vec();
            let before = (&old[..], list.capacity());
            let item = random.word() as u32;
            let place = random.below(old.len() + 1);
            match random.below(10) {
                0 | 1 => {
                    let pushed = refused(random, || list.push(item)).map_err(|AllocFailed { value }| Some(value));
                    grows(pushed, item, &list, &and(&old, &[item]), before, 1);
                }
                2 => {
                    let put = refused(random, || list.insert(place, item)).map_err(|AllocFailed { value }| Some(value));
                    grows(put, item, &list, &inserted(&old, place, item), before, 1);
                }
                3 => {
                    let more: Vec<u32> = (0..random.below(9) as u32).collect();
                    let put = refused(random, || list.extend_from_slice(&more)).map_err(|AllocError| None);
                    grows(put, 0, &list, &and(&old, &more), before, more.len());
                }
                4 if place < old.len() => {
                    assert_eq!(list.remove(place), old[place]);
                    assert_eq!(list.as_slice(), removed(&old, place));
                }
                5 => {
                    assert_eq!(list.pop(), old.last().copied());
                    assert_eq!(list.as_slice(), take(old.len().saturating_sub(1), &old));
                }
                6 => {
                    let count = random.below(old.len() + 3);
                    list.truncate(count);
                    assert_eq!((list.as_slice(), list.capacity()), (&take(count, &old)[..], before.1));
                }
                7 if place == 0 => {
                    list.clear();
                    assert_eq!((list.as_slice(), list.capacity()), (&[][..], before.1));
                }
                8 => {
                    let more = random.below(20);
                    let made = refused(random, || if item % 2 == 0 { list.reserve(more) } else { list.try_reserve(more) });
                    assert!(made.is_err() || old.len() + more <= list.capacity());
                    assert!(made.is_ok() || list.capacity() == before.1);
                    grows(made.map_err(|AllocError| None), 0, &list, &old, before, more);
                }
                _ if old.len() < list.capacity() => {
                    list.push_reserved(item);
                    assert_eq!((list.as_slice(), list.capacity()), (&and(&old, &[item])[..], before.1));
                }
                _ => {}
            }
        }
    });
}

/// Of vec::Vec: new with_capacity from_elem as_slice as_mut_slice deref deref_mut eq into_iter write flush
#[test]
fn a_list_is_made_and_read() {
    rounds(|random| {
        let (count, item) = (random.below(40), random.word() as u32);
        if let Ok(made) = refused(random, || List::with_capacity(Global, count)) {
            assert!(made.as_slice().is_empty() && made.capacity() >= count);
        }
        let Ok(mut list) = refused(random, || List::from_elem(Global, item, count)) else {
            assert!(count > 0);
            return;
        };
        let mut all = vec![item; count];
        assert_eq!((list.as_slice(), &*list), (&all[..], &all[..]));
        if count > 0 {
            let place = random.below(count);
            list.as_mut_slice()[place] ^= 1;
            all[place] ^= 1;
            list[count - 1 - place] ^= 2;
            all[count - 1 - place] ^= 2;
            list.sort_unstable();
            all.sort_unstable();
        }
        let mut other = List::new(Global);
        other.extend_from_slice(&all).unwrap();
        assert!(list == other);
        other.push(0).unwrap();
        assert!(list != other);
        assert!((&list).into_iter().eq(&all) && list.into_iter().eq(all));

        let bytes = random.bytes(30);
        let mut out: kit::Vec<u8> = kit::Vec::new(Global);
        let one = refused(random, || out.write(&bytes).ok());
        assert!(one.is_none() && out.is_empty() || one == Some(bytes.len()) && out.as_slice() == bytes);
        assert!(out.flush().is_ok());
    });
}

/// Of vec::Vec: sort sort_by sort_by_key sort_by_cached_key
#[test]
fn a_list_is_sorted_or_as_it_was() {
    rounds(|random| {
        let count = random.below(50);
        let items: Vec<(u8, usize)> = (0..count).map(|place| (random.below(6) as u8, place)).collect();
        for way in 0..4 {
            let mut list: kit::Vec<(u8, usize)> = kit::Vec::new(Global);
            list.extend_from_slice(&items).unwrap();
            let sorted = refused(random, || match way {
                0 => list.sort_by(|one, other| one.0.cmp(&other.0)),
                1 => list.sort_by_key(|one| one.0),
                2 => list.sort_by_cached_key(|one| one.0),
                _ => list.sort(),
            });
            if sorted.is_err() {
                assert_eq!(list.as_slice(), items);
                continue;
            }
            // (equal keys keep their order, so that here each is sorted as a whole)
            assert!(list.windows(2).all(|two| two[0] < two[1]));
            assert!(items.iter().all(|item| list.contains(item)) && list.len() == count);
        }
    });
}

/// Of arrayvec::ArrayVec: new push pop truncate clear try_extend_from_slice try_from as_slice as_mut_slice deref len is_empty eq drop
/// Of arrayvec::CapacityError: fmt
#[test]
fn a_list_in_place_is_what_its_calls_make_of_it() {
    let counted = Rc::new(());
    rounds(|random| {
        let mut list = ArrayVec::<u8, 12>::new();
        let mut shared = ArrayVec::<Rc<()>, 12>::new();
        for _ in 0..60 {
            let old = list.as_slice().to_vec();
            match random.below(6) {
                0 | 1 if old.len() < 12 => {
                    let item = random.word() as u8;
                    list.push(item);
                    shared.push(counted.clone());
                    assert_eq!(list.as_slice(), and(&old, &[item]));
                }
                2 => {
                    assert_eq!(list.pop(), old.last().copied());
                    assert_eq!(shared.pop().is_some(), !old.is_empty());
                    assert_eq!(list.as_slice(), take(old.len().saturating_sub(1), &old));
                }
                3 => {
                    let count = random.below(14);
                    list.truncate(count);
                    shared.truncate(count);
                    assert_eq!(list.as_slice(), take(count, &old));
                }
                4 => {
                    let more = random.bytes(6);
                    let fits = old.len() + more.len() <= 12;
                    let put = list.try_extend_from_slice(&more);
                    assert_eq!(put.is_ok(), fits);
                    assert_eq!(list.as_slice(), if fits { and(&old, &more) } else { old });
                    if let Err(error) = put {
                        assert_eq!(format!("{error:?}"), "CapacityError: insufficient capacity");
                    } else {
                        (0..more.len()).for_each(|_| shared.push(counted.clone()));
                    }
                }
                5 if random.below(9) == 0 => {
                    list.clear();
                    shared.clear();
                    assert!(list.as_slice().is_empty());
                }
                _ => {
                    let all = random.bytes(16);
                    let made = ArrayVec::<u8, 12>::try_from(&all[..]);
                    assert_eq!(made.is_ok(), all.len() <= 12);
                    if let Ok(made) = made {
                        assert_eq!(made == list, all == old);
                        assert!(made[..] == all[..] && made == made.clone());
                    }
                    list.as_mut_slice().reverse();
                    assert!(list.iter().rev().eq(&old));
                }
            }
            assert_eq!((list.len(), list.is_empty()), (list.as_slice().len(), list.as_slice().is_empty()));
            assert_eq!((shared.len(), Rc::strong_count(&counted)), (list.len(), 1 + list.len()));
        }
    });
    assert_eq!(Rc::strong_count(&counted), 1);
}

/// Of arrayvec::ArrayString: new push push_str try_push_str write_str as_str as_bytes len clear
#[test]
fn a_text_in_place_is_what_its_calls_make_of_it() {
    rounds(|random| {
        let mut text = ArrayString::<24>::new();
        for _ in 0..40 {
            let old = text.as_str().to_owned();
            let more = random.text(6);
            let fits = old.len() + more.len() <= 24;
            let first = more.chars().next().filter(|first| old.len() + first.len_utf8() <= 24);
            let wanted = match random.below(5) {
                0 if fits => {
                    text.push_str(&more);
                    old + &more
                }
                1 => match first {
                    Some(first) => {
                        text.push(first);
                        old + first.encode_utf8(&mut [0; 4])
                    }
                    None => old,
                },
                2 => {
                    let put = text.try_push_str(&more);
                    assert_eq!(put.is_ok(), fits);
                    assert!(put.is_ok_and(|()| true) || !fits);
                    if fits { old + &more } else { old }
                }
                3 => {
                    assert_eq!(text.write_str(&more).is_ok(), fits);
                    if fits { old + &more } else { old }
                }
                _ if random.below(6) == 0 => {
                    text.clear();
                    String::new()
                }
                _ => old,
            };
            assert_eq!((text.as_str(), text.as_bytes(), text.len()), (&wanted[..], wanted.as_bytes(), wanted.len()));
        }
    });
}

/// Of string::String: new from_str push_str as_str as_bytes len into_bytes
#[test]
fn a_text_is_what_its_calls_make_of_it() {
    rounds(|random| {
        let first = random.text(6);
        let mut text = kit::String::new(Global);
        assert_eq!((text.as_str(), text.len()), ("", 0));
        match refused(random, || kit::String::from_str(Global, &first)) {
            Ok(made) => {
                assert_eq!(made.as_str(), first);
                text = made;
            }
            Err(AllocError) => assert!(!first.is_empty()),
        }
        for _ in 0..20 {
            let old = text.as_str().to_owned();
            let more = random.text(8);
            let put = refused(random, || text.push_str(&more));
            let wanted = if put.is_ok() { old + &more } else { old };
            assert!(put.is_ok() || !more.is_empty());
            assert_eq!((text.as_str(), text.as_bytes(), text.len()), (&wanted[..], wanted.as_bytes(), wanted.len()));
        }
        let all = text.as_bytes().to_vec();
        assert_eq!(text.into_bytes().as_slice(), all);
    });
}

/// What of a queue a place has.
fn is(queue: &VecDeque<u32>, list: &[u32]) -> bool {
    let size = list.len();
    queue.iter().eq(list)
        && queue.len() == size
        && queue.is_empty() == (size == 0)
        && queue.front() == list.first()
        && (0..size + 2).all(|place| queue.get(place) == list.get(place))
        && (0..size).all(|place| queue[place] == list[place])
}

/// Of collections::VecDeque: new push_back pop_front remove reserve clear get_mut front get index iter len is_empty
#[test]
fn a_queue_is_what_its_calls_make_of_it() {
    rounds(|random| {
        let mut queue: VecDeque<u32> = VecDeque::new(Global);
        let mut list: Vec<u32> = Vec::new();
        for _ in 0..60 {
            assert!(is(&queue, &list));
            let item = random.word() as u32;
            let place = random.below(list.len() + 2);
            let capacity = queue.capacity();
            match random.below(8) {
                0..=2 => match refused(random, || queue.push_back(item)) {
                    Ok(()) => list = and(&list, &[item]),
                    Err(AllocFailed { value }) => assert!(value == item && list.len() == capacity),
                },
                3 => {
                    assert_eq!(queue.pop_front(), list.first().copied());
                    list = drop_of(1, &list);
                }
                4 => {
                    assert_eq!(queue.remove(place), list.get(place).copied());
                    list = removed(&list, place);
                }
                5 => match queue.get_mut(place) {
                    Some(one) => {
                        assert_eq!(*one, list[place]);
                        *one = item;
                        list = and(&and(&take(place, &list), &[item]), &drop_of(place + 1, &list));
                    }
                    None => assert!(place >= list.len()),
                },
                6 => {
                    let more = random.below(20);
                    let made = refused(random, || queue.reserve(more));
                    assert!(if made.is_ok() { list.len() + more <= queue.capacity() } else { list.len() + more > capacity });
                }
                _ if place == 0 => {
                    queue.clear();
                    list = Vec::new();
                }
                _ => {}
            }
        }
        assert!(is(&queue, &list));
    });
}

/// Of boxed::Box: new deref deref_mut into_inner into_raw_with_allocator from_raw
#[test]
fn a_box_has_its_value() {
    rounds(|random: &mut Random| {
        let value = [random.word(); 5];
        match refused(random, || kit::Box::new(Global, value)) {
            Ok(mut held) => {
                assert_eq!(*held, value);
                held[2] ^= 1;
                let (at, alloc) = kit::Box::into_raw_with_allocator(held);
                // The first call with what the call above gave.
                let held: kit::Box<[u64; 5]> = unsafe { kit::Box::from_raw(alloc, at) };
                let mut wanted = value;
                wanted[2] ^= 1;
                assert_eq!(kit::Box::into_inner(held), wanted);
            }
            Err(AllocFailed { value: back }) => assert_eq!(back, value),
        }
    });
}
