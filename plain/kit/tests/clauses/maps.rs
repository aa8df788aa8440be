//! Maps, beside lists of pairs.

use crate::{and, refused, rounds};
use kit::alloc::{AllocFailed, Global};
use kit::collections::{BTreeMap, HashMap};

/// The value of a key.
fn found(pairs: &[(u64, u32)], key: u64) -> Option<&u32> {
    pairs.iter().find(|pair| pair.0 == key).map(|pair| &pair.1)
}

/// The pairs with this one in place of the key's.
fn put(pairs: &[(u64, u32)], key: u64, value: u32) -> Vec<(u64, u32)> {
    let others: Vec<_> = pairs.iter().copied().filter(|pair| pair.0 != key).collect();
    and(&others, &[(key, value)])
}

/// Of collections::HashMap: new insert get contains_key
/// Of collections::Folding: default write_u64 finish
#[test]
fn a_map_has_the_last_value_of_each_key() {
    rounds(|random| {
        let mut map = HashMap::new(Global);
        let mut pairs = Vec::new();
        for _ in 0..60 {
            let key = random.word() & 0x1000_0000_0000_001F;
            let value = random.word() as u32;
            match refused(random, || map.insert(key, value)) {
                Ok(before) => {
                    assert_eq!(before.as_ref(), found(&pairs, key));
                    pairs = put(&pairs, key, value);
                }
                Err(AllocFailed { value: back }) => assert_eq!(back, (key, value)),
            }
            let other = random.word() & 0x1000_0000_0000_001F;
            for key in [key, other] {
                assert_eq!(map.get(&key), found(&pairs, key));
                assert_eq!(map.contains_key(&key), found(&pairs, key).is_some());
            }
        }
        assert_eq!(map.len(), pairs.len());
    });
}

/// Of collections::BTreeMap: new insert get contains_key
#[test]
fn a_sorted_map_has_the_last_value_of_each_key() {
    rounds(|random| {
        let mut map = BTreeMap::new(Global);
        let mut pairs = Vec::new();
        for _ in 0..60 {
            let (key, value) = (random.word() % 40, random.word() as u32);
            assert_eq!(map.insert(key, value).ok().unwrap().as_ref(), found(&pairs, key));
            pairs = put(&pairs, key, value);
            let other = random.word() % 40;
            assert_eq!(map.get(&other), found(&pairs, other));
            assert_eq!(map.contains_key(&other), found(&pairs, other).is_some());
        }
        let mut sorted = pairs.clone();
        sorted.sort_unstable();
        assert!(map.iter().map(|(key, value)| (*key, *value)).eq(sorted));
    });
}
