//! What callers rely on in the modules after crates of crates.io. With the feature `crates-io` it is asked of these.

mod arrayvec {
    use kit::arrayvec::*;
    use std::rc::Rc;

    #[test]
    fn a_list_holds_as_many_as_it_may() {
        let mut list = ArrayVec::<u8, 4>::new();
        list.try_extend_from_slice(&[1, 2, 3]).unwrap();
        assert!(list.try_extend_from_slice(&[4, 5]).is_err());
        assert_eq!(list.try_push(9), Ok(()));
        assert_eq!(list.try_push(8).map_err(CapacityError::element), Err(8));
        assert_eq!(list.as_slice(), [1, 2, 3, 9]);
        list.truncate(2);
        list.insert(0, 5);
        assert_eq!(list.remove(1), 1);
        assert_eq!(list.into_iter().collect::<std::vec::Vec<_>>(), [5, 2]);
    }

    #[test]
    fn items_are_dropped_once() {
        let one = Rc::new(());
        let mut list = ArrayVec::<Rc<()>, 3>::new();
        list.push(one.clone());
        list.push(one.clone());
        let other = list.clone();
        assert_eq!(Rc::strong_count(&one), 5);
        drop(list.pop());
        drop(list);
        let mut rest = other.into_iter();
        assert!(rest.next().is_some());
        drop(rest);
        assert_eq!(Rc::strong_count(&one), 1);
    }

    #[test]
    fn text_holds_as_much_as_it_may() {
        let mut text = ArrayString::<4>::new();
        text.push_str("ab");
        text.push('é');
        assert!(text.try_push('c').is_err());
        assert_eq!(text.as_str(), "abé");
        text.truncate(2);
        assert_eq!(text.remaining_capacity(), 2);
    }
}

mod byteorder {
    use kit::byteorder::*;

    #[test]
    fn orders_differ() {
        let bytes = [1, 2, 3, 4, 5, 6, 7, 8, 9, 10, 11, 12, 13, 14, 15, 16];
        assert_eq!(BigEndian::read_u16(&bytes), 0x0102);
        assert_eq!(LittleEndian::read_u32(&bytes), 0x0403_0201);
        assert_eq!(BigEndian::read_u64(&bytes), 0x0102_0304_0506_0708);
        assert_eq!(LittleEndian::read_uint128(&bytes, 3), 0x03_0201);
        assert_eq!(BigEndian::read_uint128(&bytes, 3), 0x01_0203);
        let mut out = [0; 17];
        BigEndian::write_u128(&mut out, BigEndian::read_u128(&bytes));
        assert_eq!(out[..16], bytes);
        LittleEndian::write_u16(&mut out, 0x0102);
        assert_eq!(out[..2], [2, 1]);
    }
}

mod hex {
    use kit::hex::*;

    #[test]
    fn digits_and_back() {
        let mut bytes = [0; 4];
        assert_eq!(decode_to_slice("6B697769", &mut bytes), Ok(()));
        assert_eq!(&bytes, b"kiwi");
        assert_eq!(decode_to_slice("6b6", &mut bytes), Err(FromHexError::OddLength));
        assert_eq!(
            decode_to_slice("6b", &mut bytes),
            Err(FromHexError::InvalidStringLength)
        );
        assert_eq!(
            decode_to_slice("6b69776g", &mut bytes),
            Err(FromHexError::InvalidHexCharacter { c: 'g', index: 7 })
        );
        let mut digits = [0; 8];
        assert_eq!(encode_to_slice(b"kiwi", &mut digits), Ok(()));
        assert_eq!(&digits, b"6b697769");
        assert_eq!(encode(kit::alloc::Global, b"kiwi").unwrap().as_str(), "6b697769");
    }
}

mod itoa {
    use kit::itoa::*;

    #[test]
    fn digits() {
        for number in [0, 7, 10, 12_345, u64::MAX] {
            assert_eq!(Buffer::new().format(number), number.to_string());
        }
    }
}

mod memchr {
    use kit::memchr::*;

    #[test]
    fn the_first_is_found() {
        for length in 0..40 {
            for place in 0..length {
                let mut bytes = vec![b'a'; length];
                bytes[place] = b'b';
                assert_eq!(memchr(b'b', &bytes), Some(place));
                bytes[length - 1] = b'b';
                assert_eq!(memchr(b'b', &bytes), Some(place));
            }
            assert_eq!(memchr(b'\n', &vec![0x8a; length]), None);
        }
        assert_eq!(memmem::find(b"a needle", b"need"), Some(2));
        assert_eq!(memmem::find(b"a", b"need"), None);
    }
}
