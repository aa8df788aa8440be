//! Numbers, their bytes and digits, and what searches in them.

use crate::rounds;
use kit::byteorder::{BigEndian, ByteOrder, LittleEndian};
use kit::hex::FromHexError;
use kit::rand_core::utils::NextWord;
use kit::rand_pcg::Lcg64Xsh32;

/// The number of bytes, the greatest first.
fn number_of(bytes: &[u8]) -> u128 {
    bytes.iter().fold(0, |number, byte| number * 256 + u128::from(*byte))
}

/// The bytes of a number, the greatest first.
fn bytes_of(count: u32, number: u128) -> Vec<u8> {
    (0..count).rev().map(|place| (number / 256u128.pow(place) % 256) as u8).collect()
}

fn reversed(bytes: &[u8]) -> Vec<u8> {
    bytes.iter().rev().copied().collect()
}

/// Of byteorder::BigEndian: read_u16 read_u32 read_u64 read_u128 read_uint128 write_u16 write_u32 write_u64 write_u128
#[test]
fn the_greatest_byte_comes_first() {
    rounds(|random| {
        let bytes: Vec<u8> = (0..20).map(|_| random.word() as u8).collect();
        assert_eq!(u128::from(BigEndian::read_u16(&bytes)), number_of(&bytes[..2]));
        assert_eq!(u128::from(BigEndian::read_u32(&bytes)), number_of(&bytes[..4]));
        assert_eq!(u128::from(BigEndian::read_u64(&bytes)), number_of(&bytes[..8]));
        assert_eq!(BigEndian::read_u128(&bytes), number_of(&bytes[..16]));
        let count = 1 + random.below(16);
        assert_eq!(BigEndian::read_uint128(&bytes, count), number_of(&bytes[..count]));
        let number = number_of(&bytes[4..]);
        let written = |write: &dyn Fn(&mut [u8]), size: u32| {
            let mut out = bytes.clone();
            write(&mut out);
            assert_eq!(out, [bytes_of(size, number), bytes[size as usize..].to_vec()].concat());
        };
        written(&|out| BigEndian::write_u16(out, number as u16), 2);
        written(&|out| BigEndian::write_u32(out, number as u32), 4);
        written(&|out| BigEndian::write_u64(out, number as u64), 8);
        written(&|out| BigEndian::write_u128(out, number), 16);
    });
}

/// Of byteorder::LittleEndian: read_u16 read_u32 read_u64 read_u128 read_uint128 write_u16 write_u32 write_u64 write_u128
#[test]
fn the_least_byte_comes_first() {
    rounds(|random| {
        let bytes: Vec<u8> = (0..20).map(|_| random.word() as u8).collect();
        assert_eq!(u128::from(LittleEndian::read_u16(&bytes)), number_of(&reversed(&bytes[..2])));
        assert_eq!(u128::from(LittleEndian::read_u32(&bytes)), number_of(&reversed(&bytes[..4])));
        assert_eq!(u128::from(LittleEndian::read_u64(&bytes)), number_of(&reversed(&bytes[..8])));
        assert_eq!(LittleEndian::read_u128(&bytes), number_of(&reversed(&bytes[..16])));
        let count = 1 + random.below(16);
        assert_eq!(LittleEndian::read_uint128(&bytes, count), number_of(&reversed(&bytes[..count])));
        let number = number_of(&bytes[4..]);
        let written = |write: &dyn Fn(&mut [u8]), size: u32| {
            let mut out = bytes.clone();
            write(&mut out);
            assert_eq!(out, [reversed(&bytes_of(size, number)), bytes[size as usize..].to_vec()].concat());
        };
        written(&|out| LittleEndian::write_u16(out, number as u16), 2);
        written(&|out| LittleEndian::write_u32(out, number as u32), 4);
        written(&|out| LittleEndian::write_u64(out, number as u64), 8);
        written(&|out| LittleEndian::write_u128(out, number), 16);
    });
}

/// The bytes of digits, pair by pair, or the first character that is none.
fn decoded(digits: &[u8]) -> Result<Vec<u8>, FromHexError> {
    let value = |index: usize| match (digits[index] as char).to_digit(16) {
        Some(value) => Ok(value as u8),
        None => Err(FromHexError::InvalidHexCharacter { c: digits[index] as char, index }),
    };
    (0..digits.len() / 2).map(|pair| Ok(value(2 * pair)? * 16 + value(2 * pair + 1)?)).collect()
}

/// Of hex: decode_to_slice
#[test]
fn digits_are_bytes() {
    rounds(|random| {
        let mut digits: Vec<u8> = (0..random.below(21)).map(|_| b"0123456789abcdefABCDEF"[random.below(22)]).collect();
        if !digits.is_empty() && random.below(3) == 0 {
            let place = random.below(digits.len());
            digits[place] = random.word() as u8;
        }
        let size = if random.below(4) == 0 { random.below(11) } else { digits.len() / 2 };
        let before: Vec<u8> = (0..size).map(|_| random.word() as u8).collect();
        let mut out = before.clone();
        let result = kit::hex::decode_to_slice(&digits, &mut out);
        let wanted = match digits.len() {
            odd if odd % 2 == 1 => Err(FromHexError::OddLength),
            even if even / 2 != size => Err(FromHexError::InvalidStringLength),
            _ => decoded(&digits),
        };
        assert_eq!(result.clone().map(|()| out.clone()), wanted);
        assert!(digits.len() == 2 * size || out == before);
    });
}

/// Of itoa::Buffer: new format
#[test]
fn decimal_digits_are_the_number() {
    rounds(|random| {
        let number = random.word() >> random.below(64);
        for number in [number, 0, 9, 10, u64::MAX] {
            let mut buffer = kit::itoa::Buffer::new();
            let text = buffer.format(number);
            assert!(text.len() == 1 || !text.starts_with('0'));
            assert!(text.bytes().all(|digit| digit.is_ascii_digit()));
            assert_eq!(text.bytes().fold(0u128, |sum, digit| sum * 10 + u128::from(digit - b'0')), u128::from(number));
        }
    });
}

/// Of memchr: memchr memrchr
#[test]
fn the_first_and_the_last_place_of_a_byte_are_found() {
    rounds(|random| {
        let (size, kinds) = (random.below(80), 1 + random.below(40));
        let hay: Vec<u8> = (0..size).map(|_| random.below(kinds) as u8).collect();
        let needle = random.below(kinds) as u8;
        match kit::memchr::memchr(needle, &hay) {
            Some(place) => assert!(hay[place] == needle && !hay[..place].contains(&needle)),
            None => assert!(!hay.contains(&needle)),
        }
        match kit::memchr::memrchr(needle, &hay) {
            Some(place) => assert!(hay[place] == needle && !hay[place + 1..].contains(&needle)),
            None => assert!(!hay.contains(&needle)),
        }
    });
}

/// A state of the generator after one more step.
fn next_state(increment: u128, state: u128) -> u128 {
    (state * 6_364_136_223_846_793_005 % (1 << 64) + increment) % (1 << 64)
}

/// The word of a state: exclusive or, shifted, and turned by the upper five bits.
fn output(state: u128) -> u32 {
    let word = ((state / (1 << 18)) ^ state) / (1 << 27) % (1 << 32);
    let turns = state / (1 << 59);
    ((word >> turns) | (word << ((32 - turns) % 32)) % (1 << 32)) as u32
}

/// Of rand_pcg::Lcg64Xsh32: new next_word
#[test]
fn a_generator_goes_as_its_definition() {
    rounds(|random| {
        let (start, stream) = (random.word(), random.word());
        let mut generator = Lcg64Xsh32::new(start, stream);
        let increment = u128::from(stream) * 2 % (1 << 64) | 1;
        let mut state = next_state(increment, (u128::from(start) + increment) % (1 << 64));
        for _ in 0..20 {
            assert_eq!(generator.next_word(), output(state));
            state = next_state(increment, state);
        }
    });
}
