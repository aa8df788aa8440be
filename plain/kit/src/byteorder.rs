//! Numbers in bytes, the least or the greatest first: after the crate `byteorder`.

/// The greatest byte first.
#[derive(Clone, Copy, Debug)]
pub enum BigEndian {}

/// The least byte first.
#[derive(Clone, Copy, Debug)]
pub enum LittleEndian {}

/// An order of bytes.
pub trait ByteOrder {
    fn read_u16(bytes: &[u8]) -> u16;
    fn read_u32(bytes: &[u8]) -> u32;
    fn read_u64(bytes: &[u8]) -> u64;
    fn read_u128(bytes: &[u8]) -> u128;
    /// A number of `count` bytes, 1 to 16.
    fn read_uint128(bytes: &[u8], count: usize) -> u128;
    fn write_u16(bytes: &mut [u8], number: u16);
    fn write_u32(bytes: &mut [u8], number: u32);
    fn write_u64(bytes: &mut [u8], number: u64);
    fn write_u128(bytes: &mut [u8], number: u128);
}

#[inline(always)]
fn first<const N: usize>(bytes: &[u8]) -> [u8; N] {
    let mut all = [0; N];
    all.copy_from_slice(&bytes[..N]);
    all
}

impl ByteOrder for BigEndian {
    #[inline(always)]
    fn read_u16(bytes: &[u8]) -> u16 {
        u16::from_be_bytes(first(bytes))
    }

    #[inline(always)]
    fn read_u32(bytes: &[u8]) -> u32 {
        u32::from_be_bytes(first(bytes))
    }

    #[inline(always)]
    fn read_u64(bytes: &[u8]) -> u64 {
        u64::from_be_bytes(first(bytes))
    }

    #[inline(always)]
    fn read_u128(bytes: &[u8]) -> u128 {
        u128::from_be_bytes(first(bytes))
    }

    #[inline(always)]
    fn read_uint128(bytes: &[u8], count: usize) -> u128 {
        bytes[..count]
            .iter()
            .fold(0, |number, byte| number << 8 | u128::from(*byte))
    }

    #[inline(always)]
    fn write_u16(bytes: &mut [u8], number: u16) {
        bytes[..2].copy_from_slice(&number.to_be_bytes());
    }

    #[inline(always)]
    fn write_u32(bytes: &mut [u8], number: u32) {
        bytes[..4].copy_from_slice(&number.to_be_bytes());
    }

    #[inline(always)]
    fn write_u64(bytes: &mut [u8], number: u64) {
        bytes[..8].copy_from_slice(&number.to_be_bytes());
    }

    #[inline(always)]
    fn write_u128(bytes: &mut [u8], number: u128) {
        bytes[..16].copy_from_slice(&number.to_be_bytes());
    }
}

impl ByteOrder for LittleEndian {
    #[inline(always)]
    fn read_u16(bytes: &[u8]) -> u16 {
        u16::from_le_bytes(first(bytes))
    }

    #[inline(always)]
    fn read_u32(bytes: &[u8]) -> u32 {
        u32::from_le_bytes(first(bytes))
    }

    #[inline(always)]
    fn read_u64(bytes: &[u8]) -> u64 {
        u64::from_le_bytes(first(bytes))
    }

    #[inline(always)]
    fn read_u128(bytes: &[u8]) -> u128 {
        u128::from_le_bytes(first(bytes))
    }

    #[inline(always)]
    fn read_uint128(bytes: &[u8], count: usize) -> u128 {
        let mut all = [0; 16];
        all[..count].copy_from_slice(&bytes[..count]);
        u128::from_le_bytes(all)
    }

    #[inline(always)]
    fn write_u16(bytes: &mut [u8], number: u16) {
        bytes[..2].copy_from_slice(&number.to_le_bytes());
    }

    #[inline(always)]
    fn write_u32(bytes: &mut [u8], number: u32) {
        bytes[..4].copy_from_slice(&number.to_le_bytes());
    }

    #[inline(always)]
    fn write_u64(bytes: &mut [u8], number: u64) {
        bytes[..8].copy_from_slice(&number.to_le_bytes());
    }

    #[inline(always)]
    fn write_u128(bytes: &mut [u8], number: u128) {
        bytes[..16].copy_from_slice(&number.to_le_bytes());
    }
}
