//! What memories hold, answer and refuse.
use kit::HostRuntime;
use kit::alloc::{AllocError, Global};
use kit::arrayvec::ArrayVec;
use seq_memory::{Entry, Extent, Memory, Refusal, Reply, enabled_bytes, is_base, is_block, is_size, perform};
use tlp_core::{MAX_PAYLOAD, Op, Width};

/// An operation, by what the rows tell of it.
#[derive(Clone, Copy)]
enum Access {
    /// So many DW from an address on, with all their bytes.
    Read(u64, u16),
    /// The same with these first and last enables.
    ReadSome(u64, u16, u8, u8),
    /// These bytes from an address on, with these first and last enables.
    Write(u64, u8, u8, &'static [u8]),
    /// An operand of 4 bytes for the sum at 40h.
    Add(u128),
    /// An operand of 8 bytes for 40h.
    Swap(u128),
    /// 16 bytes at an address, compared with the first and set to the second.
    Cas(u64, u128, u128),
}

fn bytes_of(bytes: &[u8]) -> ArrayVec<u8, MAX_PAYLOAD> {
    let mut data = ArrayVec::new();
    let _ = data.try_extend_from_slice(bytes);
    data
}

fn read(address: u64, dw: u16) -> Op {
    let last = if dw == 1 { 0 } else { 15 };
    Op::Read {
        address,
        dw,
        first: 15,
        last,
    }
}

fn op_of(access: Access) -> Op {
    match access {
        Access::Read(address, dw) => read(address, dw),
        Access::ReadSome(address, dw, first, last) => Op::Read {
            address,
            dw,
            first,
            last,
        },
        Access::Write(address, first, last, bytes) => Op::Write {
            address,
            first,
            last,
            bytes: bytes_of(bytes),
        },
        Access::Add(operand) => Op::FetchAdd {
            address: 0x40,
            width: Width::Four,
            operand,
        },
        Access::Swap(operand) => Op::Swap {
            address: 0x40,
            width: Width::Eight,
            operand,
        },
        Access::Cas(address, compare, swap) => Op::Cas {
            address,
            width: Width::Sixteen,
            compare,
            swap,
        },
    }
}

fn act(memory: &mut Memory, access: Access) -> Result<Reply, AllocError> {
    memory.act(Entry {
        requester: 1,
        number: 0,
        op: op_of(access),
    })
}

fn small(alloc: Global) -> Result<Memory, AllocError> {
    Memory::new(alloc, Extent::new(0, 4096, 64).unwrap())
}

/// What a memory answers.
#[derive(Clone, Copy)]
enum Want {
    Done,
    Data(&'static [u8]),
    Unsupported,
    Aborted,
}

/// Whether the reply is the wanted one.
fn is_wanted(reply: &Reply, want: Want) -> bool {
    match (reply, want) {
        (Reply::Data(data), Want::Data(bytes)) => data.as_slice() == bytes,
        (Reply::Done, Want::Done)
        | (Reply::Unsupported, Want::Unsupported)
        | (Reply::Aborted, Want::Aborted) => true,
        _ => false,
    }
}

/// An operation, and what a memory answers to it.
type Answered = (Access, Want);

/// Whether the operation is answered so.
fn answers(memory: &mut Memory, access: Access, want: Want) -> Result<bool, AllocError> {
    let reply = act(memory, access)?;
    Ok(is_wanted(&reply, want))
}

/// Whether each operation is answered as it should be, in turn.
fn answers_all(memory: &mut Memory, rows: &[Answered]) -> Result<bool, AllocError> {
    let mut right = true;
    for (access, want) in rows {
        right &= answers(memory, *access, *want)?;
    }
    Ok(right)
}

/// Operations on 40h of a new memory, and their answers.
static HISTORY: [Answered; 8] = [
    (Access::Add(7), Want::Data(&[0; 4])),
    (Access::Read(0x40, 1), Want::Data(&[7, 0, 0, 0])),
    (
        Access::Write(0x40, 0b1010, 0b0101, &[1, 2, 3, 4, 5, 6, 7, 8]),
        Want::Done,
    ),
    (Access::Read(0x40, 2), Want::Data(&[7, 2, 0, 4, 5, 0, 7, 0])),
    (
        Access::ReadSome(0x40, 2, 0b0011, 0b1000),
        Want::Data(&[7, 2, 0, 0, 0, 0, 0, 0]),
    ),
    (Access::Swap(9), Want::Data(&[7, 2, 0, 4, 5, 0, 7, 0])),
    (
        Access::Cas(0x40, 9, 1),
        Want::Data(&[9, 0, 0, 0, 0, 0, 0, 0, 0, 0, 0, 0, 0, 0, 0, 0]),
    ),
    (
        Access::Cas(0x40, 9, 2),
        Want::Data(&[1, 0, 0, 0, 0, 0, 0, 0, 0, 0, 0, 0, 0, 0, 0, 0]),
    ),
];

/// Whether there are so many entries, and this byte is at 40h.
fn holds(memory: &Memory, entries: usize, byte: u8) -> bool {
    memory.entries().len() == entries && memory.bytes().get(0x40) == Some(&byte)
}

/// The history; eight entries, and what the last left.
fn has_history(memory: &mut Memory, rows: &[Answered]) -> Result<bool, AllocError> {
    let right = answers_all(memory, rows)?;
    Ok(right && holds(memory, 8, 1) && memory.base() == 0 && memory.block() == 64)
}

fn new_has_history(rows: &[Answered], alloc: Global) -> Result<bool, AllocError> {
    let mut memory = small(alloc)?;
    has_history(&mut memory, rows)
}

#[test]
fn a_history() {
    let rt = HostRuntime::new();
    assert!(matches!(new_has_history(&HISTORY, rt.alloc()), Ok(true)));
}

/// The end of the address space.
const LAST_DW: u64 = 0xFFFF_FFFF_FFFF_FFFC;

const ABORTED: Option<Refusal> = Some(Refusal::Aborted);

const UNSUPPORTED: Option<Refusal> = Some(Refusal::Unsupported);

/// An operation, and how it is refused by blocks of 64 bytes and by blocks of 128.
type Refused = (Access, Option<Refusal>, Option<Refusal>);

/// Operations on 4096 bytes from 1000h on.
static REFUSALS: [Refused; 16] = [
    (Access::Read(0x103C, 1), None, None),
    (Access::Read(0x103C, 2), ABORTED, None),
    (Access::Read(0x107C, 2), ABORTED, ABORTED),
    (Access::Read(0x1000, 32), ABORTED, None),
    (Access::Read(0x1000, 33), ABORTED, ABORTED),
    (Access::Read(0x1000, 1024), ABORTED, ABORTED),
    (Access::Read(0x1042, 1), ABORTED, ABORTED),
    (Access::Cas(0x1FF0, 0, 1), None, None),
    (Access::Cas(0x1FF8, 0, 1), ABORTED, ABORTED),
    (Access::Read(0x1FFC, 1), None, None),
    (Access::Read(0x1FFC, 2), ABORTED, ABORTED),
    (Access::Read(0x2000, 1), UNSUPPORTED, UNSUPPORTED),
    (Access::Read(0xFFC, 1), UNSUPPORTED, UNSUPPORTED),
    (Access::Read(0xFFC, 2), ABORTED, ABORTED),
    (Access::Read(LAST_DW, 1), UNSUPPORTED, UNSUPPORTED),
    (Access::Read(LAST_DW, 2), ABORTED, ABORTED),
];

/// Whether the two memories refuse the operation so.
fn is_refused(narrow: &Memory, wide: &Memory, row: &Refused) -> bool {
    let (access, by_64, by_128) = *row;
    let op = op_of(access);
    narrow.refusal(&op) == by_64 && wide.refusal(&op) == by_128
}

/// Whether each operation is refused as it should be.
fn refuse_all(narrow: &Memory, wide: &Memory, rows: &[Refused]) -> bool {
    let mut right = true;
    for row in rows {
        right &= is_refused(narrow, wide, row);
    }
    right
}

/// Beside blocks of 128 bytes.
fn refuse_beside(narrow: &Memory, rows: &[Refused], alloc: Global) -> Result<bool, AllocError> {
    let wide = Memory::new(alloc, Extent::new(0x1000, 4096, 128).unwrap())?;
    Ok(refuse_all(narrow, &wide, rows))
}

fn both_refuse(rows: &[Refused], alloc: Global) -> Result<bool, AllocError> {
    let narrow = Memory::new(alloc, Extent::new(0x1000, 4096, 64).unwrap())?;
    refuse_beside(&narrow, rows, alloc)
}

#[test]
fn blocks_before_bounds() {
    let rt = HostRuntime::new();
    assert!(matches!(both_refuse(&REFUSALS, rt.alloc()), Ok(true)));
}

/// A write that crosses blocks, and one past the end.
static REFUSED: [Answered; 2] = [
    (Access::Write(0x3C, 15, 15, &[1; 8]), Want::Aborted),
    (Access::Write(0x1000, 15, 0, &[1; 4]), Want::Unsupported),
];

fn has_zeros(memory: &Memory) -> bool {
    let mut zeros = true;
    for byte in memory.bytes() {
        zeros &= *byte == 0;
    }
    zeros
}

/// The refused writes are entries, and change no byte.
fn keeps_refused(memory: &mut Memory, rows: &[Answered]) -> Result<bool, AllocError> {
    let right = answers_all(memory, rows)?;
    Ok(right && memory.entries().len() == 2 && has_zeros(memory))
}

fn new_keeps_refused(rows: &[Answered], alloc: Global) -> Result<bool, AllocError> {
    let mut memory = small(alloc)?;
    keeps_refused(&mut memory, rows)
}

#[test]
fn refused_accesses_are_entries() {
    let rt = HostRuntime::new();
    assert!(matches!(new_keeps_refused(&REFUSED, rt.alloc()), Ok(true)));
}

/// Numbers of bytes, and whether a memory may have them.
const SIZES: [(usize, bool); 6] = [
    (0, false),
    (64, false),
    (128, true),
    (200, false),
    (1_048_576, true),
    (1_048_704, false),
];

fn sizes_are_limited() -> bool {
    let mut right = true;
    for (size, want) in SIZES {
        right &= is_size(size) == want;
    }
    right
}

/// Addresses and sizes, and whether a memory may begin there.
const BASES: [(u64, usize, bool); 4] = [
    (0, 128, true),
    (64, 128, false),
    (0xFFFF_FFFF_FFFF_FF80, 128, true),
    (0xFFFF_FFFF_FFFF_FF80, 256, false),
];

fn bases_are_limited() -> bool {
    let mut right = true;
    for (base, size, want) in BASES {
        right &= is_base(base, size) == want;
    }
    right
}

fn blocks_are_limited() -> bool {
    is_block(64) && is_block(128) && !is_block(96)
}

#[test]
fn limits() {
    assert!(sizes_are_limited() && bases_are_limited() && blocks_are_limited());
}

/// Whether four bytes are written to 84h, where the slice begins at 80h.
fn writes_to(bytes: &mut [u8; 128]) -> bool {
    let op = op_of(Access::Write(0x84, 15, 0, &[1, 2, 3, 4]));
    matches!(perform(0x80, 128, bytes, &op), Reply::Done)
}

fn writes_to_zeros() -> bool {
    let mut bytes = [0; 128];
    writes_to(&mut bytes) && &bytes[4..8] == [1, 2, 3, 4].as_slice()
}

#[test]
fn a_step_on_a_slice() {
    assert!(writes_to_zeros());
}

/// Whether of two DW the bytes are shown that these enables name.
fn are_shown(first: u8, last: u8, want: &[u8]) -> bool {
    enabled_bytes(&[1, 2, 3, 4, 5, 6, 7, 8], first, last).as_slice() == want
}

#[test]
fn a_read_shows_enabled_bytes() {
    assert!(are_shown(15, 15, &[1, 2, 3, 4, 5, 6, 7, 8]) && are_shown(12, 1, &[0, 0, 3, 4, 5, 0, 0, 0])
    );
}
