//! Worked texts of operations and replies, and texts that spell nothing.
use crate::rows::{Row, all_right};
use kit::arrayvec::ArrayString;
use operation_text::{LINE_END, is_ended, number, op_behind, own_digits_spell_number, own_text_spells_operation, own_text_spells_reply, read_op, read_reply, reply_behind, split_word, write_op, write_reply};
use seq_memory::ReplyRef;
use tlp_core::{MAX_PAYLOAD, Op, OpRef, Width};

/// An operation that holds no bytes.
#[derive(Clone, Copy)]
enum Access {
    Read(u64, u16, u8, u8),
    Add(u64, u128),
    Cas(u64, u128, u128),
}

fn op_of(access: Access) -> Op {
    match access {
        Access::Read(address, dw, first, last) => Op::Read {
            address,
            dw,
            first,
            last,
        },
        Access::Add(address, operand) => Op::FetchAdd {
            address,
            width: Width::Four,
            operand,
        },
        Access::Cas(address, compare, swap) => Op::Cas {
            address,
            width: Width::Eight,
            compare,
            swap,
        },
    }
}

/// A text, and the operation that it spells.
struct Spells(&'static str, Access);

impl Row for Spells {
    fn is_right(&self) -> bool {
        let mut room = [0; MAX_PAYLOAD];
        match read_op(self.0.as_bytes(), &mut room) {
            Ok(op) => op.to_owned() == op_of(self.1),
            Err(_) => false,
        }
    }
}

static OPERATIONS: [Spells; 3] = [
    Spells("read 3C 2 F A", Access::Read(0x3C, 2, 15, 10)),
    Spells("add 40 0700000a", Access::Add(0x40, 0x0A00_0007)),
    Spells(
        "cas 0 0100000000000000 0000000000000001",
        Access::Cas(0, 1, 0x0100_0000_0000_0000),
    ),
];

/// A text, and the address and the size of the operation that it spells.
struct Touches(&'static str, u64, u32);

impl Row for Touches {
    fn is_right(&self) -> bool {
        let mut room = [0; MAX_PAYLOAD];
        match read_op(self.0.as_bytes(), &mut room) {
            Ok(op) => op.address() == self.1 && op.size() == self.2,
            Err(_) => false,
        }
    }
}

static PLACES: [Touches; 2] = [
    Touches("write FFFFFFFFFFFFFFFF 0 F 01", u64::MAX, 1),
    Touches("swap 8 000102030405060708090A0B0C0D0E0F", 8, 16),
];

#[test]
fn operations() {
    assert!(all_right(&OPERATIONS) && all_right(&PLACES));
}

/// A text that spells no operation.
struct NoOp(&'static str);

impl Row for NoOp {
    fn is_right(&self) -> bool {
        let mut room = [0; MAX_PAYLOAD];
        read_op(self.0.as_bytes(), &mut room).is_err()
    }
}

static NO_OPERATIONS: [NoOp; 14] = [
    NoOp(""),
    NoOp("read"),
    NoOp("Read 40 1 F 0"),
    NoOp("read 40 1 F 0 "),
    NoOp("read  40 1 F 0"),
    NoOp("read 040 1 F 0"),
    NoOp("read +40 1 F 0"),
    NoOp("read 40 65536 F 0"),
    NoOp("read 40 1 10 0"),
    NoOp("read 10000000000000000 1 F 0"),
    NoOp("write 40 F 0 "),
    NoOp("write 40 F 0 012"),
    NoOp("add 40 0102"),
    NoOp("cas 40 01000000 0100000000000000"),
];

#[test]
fn no_operations() {
    assert!(all_right(&NO_OPERATIONS));
}

/// What a text spells.
#[derive(Clone, Copy)]
enum Want {
    Unsupported,
    Aborted,
    Data(&'static [u8]),
    Nothing,
}

/// Whether the reply is the wanted one.
fn is_wanted(reply: &Option<ReplyRef<'_>>, want: Want) -> bool {
    match (reply, want) {
        (Some(ReplyRef::Data(data)), Want::Data(bytes)) => data.as_slice() == bytes,
        (Some(ReplyRef::Unsupported), Want::Unsupported)
        | (Some(ReplyRef::Aborted), Want::Aborted)
        | (None, Want::Nothing) => true,
        _ => false,
    }
}

/// A text, and the reply that it spells.
struct ReplyText(&'static str, Want);

impl Row for ReplyText {
    fn is_right(&self) -> bool {
        let mut room = [0; MAX_PAYLOAD];
        is_wanted(&read_reply(self.0.as_bytes(), &mut room).ok(), self.1)
    }
}

static REPLIES: [ReplyText; 5] = [
    ReplyText("ur", Want::Unsupported),
    ReplyText("ca", Want::Aborted),
    ReplyText("ca 0", Want::Nothing),
    ReplyText("data", Want::Nothing),
    ReplyText("data ff00", Want::Data(&[0xFF, 0])),
];

#[test]
fn replies() {
    assert!(all_right(&REPLIES));
}

fn is_op_text(op: &OpRef<'_>, own: &str) -> bool {
    let mut line = ArrayString::new();
    write_op(op, &mut line);
    line.as_str() == own
}

/// A text of an operation, and the operation's own.
struct Writes(&'static str, &'static str);

impl Row for Writes {
    fn is_right(&self) -> bool {
        let mut room = [0; MAX_PAYLOAD];
        match read_op(self.0.as_bytes(), &mut room) {
            Ok(op) => is_op_text(&op, self.1),
            Err(_) => false,
        }
    }
}

static WRITTEN: [Writes; 6] = [
    Writes("read 0 1 f 0", "read 0 1 F 0"),
    Writes(
        "read ffffffffffffffff 65535 F a",
        "read FFFFFFFFFFFFFFFF 65535 F A",
    ),
    Writes("write 3c F 0 0a0b", "write 3C F 0 0A0B"),
    Writes("add 40 0700000a", "add 40 0700000A"),
    Writes(
        "swap a0 000102030405060708090a0b0c0d0e0f",
        "swap A0 000102030405060708090A0B0C0D0E0F",
    ),
    Writes(
        "cas 0 0100000000000000 0000000000000001",
        "cas 0 0100000000000000 0000000000000001",
    ),
];

#[test]
fn written() {
    own_text_spells_operation();
    assert!(all_right(&WRITTEN));
}

fn is_reply_text(reply: &ReplyRef<'_>, own: &str) -> bool {
    let mut line = ArrayString::new();
    write_reply(reply, &mut line);
    line.as_str() == own
}

/// A text of a reply, and the reply's own.
struct Answers(&'static str, &'static str);

impl Row for Answers {
    fn is_right(&self) -> bool {
        let mut room = [0; MAX_PAYLOAD];
        match read_reply(self.0.as_bytes(), &mut room) {
            Ok(reply) => is_reply_text(&reply, self.1),
            Err(_) => false,
        }
    }
}

static ANSWERS: [Answers; 3] = [
    Answers("data ff00", "data FF00"),
    Answers("ur", "ur"),
    Answers("ca", "ca"),
];

#[test]
fn written_replies() {
    own_text_spells_reply();
    assert!(all_right(&ANSWERS));
}

/// Whether a line is split into its first word and a last number.
fn is_split() -> bool {
    let (word, rest) = split_word(b"sub 7");
    match number(rest, 10, 255, LINE_END) {
        Ok((requester, rest)) => word == b"sub".as_slice() && requester == 7 && is_ended(rest),
        Err(_) => false,
    }
}

/// Whether what stands behind something is read as an operation.
fn ops_behind() -> bool {
    let mut room = [0; MAX_PAYLOAD];
    let is_read = match op_behind(Some(b"read 0 1 F 0"), &mut room) {
        Ok(op) => is_op_text(&op, "read 0 1 F 0"),
        Err(_) => false,
    };
    is_read && op_behind(Some(b"xread 0 1 F 0"), &mut room).is_err()
}

/// Whether what stands behind something is read as a reply.
fn replies_behind() -> bool {
    let mut room = [0; MAX_PAYLOAD];
    let is_read = is_wanted(&reply_behind(Some(b"ca"), &mut room).ok(), Want::Aborted);
    is_read && reply_behind(None, &mut room).is_err()
}

#[test]
fn parts_of_lines() {
    own_digits_spell_number();
    assert!(is_split() && ops_behind() && replies_behind());
}
