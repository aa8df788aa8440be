//! Registers after a reset and after writes.
use config_core::{Noted, Registers, Setup};

/// What is written with which byte enables, and what is read then.
struct Row {
    offset: u16,
    enables: u8,
    written: u32,
    read: u32,
}

fn line(offset: u16, enables: u8, written: u32, read: u32) -> Row {
    Row {
        offset,
        enables,
        written,
        read,
    }
}

fn reads_right(registers: &mut Registers, rows: &[Row]) -> bool {
    let mut right = true;
    for row in rows {
        if row.enables < 16 {
            registers.write(row.offset, row.enables, row.written);
        }
        right &= registers.read(row.offset) == row.read;
    }
    right
}

#[test]
fn an_enumeration_reads_and_writes() {
    let mut right = false;
    if let Some(setup) = Setup::new(4096, 0x1234, 0x7C1E) {
        let mut registers = Registers::new(setup);
        right = reads_right(
            &mut registers,
            &[
                line(0x000, 15, 0xFFFF_FFFF, 0x7C1E_1234),
                line(0x010, 15, 0xFFFF_FFFF, 0xFFFF_F00C),
                line(0x014, 15, 0xFFFF_FFFF, 0xFFFF_FFFF),
                line(0x010, 15, 0xFEDC_0000, 0xFEDC_000C),
                line(0x014, 15, 0, 0),
                line(0x004, 1, 0xFFFF_FF02, 0x0010_0002),
                line(0x044, 15, 1, 8),
                line(0x044, 15, 3, 11),
                line(0x044, 15, 2, 11),
                line(0x044, 15, 0, 8),
                line(0x034, 15, 0, 0x40),
                line(0x100, 15, 0xFFFF_FFFF, 0),
            ],
        );
        registers.note(Noted::Refused);
        right &= registers.claims(0xFEDC_0FFC, 4) == Some(0xFFC);
        right &= registers.claims(0xFEDC_0FFC, 8).is_none();
        right &= reads_right(
            &mut registers,
            &[
                line(0x058, 3, 0xFFFF_FFFF, 0x0009_000F),
                line(0x058, 12, 0xFFFF_FFFF, 0x0000_000F),
            ],
        );
    }
    assert!(right);
}
