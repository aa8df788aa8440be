//! A small responder over worked inputs, and over streams that fail.
use crate::text_rows::{Row, all_right};
use kit::{HostRuntime, Vec};
use kit::alloc::{AllocError, Global};
use kit::arrayvec::ArrayVec;
use kit::io::{ErrorKind, Read, Write};
use kit::io;
use line_loop::{EngineFault, Responder, Verdict, run, write_out};

/// Marks lines with `a` and `b` by turns, tells a long line as a fault, and has no memory for the
/// line `none`.
struct Marker {
    is_second: bool,
}

impl Responder for Marker {
    fn on_line(&mut self, line: &[u8], out: &mut Vec<u8>) -> Result<Verdict, AllocError> {
        if line == b"none".as_slice() {
            return Err(AllocError);
        }
        let mut text: ArrayVec<u8, 514> = ArrayVec::new();
        text.push(if self.is_second { b'b' } else { b'a' });
        let _ = text.try_extend_from_slice(line);
        text.push(b'\n');
        out.extend_from_slice(text.as_slice())?;
        self.is_second = !self.is_second;
        Ok(Verdict::Fine)
    }

    fn on_long_line(&mut self, out: &mut Vec<u8>) -> Result<Verdict, AllocError> {
        out.extend_from_slice(b"long\n")?;
        Ok(Verdict::Fault)
    }

    fn on_end(&mut self, out: &mut Vec<u8>) -> Result<Verdict, AllocError> {
        out.extend_from_slice(b"end\n")?;
        Ok(Verdict::Fine)
    }
}

/// Gives a byte at a time. Where no byte is left, it ends or fails.
struct FailingReader<'a> {
    rest: &'a [u8],
    ends: bool,
}

impl Read for FailingReader<'_> {
    fn read(&mut self, buf: &mut [u8]) -> io::Result<usize> {
        let [first, rest @ ..] = self.rest else {
            return if self.ends {
                Ok(0)
            } else {
                Err(ErrorKind::Other.into())
            };
        };
        if buf.is_empty() {
            return Ok(0);
        }
        buf[0] = *first;
        self.rest = rest;
        Ok(1)
    }
}

/// Takes a byte at a time, and shows what it took where it is flushed. After so many writes it fails,
/// by an error or by taking none, and after so many flushes it fails at a flush.
struct FailingWriter {
    taken: Vec<u8>,
    shown: usize,
    writes_left: usize,
    flushes_left: usize,
    takes_none: bool,
}

impl FailingWriter {
    fn new(alloc: Global, writes: usize, flushes: usize, takes_none: bool) -> FailingWriter {
        FailingWriter {
            taken: Vec::new(alloc),
            shown: 0,
            writes_left: writes,
            flushes_left: flushes,
            takes_none,
        }
    }
}

impl Write for FailingWriter {
    fn write(&mut self, buf: &[u8]) -> io::Result<usize> {
        if self.writes_left == 0 && !self.takes_none {
            return Err(ErrorKind::Other.into());
        }
        if self.writes_left == 0 || buf.is_empty() {
            return Ok(0);
        }
        self.writes_left -= 1;
        self.taken.push(buf[0])?;
        Ok(1)
    }

    fn flush(&mut self) -> io::Result<()> {
        if self.flushes_left == 0 {
            return Err(ErrorKind::Other.into());
        }
        self.flushes_left -= 1;
        self.shown = self.taken.len();
        Ok(())
    }
}

/// A marker before its first line.
fn new_marker() -> Marker {
    Marker { is_second: false }
}

/// Whether a run on the input answers so, and this is written.
fn answers(alloc: Global, input: &[u8], want: Result<u8, EngineFault>, output: &[u8]) -> bool {
    let mut reader = input;
    let mut writer = Vec::new(alloc);
    let result = run(alloc, new_marker(), &mut reader, &mut writer);
    result == want && writer.as_slice() == output
}

/// An input, and what is written of it.
struct Answered(&'static str, &'static str);

impl Row for Answered {
    fn is_right(&self, alloc: Global) -> bool {
        answers(alloc, self.0.as_bytes(), Ok(0), self.1.as_bytes())
    }
}

static LINES: [Answered; 5] = [
    Answered("", "end\n"),
    Answered("one", "aone\nend\n"),
    Answered("one\n", "aone\nend\n"),
    Answered("one\ntwo\nthree", "aone\nbtwo\nathree\nend\n"),
    Answered("\n\r\n\r\r\n\r", "a\nb\na\r\nb\r\nend\n"),
];

#[test]
fn lines() {
    let rt = HostRuntime::new();
    assert!(all_right(&LINES, rt.alloc()));
}

/// A line of so many bytes, how it ends, and whether it is too long.
struct Long(usize, &'static [u8], bool);

/// The line, with this before and behind it.
fn framed(alloc: Global, before: &[u8], line: &[u8], behind: &[u8]) -> Result<Vec<u8>, AllocError> {
    let mut text = Vec::new(alloc);
    text.extend_from_slice(before)?;
    text.extend_from_slice(line)?;
    text.extend_from_slice(behind)?;
    Ok(text)
}

/// What is written of a first line and this one.
fn output_of(alloc: Global, line: &[u8], is_long: bool) -> Result<Vec<u8>, AllocError> {
    if is_long {
        framed(alloc, b"aone\n", b"long\n", b"end\n")
    } else {
        framed(alloc, b"aone\nb", line, b"\nend\n")
    }
}

impl Long {
    /// Whether a first line and this one are answered so.
    fn is_answered(&self, alloc: Global, line: &[u8]) -> Result<bool, AllocError> {
        let input = framed(alloc, b"one\n", line, self.1)?;
        let output = output_of(alloc, line, self.2)?;
        let want = Ok(u8::from(self.2));
        Ok(answers(alloc, input.as_slice(), want, output.as_slice()))
    }
}

impl Row for Long {
    fn is_right(&self, alloc: Global) -> bool {
        match kit::vec![in alloc; b'x'; self.0] {
            Ok(line) => self.is_answered(alloc, line.as_slice()) == Ok(true),
            Err(_) => false,
        }
    }
}

static LONG: [Long; 7] = [
    Long(512, b"\n", false),
    Long(513, b"\n", true),
    Long(511, b"\r\n", false),
    Long(512, b"\r\n", true),
    Long(512, b"", false),
    Long(513, b"", true),
    Long(20000, b"\n", true),
];

/// The limit is that of the bytes before the line feed, a carriage return with them; the input is
/// longer than what is read at once.
#[test]
fn long_lines() {
    let rt = HostRuntime::new();
    assert!(all_right(&LONG, rt.alloc()));
}

/// The answers to the lines before are written.
#[test]
fn no_memory() {
    let rt = HostRuntime::new();
    let want = Err(EngineFault::Memory);
    assert!(answers(rt.alloc(), b"one\nnone\ntwo\n", want, b"aone\n"));
}

const INPUT: &[u8] = b"one\ntwo\nthree";

const OUTPUT: &[u8] = b"aone\nbtwo\nathree\nend\n";

/// What is written of the input where its bytes from this place on can't be read.
fn before(place: usize) -> &'static [u8] {
    match place {
        0..4 => b"",
        4..8 => b"aone\n",
        _ => b"aone\nbtwo\n",
    }
}

/// Whether a run ends by the reader's failing there.
fn ends_at_read(alloc: Global, place: usize) -> bool {
    let mut reader = FailingReader {
        rest: &INPUT[..place.min(INPUT.len())],
        ends: false,
    };
    let mut writer = Vec::new(alloc);
    let result = run(alloc, new_marker(), &mut reader, &mut writer);
    result == Err(EngineFault::Read) && writer.as_slice() == before(place)
}

/// Whether runs end by the reader's failing at each place.
fn all_end_at_read(alloc: Global) -> bool {
    let mut right = true;
    for place in 0..=INPUT.len() {
        right &= ends_at_read(alloc, place);
    }
    right
}

#[test]
fn each_read_fails() {
    let rt = HostRuntime::new();
    assert!(all_end_at_read(rt.alloc()));
}

/// Whether a run over this writer ends so, having written so many bytes of the output.
fn ends_so(
    alloc: Global,
    writer: &mut FailingWriter,
    want: Result<u8, EngineFault>,
    count: usize,
) -> bool {
    let mut reader = INPUT;
    let result = run(alloc, new_marker(), &mut reader, writer);
    result == want && OUTPUT.starts_with(writer.taken.as_slice()) && writer.taken.len() == count
}

/// Whether a run ends by the writer's failing after so many writes.
fn ends_at_write(alloc: Global, writes: usize, takes_none: bool) -> bool {
    let mut writer = FailingWriter::new(alloc, writes, usize::MAX, takes_none);
    ends_so(alloc, &mut writer, Err(EngineFault::Write), writes)
}

/// Whether runs end by the writer's failing at each write.
fn all_end_at_write(alloc: Global, takes_none: bool) -> bool {
    let mut right = true;
    for writes in 0..OUTPUT.len() {
        right &= ends_at_write(alloc, writes, takes_none);
    }
    right
}

#[test]
fn each_write_fails() {
    let rt = HostRuntime::new();
    assert!(all_end_at_write(rt.alloc(), false) && all_end_at_write(rt.alloc(), true));
}

/// What is written of the input, a byte of which is read at a time, before the writer fails at the flush after so many:
/// there is one after each byte, and one at the end.
fn flushed(flushes: usize) -> (Result<u8, EngineFault>, &'static [u8]) {
    match flushes {
        0..13 => (Err(EngineFault::Write), before(flushes + 1)),
        13 => (Err(EngineFault::Write), OUTPUT),
        _ => (Ok(0), OUTPUT),
    }
}

/// Whether a run ends by the writer's failing at its flush after so many.
fn ends_at_flush(alloc: Global, flushes: usize) -> bool {
    let mut reader = FailingReader {
        rest: INPUT,
        ends: true,
    };
    let mut writer = FailingWriter::new(alloc, usize::MAX, flushes, false);
    let result = run(alloc, new_marker(), &mut reader, &mut writer);
    (result, writer.taken.as_slice()) == flushed(flushes)
}

/// Whether runs end by the writer's failing at each flush, and end well where no flush fails.
fn all_end_at_flush(alloc: Global) -> bool {
    let mut right = true;
    for flushes in 0..=14 {
        right &= ends_at_flush(alloc, flushes);
    }
    right
}

#[test]
fn each_flush_fails() {
    let rt = HostRuntime::new();
    assert!(all_end_at_flush(rt.alloc()));
}

/// Whether a run ends well where just its output can be written, and shows it all.
fn ends_well(alloc: Global) -> bool {
    let mut writer = FailingWriter::new(alloc, OUTPUT.len(), usize::MAX, true);
    ends_so(alloc, &mut writer, Ok(0), OUTPUT.len()) && writer.shown == OUTPUT.len()
}

#[test]
fn no_write_fails() {
    let rt = HostRuntime::new();
    assert!(ends_well(rt.alloc()));
}

/// The writes and the flushes of a writer; what `write_out` of five bytes to it answers, how many of
/// them were taken, and how many are shown.
struct Written(usize, usize, Result<(), EngineFault>, usize, usize);

impl Row for Written {
    fn is_right(&self, alloc: Global) -> bool {
        let mut writer = FailingWriter::new(alloc, self.0, self.1, false);
        let result = write_out(&mut writer, b"12345");
        result == self.2 && writer.taken.len() == self.3 && writer.shown == self.4
    }
}

static WRITTEN: [Written; 3] = [
    Written(5, 1, Ok(()), 5, 5),
    Written(4, 1, Err(EngineFault::Write), 4, 0),
    Written(5, 0, Err(EngineFault::Write), 5, 0),
];

#[test]
fn bytes_written() {
    let rt = HostRuntime::new();
    assert!(all_right(&WRITTEN, rt.alloc()));
}
