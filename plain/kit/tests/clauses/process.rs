//! The process: its words, streams and files, and what passes between it and C.

use crate::{Random, rounds};
use kit::HostRuntime;
use kit::alloc::{AllocError, AllocFailed, Global};
use kit::env::{Env, FillError};
use kit::fs::File;
use kit::io::IsTerminal;
use kit::snapshot::Snapshot;
use std::io::{Read, Write};
use std::process::{Command, Stdio};

/// Of rt::Stream: write
fn put(mut out: impl Write, mut bytes: &[u8]) {
    while !bytes.is_empty() {
        let count = out.write(bytes).unwrap();
        assert!(count > 0);
        bytes = &bytes[count..];
    }
    out.flush().unwrap();
}

/// What another process does, in which this test runs alone.
///
/// Of rt::HostRuntime: new alloc stdin stdout stderr arg
/// Of rt::Stream: read flush is_terminal
/// Of env: args
/// Of env::Args: collect
#[test]
fn child() {
    if std::env::var_os("KIT_CHILD").is_none() {
        return;
    }
    let rt = HostRuntime::new();
    let words = kit::env::args(&rt).unwrap().collect(rt.alloc()).unwrap();
    for (place, word) in words.iter().enumerate() {
        let size = word.len();
        let mut room = vec![7; size + 3];
        assert_eq!(rt.arg(place, &mut room), Ok(size));
        assert!(room[..size] == *word.as_bytes() && room[size..] == [7; 3]);
        assert_eq!(rt.arg(place, &mut room[..size]), Ok(size));
        assert_eq!(rt.arg(place, &mut room[..size - 1]), Err(FillError::TooLong));
        put(rt.stderr(), format!("word {word}\n").as_bytes());
    }
    assert_eq!(rt.arg(words.len(), &mut []), Err(FillError::NotPresent));
    assert!(!rt.stdin().is_terminal() && !rt.stdout().is_terminal() && !rt.stderr().is_terminal());
    put(rt.stdout(), b"<<<");
    for size in (1..).map(|round| 1 + round * 37 % 300) {
        let mut room = vec![0; size];
        let count = rt.stdin().read(&mut room).unwrap();
        assert!(room[count..].iter().all(|byte| *byte == 0));
        if count == 0 {
            break;
        }
        put(rt.stdout(), &room[..count]);
    }
    put(rt.stdout(), b">>>");
}

/// Runs the child with these words and this input: what stands between its marks, and the words that it was given.
fn output(words: &[String], input: &[u8]) -> (Vec<u8>, Vec<String>) {
    let mut child = Command::new(std::env::current_exe().unwrap())
        .args(["process::child", "--exact", "--nocapture", "--"])
        .args(words)
        .env("KIT_CHILD", "1")
        .stdin(Stdio::piped())
        .stdout(Stdio::piped())
        .stderr(Stdio::piped())
        .spawn()
        .unwrap();
    let mut stdin = child.stdin.take().unwrap();
    let out = std::thread::scope(|threads| {
        threads.spawn(move || stdin.write_all(input).unwrap());
        child.wait_with_output().unwrap()
    });
    assert!(out.status.success());
    let all = out.stdout;
    let start = all.windows(3).position(|mark| mark == b"<<<").unwrap() + 3;
    let end = all.windows(3).rposition(|mark| mark == b">>>").unwrap();
    let told = String::from_utf8(out.stderr).unwrap();
    let words = told.lines().filter_map(|line| line.strip_prefix("word ")).map(str::to_owned).collect();
    (all[start..end].to_vec(), words)
}

#[test]
fn words_and_streams_are_those_of_the_process() {
    let mut random = Random(7);
    for size in [0, 1, 5000] {
        let input: Vec<u8> = (0..size).map(|_| random.word() as u8).collect();
        let words: Vec<String> = (0..3).map(|_| random.text(9) + "w").collect();
        let (printed, told) = output(&words, &input);
        assert_eq!(printed, input);
        assert_eq!(told[told.len() - 3..], words);
    }
}

/// Of fs: metadata
/// Of fs::File: open read
#[test]
fn a_file_is_read() {
    let path = std::env::temp_dir().join(format!("kit-clauses-{}", std::process::id()));
    let name = path.to_str().unwrap();
    let mut random = Random(5);
    for size in [0, 1, 700] {
        let bytes: Vec<u8> = (0..size).map(|_| random.word() as u8).collect();
        std::fs::write(&path, &bytes).unwrap();
        assert_eq!(kit::fs::metadata(&HostRuntime, name).unwrap().len(), size);
        let mut file = File::open(&HostRuntime, name).unwrap();
        let mut all = Vec::new();
        loop {
            let mut room = [0; 64];
            let count = file.read(&mut room[..1 + random.below(64)]).unwrap();
            if count == 0 {
                break;
            }
            all.extend_from_slice(&room[..count]);
        }
        assert_eq!(all, bytes);
    }
    std::fs::remove_file(&path).unwrap();
    assert!(File::open(&HostRuntime, name).is_err() && kit::fs::metadata(&HostRuntime, name).is_err());
}

/// Of alloc::AllocError: from
/// Of alloc::Global: default
/// Of io: from
/// Of snapshot::Snapshot: of
#[test]
fn a_failed_allocation_has_one_error() {
    rounds(|random| {
        assert_eq!(AllocError::from(AllocFailed { value: random.word() }), AllocError);
        assert_eq!(std::io::Error::from(AllocError).kind(), std::io::ErrorKind::OutOfMemory);
        assert_eq!((Global::default(), size_of::<Global>()), (Global, 0));
        assert_eq!(size_of_val(&Snapshot::of(&random.word())), 0);
    });
}

/// Of c: bytes bytes_mut
#[test]
fn bytes_that_c_lends_are_those() {
    rounds(|random| {
        let mut bytes = random.bytes(40);
        let all = bytes.clone();
        // As many bytes as are there, which nothing else reads or writes meanwhile.
        unsafe {
            assert_eq!(kit::c::bytes(bytes.as_ptr(), bytes.len()), all);
            kit::c::bytes_mut(bytes.as_mut_ptr(), bytes.len()).reverse();
            assert!(kit::c::bytes(std::ptr::null(), 0).is_empty() && kit::c::bytes_mut(std::ptr::null_mut(), 0).is_empty());
        }
        assert!(bytes.iter().rev().eq(&all));
    });
}
