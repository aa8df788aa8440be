//! Each call once, and each of its refusals.
use pciex::{
    answer, check, check_clocked, decode, decode_tlp, differ, encode, search, search_with_reasons, version, Arrived, Body,
    Credits, Device, DllpArrived, DllpRefusal, Endpoint, Error, Fabric, Granularity, Handled, Kind, LinkStatus,
    LinkedEndpoint, Monitor, Outgoing, Sought,
};

const ADD: [u8; 16] = [0x4C, 0, 0, 1, 1, 0, 5, 0, 0, 0, 0, 0x40, 7, 0, 0, 0];
const WRITE: [u8; 16] = [0x40, 0, 0, 1, 1, 0, 0, 0x0F, 0, 0, 0, 0x80, 1, 2, 3, 4];

/// The completion of `ADD`, with the old value.
fn old(value: u8) -> Vec<u8> {
    vec![0x4A, 0, 0, 1, 0, 0, 0, 4, 1, 0, 5, 0, value, 0, 0, 0]
}

#[test]
fn a_device_over_bytes() {
    let mut bytes = [0; 256];
    assert_eq!(answer(&mut bytes, 0, 64, &ADD), Ok(Some(old(0))));
    assert_eq!(answer(&mut bytes, 0, 64, &ADD), Ok(Some(old(7))));
    assert_eq!(answer(&mut bytes, 0, 64, &WRITE), Ok(None));
    assert_eq!((bytes[0x40], &bytes[0x80..0x84]), (14, [1, 2, 3, 4].as_slice()));
    let before = bytes;
    assert_eq!(answer(&mut bytes, 0, 65, &ADD), Err(Error::Argument(2001)));
    assert_eq!(answer(&mut bytes, 0, 64, &old(0)), Err(Error::Argument(2002)));
    let short = answer(&mut bytes, 0, 64, &ADD[..3]).unwrap_err();
    assert_eq!((short.clone(), short.to_string().as_str()), (Error::Packet(1), "fault 1 Short"));
    assert_eq!(bytes, before);
    assert_eq!(answer(&mut [], 0, 64, &ADD).map(|c| c.map(|c| c[6])), Ok(Some(0x20)));
}

#[test]
fn a_device_with_a_history() {
    assert_eq!(Device::new(0, 100, 64).err(), Some(Error::Argument(2004)));
    assert_eq!(Device::new(64, 4096, 64).err(), Some(Error::Argument(2005)));
    assert_eq!(Device::new(0, 4096, 32).err(), Some(Error::Argument(2001)));
    let mut device = Device::new(0, 4096, 64).unwrap();
    assert_eq!(device.serve(0, &ADD), Ok(Some(old(0))));
    assert_eq!(device.serve(1, &WRITE), Ok(None));
    assert_eq!(device.serve(2, &ADD[..3]), Err(Error::Packet(1)));
    assert_eq!(device.serve(2, &old(0)), Err(Error::Argument(2002)));
    assert_eq!(device.history_length(), 2);
    assert_eq!(device.entry(0).as_deref(), Ok("1 0 add 40 07000000"));
    assert_eq!(device.entry(1).as_deref(), Ok("1 1 write 80 F 0 01020304"));
    assert_eq!(device.entry(2), Err(Error::Argument(2006)));
    let bytes = device.bytes();
    assert_eq!((bytes.len(), bytes[0x40], bytes[0x83]), (4096, 7, 4));
}

/// A read and a write of the last DW of 1 MiB.
const READ_LAST: [u8; 12] = [0, 0, 0, 1, 1, 0, 6, 0x0F, 0, 0x0F, 0xFF, 0xFC];
const WRITE_LAST: [u8; 16] = [0x40, 0, 0, 1, 1, 0, 0, 0x0F, 0, 0x0F, 0xFF, 0xFC, 1, 2, 3, 4];

#[test]
fn a_mebibyte() {
    let data = vec![0x4A, 0, 0, 1, 0, 0, 0, 4, 1, 0, 6, 0x7C, 1, 2, 3, 4];
    let mut bytes = vec![0; 1 << 20];
    assert_eq!(answer(&mut bytes, 0, 128, &WRITE_LAST), Ok(None));
    assert_eq!(answer(&mut bytes, 0, 128, &READ_LAST), Ok(Some(data.clone())));
    let mut device = Device::new(0, 1 << 20, 128).unwrap();
    assert_eq!(device.serve(0, &WRITE_LAST), Ok(None));
    assert_eq!(device.serve(1, &READ_LAST), Ok(Some(data)));
    assert_eq!(device.entry(1).as_deref(), Ok("1 1 read FFFFC 1 F 0"));
    assert_eq!(device.bytes(), bytes);
    let mut fabric = Fabric::new("fabric 7 0 1048576", true).unwrap();
    assert_eq!(fabric.event("submit 7 write FFFFC F 0 01020304").as_deref(), Ok("sub 7 0"));
    let mut copied = vec![1; 1 << 20];
    assert_eq!(fabric.copy_bytes(&mut copied), Ok(()));
    assert!(copied.iter().all(|byte| *byte == 0));
    let trace = fabric.trace().unwrap();
    assert!(trace.starts_with(b"pciex-trace 2\nmemory 0 1048576 64\n"));
    assert_eq!(check(&trace), Ok(()));
}

#[test]
fn a_fabric_whose_counter_counts_once() {
    assert_eq!(Fabric::new("fabric 8 0 4096", true).err(), Some(Error::Told("Requesters".into())));
    assert_eq!(Fabric::new("transmit up1", true).err(), Some(Error::Argument(2008)));
    let mut fabric = Fabric::new("fabric 1 0 4096", true).unwrap();
    let steps = [
        ("submit 1 add 40 07000000", "sub 1 0"),
        ("transmit up1", "sent 000"),
        ("deliver up1 good", "accept"),
        ("dllp up1 ack", "00000000"),
        ("deliver-dllp up1 lost", "gone"),
        ("timer up1", "replay 1"),
        ("transmit up1", "sent 000"),
        ("deliver up1 good", "duplicate"),
        ("forward up1 0", "to 0"),
        ("transmit in", "sent 000"),
        ("deliver in good", "accept"),
        ("serve 0", "at 0"),
    ];
    for (event, seen) in steps {
        assert_eq!(fabric.event(event).as_deref(), Ok(seen), "{event}");
    }
    assert_eq!(fabric.event("serve 0"), Err(Error::Told("NotTakeable".into())));
    assert_eq!(fabric.event("serve"), Err(Error::Argument(2008)));
    assert_eq!(fabric.event("settle"), Err(Error::Argument(2008)));
    assert_eq!((fabric.history_length(), fabric.is_quiet()), (1, false));
    let mut bytes = [1; 4096];
    assert_eq!(fabric.copy_bytes(&mut bytes[..9]), Err(Error::Argument(2000)));
    assert_eq!(fabric.copy_bytes(&mut bytes), Ok(()));
    assert_eq!(bytes[0x40..0x48], [7, 0, 0, 0, 0, 0, 0, 0]);
    assert_eq!(check(&fabric.trace().unwrap()), Ok(()));
}

#[test]
fn a_fabric_comes_to_rest() {
    let mut fabric = Fabric::new("fabric 2 0 4096", true).unwrap();
    assert_eq!(fabric.settled(), Ok(vec![]));
    for event in ["submit 1 add 40 07000000", "submit 2 add 40 05000000", "submit 1 write 80 F 0 01020304"] {
        fabric.event(event).unwrap();
    }
    let first = vec!["ans 1 0 data 00000000".to_owned(), "ans 2 0 data 07000000".to_owned()];
    assert_eq!(fabric.settle(), Ok(first.clone()));
    assert_eq!((fabric.settled(), fabric.is_quiet(), fabric.history_length()), (Ok(first), true, 3));
    let trace = String::from_utf8(fabric.trace().unwrap()).unwrap();
    assert!(trace.contains("\nans 2 0 3 data 07000000\n") || trace.contains("\nans 2 0 2 data 07000000\n"), "{trace}");
    assert_eq!(check_clocked(trace.as_bytes()), Ok(()));
    assert_eq!(fabric.settle(), Ok(vec![]));
    let mut plain = Fabric::new("fabric 1 0 4096", false).unwrap();
    plain.event("submit 1 read 0 1 F 0").unwrap();
    assert_eq!(plain.settle(), Ok(vec!["ans 1 0 data 00000000".to_owned()]));
    assert_eq!(plain.trace().unwrap().split(|byte| *byte == b'\n').nth(2), Some(b"history".as_slice()));
}

#[test]
fn a_script_goes_on_where_it_stopped() {
    let mut fabric = Fabric::new("fabric 1 0 4096", true).unwrap();
    let script = "# one addition\nsubmit 1 add 40 07000000\r\n\ntransmit up1\ntransmit up1\ndeliver up1 good";
    let stopped = fabric.script(script).unwrap_err();
    assert_eq!((stopped.results.as_str(), stopped.error), ("sub 1 0\nsent 000\n", Error::Told("Idle".into())));
    assert_eq!(&script[stopped.done..], "transmit up1\ndeliver up1 good");
    assert_eq!(fabric.script("deliver up1 good").as_deref(), Ok("accept\n"));
    assert_eq!(fabric.script("settle\n").map_err(|stopped| stopped.error), Err(Error::Argument(2008)));
    assert_eq!(fabric.script(""), Ok(String::new()));
    let timers = fabric.script(&"timer in\n".repeat(3)).map_err(|stopped| stopped.done);
    assert_eq!(timers, Err(0));
    let sent = "dllp up1 ack\n".repeat(20_000);
    assert_eq!(fabric.script(&sent).map(|results| results.lines().count()), Ok(20_000));
}

#[test]
fn the_checker() {
    let trace = "pciex-trace 2\nmemory 0 4096 64\nsub 1 0 0 read 0 1 F 0\nans 1 0 1 data 00000000\nhistory\nent 1 0 read 0 1 F 0\nend\n";
    assert_eq!(check(trace.as_bytes()), Ok(()));
    let flawed = trace.replace("data 00000000", "data 00000001");
    assert_eq!(check(flawed.as_bytes()), Err(Error::Told("flaw 10 Reply 1".into())));
    assert_eq!(check(b""), Err(Error::Told("fault 1 Head".into())));
    assert_eq!(check_clocked(trace.as_bytes()), Ok(()));
    let late = trace.replace("ans 1 0 1", "ans 1 0 2");
    assert_eq!(check(late.as_bytes()), Ok(()));
    assert_eq!(check_clocked(late.as_bytes()), Err(Error::Told("flaw 13 Clock 1".into())));
}

#[test]
fn packets_in_words() {
    let words = "add 40 07000000 from 0100 tag 05";
    assert_eq!(decode(&ADD).as_deref(), Ok(words));
    assert_eq!(encode(words), Ok(ADD.to_vec()));
    assert_eq!(decode(&ADD[..3]), Err(Error::Told("fault 1 Short".into())));
    assert_eq!(encode("add"), Err(Error::Told("fault words".into())));
    let (read, bytes) = ("cfgread 1:0.0 004 F from 0008 tag 63", [4, 0, 0, 1, 0, 8, 0x63, 0x0F, 1, 0, 0, 4]);
    assert_eq!(encode(read), Ok(bytes.to_vec()));
    assert_eq!(decode(&bytes).as_deref(), Ok(read));
    assert_eq!(decode(&[4, 0, 0, 1, 0, 8, 0x63, 0x1F, 1, 0, 0, 4]), Err(Error::Told("fault 14 Fields".into())));
    assert_eq!(version(), concat!("pciex ", env!("CARGO_PKG_VERSION")));
}

#[test]
fn completions_that_differ() {
    let read = encode("read 40 2 C 3 from 0100 tag 05").unwrap();
    let wanted = answer(&mut [0; 256], 0, 64, &read).unwrap().unwrap();
    let changed = |place: usize, bits: u8| {
        let mut packet = wanted.clone();
        packet[place] ^= bits;
        packet
    };
    let rows = [
        (4, 0xFF, None),
        (6, 0x10, None),
        (11, 0x80, None),
        (8, 1, Some("Requester ID")),
        (10, 1, Some("Tag")),
        (1, 0x10, Some("TC")),
        (2, 0x20, Some("Attr")),
        (3, 3, Some("not a completion")),
        (7, 1, Some("Byte Count")),
        (11, 1, Some("Lower Address")),
        (13, 1, None),
        (14, 1, Some("data")),
        (17, 1, Some("data")),
        (18, 1, None),
    ];
    for (place, bits, field) in rows {
        assert_eq!(differ(&read, Some(&wanted), Some(&changed(place, bits))), field, "{place} {bits:02X}");
    }
    let gap = encode("read 40 1 D 0 from 0100 tag 05").unwrap();
    let short = answer(&mut [0; 256], 0, 64, &gap).unwrap().unwrap();
    for (place, field) in [(12, Some("data")), (13, None), (14, Some("data")), (15, Some("data"))] {
        let mut packet = short.clone();
        packet[place] ^= 1;
        assert_eq!(differ(&gap, Some(&short), Some(&packet)), field, "{place}");
    }
    assert_eq!(differ(&read, Some(&wanted), None), Some("no completion"));
    assert_eq!(differ(&WRITE, None, Some(&wanted)), Some("a completion"));
    assert_eq!(differ(&WRITE, None, None), None);
    assert_eq!(differ(&read, Some(&wanted), Some(&[0x10, 0, 0, 0])), Some("not a completion"));
    let other = [0x0A, 0, 0, 0, 0, 0, 0x20, 4, 1, 0, 5, 0];
    assert_eq!(differ(&read, Some(&wanted), Some(&other)), Some("Status"));
    assert_eq!(differ(&ADD, Some(&old(0)), Some(&old(1))), Some("data"));
}

#[test]
fn a_monitor_of_a_log() {
    assert_eq!(Monitor::new("log 0 100 block 64").err(), Some(Error::Argument(2004)));
    assert_eq!(Monitor::new("log 64 4096 block 64").err(), Some(Error::Argument(2005)));
    assert_eq!(Monitor::new("log 0 4096 block 32").err(), Some(Error::Argument(2001)));
    assert_eq!(Monitor::new("log 0 4096").err(), Some(Error::Argument(2008)));
    let (mut monitor, head) = Monitor::new("log 0 4096 block 64").unwrap();
    assert_eq!(head, "pciex-log 1\nmemory 0 4096 64");
    assert_eq!(monitor.request(0, &ADD), Err(Error::Argument(2011)));
    assert_eq!(monitor.request(1, &ADD[..3]), Err(Error::Packet(1)));
    assert_eq!(monitor.request(1, &old(0)), Err(Error::Argument(2002)));
    assert_eq!(monitor.request(1, &ADD).as_deref(), Ok("sub 1 0 add 40 07000000"));
    assert_eq!(monitor.request(1, &ADD), Err(Error::TagInUse));
    assert_eq!((monitor.completion(1, &ADD), monitor.open()), (Err(Error::Argument(2010)), 1));
    assert_eq!(monitor.acted(1, 0), Err(Error::Unexpected));
    let mut other = old(0);
    other[8] = 2;
    assert_eq!(monitor.completion(1, &other), Err(Error::OtherRequester));
    let split = [0x4A, 0, 0, 2, 0, 0, 0, 8, 1, 0, 5, 0, 0, 0, 0, 0, 0, 0, 0, 0];
    assert_eq!(monitor.completion(1, &split), Err(Error::Mismatch));
    assert_eq!(monitor.give_up(0, 5), Err(Error::Argument(2011)));
    assert_eq!(monitor.give_up(1, 6), Err(Error::Unexpected));
    assert_eq!((monitor.give_up(1, 5), monitor.open()), (Ok(()), 0));
    assert_eq!(monitor.request(1, &ADD).as_deref(), Ok("sub 1 1 add 40 07000000"));
    assert_eq!(monitor.completion(1, &old(0)).as_deref(), Ok("ans 1 1 data 00000000"));
    assert_eq!((monitor.completion(1, &old(0)), monitor.open()), (Err(Error::Unexpected), 0));
}

#[test]
fn a_monitor_of_a_trace() {
    let (mut monitor, head) = Monitor::new("trace 0 4096 block 64").unwrap();
    let mut lines = vec![head, monitor.request(1, &ADD).unwrap()];
    let entry = monitor.acted(1, 0).unwrap();
    lines.push(monitor.completion(1, &old(0)).unwrap());
    lines.extend(["history".into(), entry, "end\n".into()]);
    assert_eq!(check(lines.join("\n").as_bytes()), Ok(()));
    assert_eq!(monitor.acted(1, 0), Err(Error::Unexpected));
}

#[test]
fn a_history_is_searched_for() {
    let log = "pciex-log 1\nmemory 0 4096 64\nsub 1 0 add 40 07000000\nans 1 0 data 00000000\nend\n";
    let Ok(Sought::Found(trace)) = search(log.as_bytes(), 1000) else {
        panic!("there is a history");
    };
    assert_eq!(check(trace.as_bytes()), Ok(()));
    assert!(trace.ends_with("\nhistory\nent 1 0 add 40 07000000\nend\n"));
    let lie = log.replace("data 00", "data 07");
    assert_eq!(search(lie.as_bytes(), 1000), Ok(Sought::NotFound("none 1".into())));
    assert_eq!(search(b"no log", 1000), Ok(Sought::NotFound("fault 1 Head".into())));
}

#[test]
fn reasons_and_pieces() {
    let log = "pciex-log 1\nmemory 0 4096 64\nsub 1 0 write 40 F F 0100000002000000\nsub 2 0 read 40 2 F F\n\
               ans 2 0 data 0000000002000000\nend\n";
    let (sought, reasons) = search_with_reasons(log.as_bytes(), 1000, Granularity::Whole).unwrap();
    assert_eq!((sought, reasons.len() > 1), (Sought::NotFound("none 2".into()), true));
    assert!(reasons[0].starts_with("pciex: record 2 is line 5: lines 3 to 5 have no history"), "{}", reasons[0]);
    for granularity in [Granularity::Four, Granularity::Eight, Granularity::Sixteen, Granularity::SixtyFour] {
        let (sought, reasons) = search_with_reasons(log.as_bytes(), 1000, granularity).unwrap();
        let is_found = matches!(&sought, Sought::Found(trace) if check_clocked(trace.as_bytes()).is_ok());
        assert_eq!((is_found, reasons.is_empty()), (granularity == Granularity::Four, is_found), "{granularity:?}");
    }
    let (sought, reasons) = search_with_reasons(b"no log", 1000, Granularity::Whole).unwrap();
    assert_eq!((sought, reasons.len()), (Sought::NotFound("fault 1 Head".into()), 1));
    let hard = "pciex-log 1\nmemory 0 4096 64\nsub 1 0 add 40 01000000\nsub 2 0 add 40 02000000\nsub 3 0 swap 44 01000000\n\
                sub 4 0 swap 44 02000000\nsub 5 0 read 40 2 F F\nans 5 0 data 0200000002000000\nsub 5 1 read 40 2 F F\n\
                ans 5 1 data 0300000001000000\nend\n";
    let (sought, reasons) = search_with_reasons(hard.as_bytes(), 1, Granularity::Whole).unwrap();
    assert_eq!(sought, Sought::GivenUp);
    assert_eq!(reasons[0], "pciex: given up at line 8 (open requests: 5)");
}

#[test]
fn the_work_of_a_search_is_bounded() {
    // Swaps and additions that stay unanswered, and reads that contradict each other: each order of them is one to be tried.
    let mut log = "pciex-log 1\nmemory 0 4096 64\n".to_owned();
    for k in 0..65 {
        let word = if k % 2 == 1 { "add" } else { "swap" };
        log += &format!("sub {} {} {word} 0 {:02X}000000\n", k % 6 + 1, k / 6, k + 1);
    }
    for (k, data) in ["05", "09", "05"].iter().enumerate() {
        log += &format!("sub 7 {k} read 0 1 F 0\nans 7 {k} data {data}000000\n");
    }
    assert_eq!(search((log + "end\n").as_bytes(), u64::MAX), Ok(Sought::GivenUp));
}

#[test]
fn fields_of_a_packet() {
    let add = decode_tlp(&ADD).unwrap();
    assert_eq!((add.kind, add.requester, add.tag, add.length), (Kind::FetchAdd, 0x100, 5, 1));
    assert_eq!(add.body, Body::Request { address: 0x40, first: 0, last: 0 });
    assert_eq!(ADD[add.payload], [7, 0, 0, 0]);
    let long = decode_tlp(&encode("write 100000080 F 0 01020304 from 0100 tag 00").unwrap()).unwrap();
    assert_eq!((long.kind, long.payload), (Kind::MemoryWrite, 16..20));
    let completion = decode_tlp(&old(3)).unwrap();
    assert_eq!(completion.kind, Kind::CompletionData);
    assert_eq!(completion.body, Body::Completion { completer: 0, status: 0, byte_count: 4, lower: 0 });
    assert_eq!(decode_tlp(&ADD[..3]), Err(Error::Packet(1)));
}

#[test]
fn crcs() {
    let mut packet = vec![0, 0];
    packet.extend(ADD);
    assert_eq!(pciex::lcrc(&packet), [0x21, 0xD4, 0x79, 0x8B]);
    packet.extend([0x21, 0xD4, 0x79, 0x8B]);
    assert_eq!(pciex::check_packet(&packet), pciex::LcrcCheck::Good);
    packet[5] ^= 8;
    assert_eq!(pciex::check_packet(&packet), pciex::LcrcCheck::Failed);
    assert_eq!(pciex::check_packet(&[0xFF; 4]), pciex::LcrcCheck::Nullified);
    assert_eq!(pciex::dllp_crc([0x90, 0, 0x80, 3]), [0x19, 0x8B]);
    assert!(pciex::check_dllp([0x90, 0, 0x80, 3, 0x19, 0x8B]));
    assert!(!pciex::check_dllp([0x90, 0, 0x80, 3, 0x19, 0x8A]));
}

/// The next completions of the endpoint, in digits.
fn fetched(endpoint: &mut Endpoint) -> Vec<String> {
    let digits = |packet: Vec<u8>| packet.iter().map(|byte| format!("{byte:02X}")).collect();
    endpoint.completions().map(digits).collect()
}

/// The bytes of digits in groups.
fn bytes_of(digits: &str) -> Vec<u8> {
    let plain = digits.replace(' ', "");
    (0..plain.len()).step_by(2).map(|at| u8::from_str_radix(&plain[at..at + 2], 16).unwrap()).collect()
}

#[test]
fn an_endpoint() {
    for size in [0, 2048, 4097, 2 << 20, (1 << 32) + 4096] {
        assert_eq!(Endpoint::new(size, 0x1234, 0x7C1E).err(), Some(Error::Argument(2004)), "{size}");
    }
    let mut endpoint = Endpoint::traced(4096, 0x1234, 0x7C1E).unwrap();
    let rows = [
        ("04000001 0008630F 01000000", Handled::Accepted, vec!["4A000001000000040008630034121E7C"]),
        ("44000001 0008690F 01000010 0000DCFE", Handled::Accepted, vec!["0A0000000100000400086900"]),
        ("44000001 00086B01 01000004 02000000", Handled::Accepted, vec!["0A0000000100000400086B00"]),
        ("40000002 000800FF FEDC007C 11223344 55667788", Handled::Accepted, vec![]),
        (
            "00000002 000870FF FEDC007C",
            Handled::Accepted,
            vec!["4A000001010000080008707C11223344", "4A000001010000040008700055667788"],
        ),
        ("74000001 00000050 00000000 00000000 19000000", Handled::Ignored, vec![]),
        ("40000001 0008000F FEDC1000 11223344", Handled::Unsupported, vec![]),
        ("4A000001 00000004 00086300 34121E7C", Handled::Unexpected, vec![]),
        ("00000001", Handled::Malformed, vec![]),
    ];
    for (tlp, handled, completions) in rows {
        assert_eq!(endpoint.take(&bytes_of(tlp)), Ok(handled), "{tlp}");
        assert_eq!(fetched(&mut endpoint), completions, "{tlp}");
    }
    endpoint.take(&bytes_of("00000002 000870FF FEDC007C")).unwrap();
    endpoint.reset();
    assert_eq!(fetched(&mut endpoint), Vec::<String>::new());
    let bytes = endpoint.bytes();
    assert_eq!((bytes.len(), &bytes[0x7C..0x84]), (4096, [0x11, 0x22, 0x33, 0x44, 0x55, 0x66, 0x77, 0x88].as_slice()));
    let trace = String::from_utf8(endpoint.trace().unwrap()).unwrap();
    assert!(trace.contains("\nsub 1 3 2 read 80 1 F 0\n") && trace.contains("\nans 1 3 4 data 55667788\n"), "{trace}");
    assert_eq!(check_clocked(trace.as_bytes()), Ok(()));
    let silent = Endpoint::new(4096, 0x1234, 0x7C1E).unwrap().trace().unwrap();
    assert_eq!(silent, b"pciex-trace 2\nmemory 0 4096 128\nhistory\nend\n");
}

/// All that the endpoint sends, in digits, DLLPs with a `d` in front.
fn sent(linked: &mut LinkedEndpoint) -> Vec<String> {
    let digits = |bytes: &[u8]| bytes.iter().map(|byte| format!("{byte:02X}")).collect::<String>();
    let text = |outgoing| match outgoing {
        Outgoing::Packet(packet) => digits(&packet),
        Outgoing::Dllp(dllp) => format!("d{}", digits(&dllp)),
    };
    linked.outgoing().map(text).collect()
}

#[test]
fn an_endpoint_behind_its_link() {
    let wrong = Credits { npd: 1, ..Credits::default() };
    assert_eq!(LinkedEndpoint::new(6144, 0x1234, 0x7C1E, wrong).err(), Some(Error::Argument(2004)));
    assert_eq!(LinkedEndpoint::new(4096, 0x1234, 0x7C1E, wrong).err(), Some(Error::Argument(2013)));
    let credits = Credits { ph: 1, pd: 8, nph: 1, npd: 2 };
    let mut linked = LinkedEndpoint::new(4096, 0x1234, 0x7C1E, credits).unwrap();
    let read = bytes_of("0000 04000001 0008630F 01000000");
    assert_eq!(linked.packet(&read, true), Ok(Arrived::Dropped));
    linked.up();
    assert_eq!(linked.status(), LinkStatus::Init1);
    assert_eq!(sent(&mut linked), ["d40004008", "d50004002", "d60000000"]);
    let dllps = [
        ("400040", Err(DllpRefusal::Short)),
        ("02000001", Ok(DllpArrived::Gone)),
        ("40404008", Err(DllpRefusal::Scaled)),
        ("40200008", Err(DllpRefusal::CreditLimit)),
        ("40004008", Ok(DllpArrived::Took)),
        ("50004002", Ok(DllpArrived::Took)),
        ("60004008", Ok(DllpArrived::Took)),
    ];
    for (dllp, became) in dllps {
        assert_eq!(linked.dllp(&bytes_of(dllp), true), became, "{dllp}");
    }
    assert_eq!(linked.status(), LinkStatus::Init2);
    assert_eq!(sent(&mut linked), ["dC0004008", "dD0004002", "dE0000000"]);
    assert_eq!(linked.packet(&read, false), Ok(Arrived::Nak));
    assert_eq!(linked.packet(&read, false), Ok(Arrived::Quiet));
    assert_eq!(linked.packet(&read, true), Ok(Arrived::Accepted(Handled::Accepted)));
    assert_eq!(linked.packet(&read, true), Ok(Arrived::Duplicate));
    let completion = "00004A000001000000040008630034121E7C";
    assert_eq!(sent(&mut linked), ["d00000000", "d90008002", completion]);
    assert_eq!(linked.status(), LinkStatus::Active);
    // The credits of the peer's one completion are used, so the next request waits, and the one behind it overflows.
    assert_eq!(linked.packet(&bytes_of("0001 04000001 0008640F 01000000"), true), Ok(Arrived::Accepted(Handled::Accepted)));
    assert_eq!(linked.packet(&bytes_of("0002 04000001 0008650F 01000000"), true), Ok(Arrived::Overflow));
    assert_eq!(linked.packet(&bytes_of("0003 00000001"), true), Ok(Arrived::Overflow));
    assert_eq!(linked.packet(&bytes_of("0004 40000001"), true), Ok(Arrived::Accepted(Handled::Malformed)));
    linked.refresh();
    assert_eq!(sent(&mut linked), ["d00000004", "d80008009", "d90010002"]);
    assert_eq!(linked.dllp(&bytes_of("00000001"), true), Err(DllpRefusal::NotOutstanding));
    assert_eq!(linked.dllp(&bytes_of("00000000"), false), Ok(DllpArrived::Gone));
    for _ in 0..3 {
        linked.replay();
        assert_eq!(sent(&mut linked), [completion]);
    }
    linked.replay();
    assert_eq!((linked.status(), sent(&mut linked)), (LinkStatus::Stopped, vec![]));
    linked.retrained();
    assert_eq!((linked.status(), sent(&mut linked)), (LinkStatus::Active, vec![completion.into()]));
    linked.down();
    assert_eq!((linked.status(), linked.bytes()), (LinkStatus::Inactive, vec![0; 4096]));
    assert_eq!(linked.trace().unwrap(), b"pciex-trace 2\nmemory 0 4096 128\nhistory\nend\n");
}

#[test]
fn the_trace_of_an_endpoint_behind_its_link() {
    let mut linked = LinkedEndpoint::traced(4096, 0x1234, 0x7C1E, Credits::default()).unwrap();
    linked.up();
    for dllp in ["40000000", "50000000", "60000000", "C0000000"] {
        assert_eq!(linked.dllp(&bytes_of(dllp), true), Ok(DllpArrived::Took), "{dllp}");
    }
    let packets = [
        "0000 44000001 0008640F 01000010 0000DCFE",
        "0001 44000001 00086501 01000004 02000000",
        "0002 40000002 000800FF FEDC007C 11223344 55667788",
        "0003 4C000001 00086D00 FEDC0080 01000000",
    ];
    for packet in packets {
        assert_eq!(linked.packet(&bytes_of(packet), true), Ok(Arrived::Accepted(Handled::Accepted)), "{packet}");
    }
    let trace = String::from_utf8(linked.trace().unwrap()).unwrap();
    assert!(trace.contains("\nsub 1 2 2 add 80 01000000\nans 1 2 3 data 55667788\nhistory\n"), "{trace}");
    assert_eq!(check_clocked(trace.as_bytes()), Ok(()));
}
