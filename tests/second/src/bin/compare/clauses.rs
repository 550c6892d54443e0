//! States that are not well formed in one clause: document 01's paragraph, clause by clause. Each is spoilt by a few fields that are set, meets every kind of event, and is put right again.
use crate::cases::{pair, Script};
use crate::makers::{entry, run, Draft};
use second::event::Event;

/// P=12, M=2. Slot 0: code on pages 2 and 3, param 4, data 6, entries at 8192 (4 bytes in and out) and 12288 (64). Slot 1: code 7, param 8, an entry without input and output.
/// Pages 0, 1, 5 and 9 are open. In legacy mode, secure in slot 0, or secure in slot 1.
const LEGACY: &str = "legacy mode";
const IN_0: &str = "slot 0 runs, out 4 bytes at 200";
const IN_1: &str = "slot 1 runs, no output";
const WIDE: &str = "P=200, a codeblock of 64 pages";

fn base(s: &mut Script, which: &str) {
    if which == WIDE {
        s.say("start 200 1");
        let draft = Draft { runs: vec![run(1, 1, 2), run(2, 62, 10), run(4, 1, 100)], entries: vec![entry(8192, 4, 4)] };
        s.must(0, Event::Register { mark: 7 }, &draft.bytes());
        s.say("keep");
        return;
    }
    s.say("start 12 2");
    let draft = Draft { runs: vec![run(1, 2, 2), run(4, 1, 4), run(2, 1, 6)], entries: vec![entry(8192, 4, 4), entry(12288, 64, 64)] };
    s.must(0, Event::Register { mark: 7 }, &draft.bytes());
    s.must(0, Event::Register { mark: 7 }, &pair(7, 0, 0));
    match which {
        IN_0 => s.must(0, Event::Call { mark: 7, address: 8192, input: 100, output: 200 }, b""),
        IN_1 => s.must(0, Event::Call { mark: 7, address: 28672, input: 0, output: 0 }, b""),
        _ => {}
    }
    s.say("keep");
}

/// The clause, the base state, and the ways to break it, parted by semicolons; what stands between commas is set together.
const BROKEN: [(&str, &str, &str); 18] = [
    ("P in range", LEGACY, "pages 0,memory 0; pages 1,memory 4096; pages 1025,memory 4198400; pages 4294967308; pages 18446744073709551615"),
    ("M in range", LEGACY, "kept 0,owner 10 0,owner 11 0; kept 12; kept 13; kept 4294967298; kept 18446744073709551615"),
    ("memory has the right length", LEGACY, "memory 0; memory 49151; memory 49153; memory 45056; memory 53248; memory 4096"),
    ("memory has the right length", IN_0, "memory 49151; memory 53248"),
    (
        "free slots are zero",
        LEGACY,
        "mark 2 1; mark 7 18446744073709551615; r 2 1; e 2 1; kind 2 0 1; kind 7 3 1; count 2 1 1; first 2 2 1; address 2 0 1; address 7 7 1; input 2 3 1; \
         output 2 7 1; pcr 2 0 0 1; pcr 7 7 19 128",
    ),
    ("at most 64 pages in all", WIDE, "count 0 1 63,owner 72 1; count 0 0 2,owner 3 1"),
    ("registered slots are no free ones", LEGACY, "registered 2 1; registered 0 0; registered 1 0"),
    (
        "runs obey the rules",
        LEGACY,
        "kind 0 2 0; kind 0 2 5; kind 0 2 255; count 0 2 0,owner 6 0; first 0 2 4,owner 6 0; first 0 2 3,owner 6 0; first 0 1 6,first 0 2 4; kind 0 2 4; \
         kind 0 1 3; count 0 1 2,owner 5 1; count 1 1 2,owner 9 2; kind 1 0 2; count 0 2 65535; count 0 2 256; first 0 2 4294967295; r 0 1; r 0 2,owner 6 0; \
         r 0 4; r 0 5; r 0 0; r 1 1; r 1 5; r 0 4294967299; r 0 18446744073709551615",
    ),
    (
        "entries obey the rules",
        LEGACY,
        "address 0 0 8191; address 0 1 16384; address 0 1 24576; address 0 1 28672; address 0 1 8192; address 0 0 12289; address 0 0 4294967295; \
         input 0 0 2049; output 0 1 2049; input 0 1 65535; output 1 0 2049; e 0 0; e 0 1; e 0 3; e 0 8; e 0 9; e 1 9; e 0 4294967298; e 0 18446744073709551615",
    ),
    (
        "unused places are zero",
        LEGACY,
        "kind 0 3 1; count 0 3 1; first 0 3 1; kind 1 2 1; count 1 3 1; address 0 2 1; input 0 2 1; output 0 7 1; address 1 1 1; input 1 7 1; output 1 1 1",
    ),
    (
        "pages lie under P-M",
        LEGACY,
        "first 0 2 10,owner 6 0; first 0 2 10,owner 6 0,owner 10 1; first 0 2 11,owner 6 0,owner 11 1; first 0 2 12,owner 6 0; \
         first 0 2 12,owner 6 0,owner 12 1; first 0 2 1023,owner 6 0,owner 1023 1; first 0 2 9,count 0 2 2,owner 6 0,owner 9 1,owner 10 1; \
         first 0 2 1024,owner 6 0",
    ),
    (
        "no page is in two slots",
        LEGACY,
        "first 0 2 8,owner 6 0; first 0 2 8,owner 6 0,owner 8 1; first 0 2 7,owner 6 0,owner 7 1; count 0 2 2; count 0 2 2,owner 7 1; \
         count 0 2 3,owner 7 1,owner 8 1",
    ),
    (
        "the owner table says exactly that",
        LEGACY,
        "owner 0 1; owner 0 2; owner 1 3; owner 5 255; owner 9 8; owner 9 9; owner 2 0; owner 3 2; owner 4 255; owner 6 0; owner 7 1; owner 8 3; owner 10 0; \
         owner 11 0; owner 10 1; owner 11 254; owner 12 1; owner 12 255; owner 1023 255; owner 1023 1; owner 512 2",
    ),
    ("in legacy mode the running record is zero", LEGACY, "running 1 0 0; running 0 1 0; running 0 0 1; running 0 200 4; running 0 0 4; running 18446744073709551615 0 0"),
    (
        "the record's slot is the mode's and is registered",
        IN_0,
        "running 1 200 4; running 8 200 4; running 256 200 4; running 4294967296 200 4; mode 2; mode 3,running 2 0 0; mode 8,running 7 0 0; \
         mode 9,running 8 200 4; mode 257,running 256 200 4; mode 4294967297,running 4294967296 200 4; \
         mode 18446744073709551615,running 18446744073709551614 0 0",
    ),
    (
        "the out length is one of the entries'",
        IN_0,
        "running 0 200 5; running 0 200 3; running 0 0 0; running 0 200 63; running 0 200 2049; running 0 200 65540; running 0 200 4294967300; \
         running 0 200 18446744073709551615",
    ),
    (
        "the out range is a range on an open page",
        IN_0,
        "running 0 4093 4; running 0 8192 4; running 0 16384 4; running 0 28672 4; running 0 40960 4; running 0 45056 4; running 0 49151 4; running 0 49152 4; \
         running 0 4033 64; running 0 4294967496 4; running 0 18446744073709551615 4; running 0 18446744073709551612 4",
    ),
    ("of length 0, the out address is 0", IN_1, "running 1 1 0; running 1 200 0; running 1 8192 0; running 1 18446744073709551615 0"),
];

/// What is as near and well formed: the clauses ask no more than they say.
const RIGHT: [(&str, &str); 3] = [
    (
        LEGACY,
        "mark 0 0; mark 1 18446744073709551615; pcr 0 0 0 1; pcr 1 7 19 255; kind 0 2 3; first 0 2 5,owner 6 0,owner 5 1; first 0 2 9,owner 6 0,owner 9 1; \
         count 0 1 1,count 0 2 1,first 0 2 5,owner 5 1,owner 6 0; input 0 0 0; output 0 1 2048; address 0 1 16383; address 0 0 8193; kept 3,owner 9 255",
    ),
    (IN_0, "running 0 4092 4; running 0 20480 4; running 0 36864 64; running 0 4032 64; running 0 40956 4; output 0 0 0,running 0 0 0"),
    (IN_1, "mode 1,running 0 4092 4; output 1 0 5,running 1 4091 5"),
];

pub fn script() -> Script {
    let mut s = Script::new("states not well formed");
    for (clause, which, ways) in BROKEN {
        base(&mut s, which);
        for way in ways.split("; ") {
            s.say(format!("# {clause}: {way}"));
            set(&mut s, way);
            for (event, payload) in events() {
                s.must(1, event, &payload);
            }
            // the map is lent no memory
            let number = s.say("map").unwrap();
            assert_eq!(number == 1, !clause.starts_with("memory"), "{clause}: {way}");
            s.say("back");
        }
    }
    for (which, ways) in RIGHT {
        for way in ways.split("; ") {
            for (event, payload) in events() {
                base(&mut s, which);
                s.say(format!("# well formed: {way}"));
                set(&mut s, way);
                assert_ne!(s.event(event, &payload), 1, "{way}: {event:?}");
                s.say("map");
            }
        }
    }
    s
}

fn set(s: &mut Script, way: &str) {
    for field in way.split(',') {
        s.say(if field.starts_with("memory") { field.to_string() } else { format!("set {field}") });
    }
}

/// One of each kind, such as are accepted in some mode.
fn events() -> Vec<(Event, Vec<u8>)> {
    let none = Vec::new;
    vec![
        (Event::Register { mark: 7 }, pair(0, 4, 4)),
        (Event::Unregister { mark: 7, slot: 1 }, none()),
        (Event::Call { mark: 7, address: 8192, input: 0, output: 4096 }, none()),
        (Event::Return, none()),
        (Event::Jump { address: 0 }, none()),
        (Event::Read { address: 0, length: 16 }, none()),
        (Event::Write { address: 16 }, vec![1, 2, 3]),
        (Event::DeviceRead { address: 0, length: 16 }, none()),
        (Event::DeviceWrite { address: 16 }, vec![1, 2, 3]),
        (Event::ExtendPayload { index: 1 }, vec![1, 2, 3]),
        (Event::ExtendMemory { index: 1, address: 8192, length: 4 }, none()),
        (Event::PcrRead { index: 0 }, none()),
    ]
}
