//! Section 2's records, written out by hand.

use reading::Head;
use reading::layout::{Instance, Kind, Standing, Time, Writer, WriterKind};

fn put(record: &mut [u8], at: usize, hex: &str) {
    for (n, byte) in hex.split_whitespace().enumerate() {
        record[at + n] = u8::from_str_radix(byte, 16).expect("hex");
    }
}

fn at(seconds: i32, nanoseconds: u32) -> Option<Time> {
    Some(Time { seconds, nanoseconds })
}

#[test]
fn an_instance_with_everything() {
    let instance = Instance {
        key: [0xaa; 16],
        handle: 0x0102030405060708,
        kind: Kind::NoWriters,
        view_new: true,
        disposed_generations: 1,
        no_writers_generations: i32::MAX,
        writer_count: u32::MAX,
        samples: 7,
        last_sample: at(-1, 2),
        last_delivered: at(3, 4),
        last_filter: at(5, 6),
        disposed_at: at(7, 8),
        no_writers_at: at(9, 10),
        owner: Some(([0xbb; 16], -2)),
        owner_at: at(11, 12),
        holder: Some(vec![0xcc, 0xdd]),
        writers: vec![[1; 16], [2; 16]],
    };
    let mut record = [0; 512];
    record[..16].fill(0xaa);
    put(&mut record, 16, "01 02 03 04 05 06 07 08");
    // Kind 2, view-new, the eight presences, two writers.
    put(&mut record, 24, "bf e2 00 02");
    put(&mut record, 28, "00 00 00 01 7f ff ff ff ff ff ff ff 00 00 00 07");
    put(&mut record, 44, "ff ff ff ff 00 00 00 02 00 00 00 03 00 00 00 04");
    put(&mut record, 60, "00 00 00 05 00 00 00 06 00 00 00 07 00 00 00 08");
    put(&mut record, 76, "00 00 00 09 00 00 00 0a 00 00 00 0b 00 00 00 0c");
    record[92..108].fill(0xbb);
    put(&mut record, 108, "ff ff ff fe cc dd");
    record[256..272].fill(1);
    record[272..288].fill(2);
    assert_eq!(instance.bytes(), record);
    assert_eq!(Instance::of_record(&record), Some(instance));
}

/// Each presence has its bit, in section 2's order.
#[test]
fn the_presences_in_order() {
    let all: [fn(&mut Instance); 8] = [
        |i| i.last_sample = at(0, 0),
        |i| i.last_delivered = at(0, 0),
        |i| i.last_filter = at(0, 0),
        |i| i.disposed_at = at(0, 0),
        |i| i.no_writers_at = at(0, 0),
        |i| i.owner = Some(([0; 16], 0)),
        |i| i.owner_at = at(0, 0),
        |i| i.holder = Some(Vec::new()),
    ];
    for (n, set) in all.iter().enumerate() {
        let mut instance = Instance::default();
        set(&mut instance);
        let flags = 1u16 << (12 - n);
        assert_eq!(instance.bytes()[24..26], flags.to_be_bytes());
    }
}

#[test]
fn a_writer_with_everything() {
    let writer = Writer {
        guid: [0xee; 16],
        kind: WriterKind::ByTopic,
        standing: Standing::NotAlive,
        lease: Some(0x0a0b),
        last_assertion: 0x0c0d,
    };
    let mut record = [0; 40];
    record[..16].fill(0xee);
    put(&mut record, 16, "a8");
    put(&mut record, 30, "0a 0b");
    put(&mut record, 38, "0c 0d");
    assert_eq!(writer.bytes(), record);
    assert_eq!(Writer::of_record(&record), Some(writer));
}

#[test]
fn a_departed_writer_and_an_all_zero_one() {
    let mut record = [0; 40];
    assert_eq!(Writer::of_record(&record), Some(Writer::default()));
    record[..16].fill(0xee);
    record[16] = 0x30;
    assert_eq!(Writer::of_record(&record), Some(Writer::departed([0xee; 16])));
    record[39] = 1;
    assert_eq!(Writer::of_record(&record), None);
}

#[test]
fn a_head_comes_back() {
    let head = Head {
        alive_change: -5,
        last_writer: Some([9; 16]),
        changes: u64::MAX,
        ..Head::fresh(0x1234)
    };
    assert_eq!(head.bytes()[28..32], [0, 1, 0x12, 0x34]);
    assert_eq!(Head::of_bytes(&head.bytes()), head);
}
