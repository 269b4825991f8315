//! Request 6: which instance the lookup of a writer names.

use reading::bytes::Guid;
use reading::layout::{Instance, Kind, Time};
use reading::reads::instance_of_writer;

const SMALL_BYTES: usize = 16_384;
const LARGE_BYTES: usize = 65_536;
const WRITER: Guid = [7; 16];

/// With two writers in its set.
fn alive(key: [u8; 16], handle: u64) -> Instance {
    Instance { writers: vec![WRITER, [9; 16]], ..Instance::fresh(key, handle) }
}

fn dead(key: [u8; 16], handle: u64, kind: Kind) -> Instance {
    Instance { kind, ..alive(key, handle) }
}

/// A table of these, laid out in key order.
fn pens(length: usize, instances: &[Instance]) -> Vec<u8> {
    let mut sorted = instances.to_vec();
    sorted.sort_by_key(|i| i.key);
    let mut pens: Vec<u8> = sorted.iter().flat_map(Instance::bytes).collect();
    pens.resize(length, 0);
    pens
}

/// The same with either number of places.
fn found(instances: &[Instance], guid: &Guid) -> Option<u64> {
    let told = [SMALL_BYTES, LARGE_BYTES].map(|n| instance_of_writer(&pens(n, instances), guid));
    assert_eq!(told[0], told[1]);
    told[0].expect("the table is well formed")
}

/// Neither the lowest handle nor the highest, and not the first of the table.
#[test]
fn the_first_in_key_order() {
    let free = Instance::fresh([1; 16], 6);
    let all = [alive([4; 16], 2), free, alive([3; 16], 9), alive([2; 16], 5)];
    assert_eq!(found(&all, &WRITER), Some(5));
    assert_eq!(found(&all, &[9; 16]), Some(5));
    assert_eq!(found(&all[..3], &WRITER), Some(9));
    assert_eq!(found(&all[..1], &WRITER), Some(2));
}

#[test]
fn keys_are_ordered_by_all_bytes() {
    let key = |first, last| {
        let mut key = [0x10; 16];
        (key[0], key[15]) = (first, last);
        key
    };
    let all = [alive(key(0x80, 0), 1), alive(key(0x7f, 0x80), 2), alive(key(0x7f, 0x7f), 3)];
    assert_eq!(found(&all, &WRITER), Some(3));
    assert_eq!(found(&all[..2], &WRITER), Some(2));
}

#[test]
fn dead_ones_are_passed_over() {
    let dead = [dead([1; 16], 1, Kind::Disposed), dead([2; 16], 2, Kind::NoWriters)];
    assert_eq!(found(&dead, &WRITER), None);
    let [first, second] = dead;
    assert_eq!(found(&[first, second, alive([3; 16], 3)], &WRITER), Some(3));
}

/// Whatever an instance keeps of its end.
#[test]
fn revived_ones_are_named() {
    let end = Some(Time { seconds: 3, nanoseconds: 4 });
    let disposed = Instance { disposed_at: end, disposed_generations: 1, ..alive([1; 16], 8) };
    let writerless =
        Instance { no_writers_at: end, no_writers_generations: 1, ..alive([1; 16], 8) };
    for revived in [disposed, writerless] {
        assert_eq!(found(&[revived, alive([2; 16], 2)], &WRITER), Some(8));
    }
}

/// Neither a GUID one byte off, nor the zeros behind a set, nor an owner.
#[test]
fn none_if_there_is_none() {
    let owned = Instance { owner: Some(([5; 16], 0)), ..alive([1; 16], 1) };
    for at in 0..16 {
        let mut other = WRITER;
        other[at] ^= 1;
        assert_eq!(found(std::slice::from_ref(&owned), &other), None, "{at}");
    }
    assert_eq!(found(std::slice::from_ref(&owned), &[0; 16]), None);
    assert_eq!(found(&[owned], &[5; 16]), None);
    assert_eq!(found(&[], &[0; 16]), None);
}

/// Also where what is not well formed stands behind the one that fits.
#[test]
fn refused_as_1_and_3() {
    for length in [SMALL_BYTES, LARGE_BYTES] {
        let whole = pens(length, &[alive([1; 16], 1), alive([2; 16], 2)]);
        assert_eq!(instance_of_writer(&whole, &WRITER), Ok(Some(1)));
        let mut stray = whole.clone();
        stray[length - 1] = 1;
        assert_eq!(instance_of_writer(&stray, &WRITER), Err(3));
        for other in [0, 512, length - 1, length - 512] {
            assert_eq!(instance_of_writer(&whole[..other], &WRITER), Err(1), "{other}");
        }
    }
}
