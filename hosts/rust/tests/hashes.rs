//! The hashes that Roughtime makes of SHA-512: the proved library and the independent
//! implementation must agree on each.

mod support;

use independent::hash;
use support::{counted, Xorshift};

const PAIRS: usize = 5_000;
const KEYS: usize = 5_000;

const COUNTED: &str = "hashes";

/// Lengths around every place of the padding within three blocks, then those of real packets, and
/// some far beyond any packet.
fn lengths() -> impl Iterator<Item = usize> {
    let longer = [600, 1023, 1024, 1035, 1036, 1037, 1280, 1500, 2000, 2001, 2032, 4096, 65_535];
    (0..=400).chain(longer).chain([65_536, 1 << 20])
}

#[test]
fn leaves() {
    let mut random = Xorshift::new(0x5eed_0011);
    let mut compared = 0;
    for length in lengths() {
        let packet = random.bytes(length);
        assert_eq!(trawlbeacon::leaf(&packet), hash::leaf(&packet), "{length} bytes");
        compared += 1;
    }
    println!("leaves: {compared} packets, ours compared with independent");
    counted(compared, COUNTED);
}

#[test]
fn links() {
    let mut random = Xorshift::new(0x5eed_0012);
    let mut compared = 0;
    for length in lengths() {
        let (response, rand) = (random.bytes(length), random.array());
        assert_eq!(
            trawlbeacon::link(&response, &rand),
            hash::link(&response, &rand),
            "{length} bytes"
        );
        compared += 1;
    }
    println!("links: {compared} responses, ours compared with independent");
    counted(compared, COUNTED);
}

#[test]
fn parents() {
    let mut random = Xorshift::new(0x5eed_0013);
    for i in 0..PAIRS {
        let (left, right) = (random.array(), random.array());
        assert_eq!(trawlbeacon::parent(&left, &right), hash::parent(&left, &right), "pair {i}");
        // The inputs are only read, so both may be one array.
        assert_eq!(
            trawlbeacon::parent(&left, &left),
            hash::parent(&left, &left),
            "pair {i}, left twice"
        );
    }
    println!("parents: {} pairs, ours compared with independent", 2 * PAIRS);
    counted(2 * PAIRS, COUNTED);
}

#[test]
fn srv_values() {
    let mut random = Xorshift::new(0x5eed_0014);
    for i in 0..KEYS {
        let key = random.array();
        assert_eq!(trawlbeacon::srv_value(&key), hash::srv_value(&key), "key {i}");
    }
    println!("SRV values: {KEYS} keys, ours compared with independent");
    counted(KEYS, COUNTED);
}

#[test]
fn the_empty_place() {
    assert_eq!(trawlbeacon::empty_place(), hash::empty_place());
    assert_eq!(trawlbeacon::empty_place(), trawlbeacon::leaf(&[]));
    println!("the empty place: ours compared with independent, and with our leaf of no bytes");
}
