//! The writers: what the proved library puts into a buffer is what the independent implementation
//! puts there, to the last byte of the buffer, and where there is no room nothing is touched.

mod support;

use independent::text;
use support::damage;
use support::packets::{RequestFields, ResponseFields};
use support::tally::Tally;
use support::{answers, hex, Xorshift};
use trawlbeacon::REQUEST_LENGTH;

const REQUESTS: &str = "requests";
const DELEGATIONS: &str = "delegation texts";
const TEXTS: &str = "response texts";

/// Every length up to some beyond a request's, and some far beyond.
fn lengths() -> impl Iterator<Item = usize> {
    (0..=1100).chain([1999, 2000, 2001, 4096, 65_536])
}

fn write_requests(tally: &mut Tally) {
    let mut random = Xorshift::new(0x5eed_0201);
    for length in lengths() {
        let (key, nonce, buffer) = (random.array(), random.array(), random.bytes(length));
        let due = if length < REQUEST_LENGTH { 19 } else { 0 };
        let both = answers::write_request(&key, &nonce, &buffer);
        tally.answer(REQUESTS, &both, Some(due), || {
            format!("{length} bytes, key {}, nonce {}", hex(&key), hex(&nonce))
        });
        // Not by the other side's word alone: what must stay is the buffer that was lent.
        let stays = if due == 0 { REQUEST_LENGTH } else { 0 };
        assert_eq!(both.ours.buffer[stays..], buffer[stays..], "{length} bytes");
        if due == 0 {
            read_back(&both.ours.buffer[..REQUEST_LENGTH], &key, &nonce);
        }
    }
}

fn read_back(packet: &[u8], key: &[u8; 32], nonce: &[u8; 32]) {
    let both = answers::read_request(packet);
    let due = trawlbeacon::Request { nonc: *nonce, srv: Some(independent::hash::srv_value(key)) };
    assert_eq!((both.ours, both.independent), (Ok(due), Ok(due)));
}

/// Both texts of a response, into buffers around the length that each needs, of which `code`
/// refuses all.
fn write_texts(tally: &mut Tally, random: &mut Xorshift, packet: &[u8], code: u32) {
    type Writer = fn(&[u8], &[u8]) -> answers::Both<answers::Written>;
    let delegation = text::delegation(packet).map_or(300, |text| text.len());
    let response = text::response(packet).map_or(300, |text| text.len());
    let writers: [(&str, usize, Writer); 2] = [
        (DELEGATIONS, delegation, answers::delegation_text),
        (TEXTS, response, answers::response_text),
    ];
    for (column, needed, writer) in writers {
        for length in [0, 1, 31, 32, 33, 34, 35, needed - 1, needed, needed + 1, needed + 200] {
            let buffer = random.bytes(length);
            let due = if code == 0 && length < needed { 19 } else { code };
            let both = writer(packet, &buffer);
            tally.answer(column, &both, Some(due), || {
                format!("{length} bytes, packet {}", hex(packet))
            });
            let stays = if due == 0 { needed } else { 0 };
            assert_eq!(both.ours.buffer[stays..], buffer[stays..], "{column}: {length} bytes");
        }
    }
}

fn write_all_texts(tally: &mut Tally) {
    let mut random = Xorshift::new(0x5eed_0202);
    for _ in 0..1_700 {
        let mut response = ResponseFields::random(&mut random);
        write_texts(tally, &mut random, &response.packet(), 0);
        let damaged = damage::damaged(&mut random, response.plan());
        // TYPE and the version stop no text, so that damage to them counts for nothing here.
        let shapes: Vec<_> = damaged.done.into_iter().filter(|done| done.1 != 8).collect();
        write_texts(tally, &mut random, &damaged.packet, damage::first_code(&shapes));
        (response.type_number, response.version) = (random.next() as u32, random.next() as u32);
        write_texts(tally, &mut random, &response.packet(), 0);
    }
    // A request has no text: the first tag that it lacks is enough.
    for _ in 0..100 {
        let request = RequestFields::random(&mut random).packet();
        write_texts(tally, &mut random, &request, 6);
    }
}

#[test]
fn both_sides_write_alike() {
    let mut tally = Tally::new(&[REQUESTS, DELEGATIONS, TEXTS]);
    write_requests(&mut tally);
    write_all_texts(&mut tally);
    println!(
        "writers, ours compared with independent; how often each code was given:\n{}",
        tally.table("code")
    );
    tally.no_difference();
    tally.at_least(60, REQUESTS, [0]);
    tally.at_least(100, REQUESTS, [19]);
    for column in [DELEGATIONS, TEXTS] {
        tally.at_least(100, column, (0..=7).chain([19]));
    }
}

/// Starts that no word could be written to.
#[test]
fn buffers_may_start_anywhere() {
    let mut random = Xorshift::new(0x5eed_0203);
    for start in 0..16 {
        let (key, nonce) = (random.array(), random.array());
        let before = random.bytes(start + REQUEST_LENGTH + 16);
        let mut out = before.clone();
        let (front, end) = (start, start + REQUEST_LENGTH);
        let wrote = trawlbeacon::write_request(&key, &nonce, &mut out[front..end]);
        assert_eq!(wrote, Ok(REQUEST_LENGTH));
        assert_eq!(out[front..end], independent::write::request(&key, &nonce));
        assert_eq!(
            (&out[..front], &out[end..]),
            (&before[..front], &before[end..]),
            "start {start}"
        );
    }
    println!("unaligned buffers: 16 requests, ours compared with independent");
}
