//! What a server writes: the proved library and the independent one write the same bytes or refuse
//! with the same code at the same byte, each checks what the other wrote, and a batch of any size is
//! answered.

mod support;

use independent::appendix::{self, Entry};
use independent::place::{self, Kind};
use independent::{check, respond, response, text};
use std::collections::BTreeMap;
use support::answers::{self, Both};
use support::packets::number;
use support::replies::{Call, Fault, Frame, CERT_FRAMES, DELE_FRAMES, FAULTS};
use support::tally::Tally;
use support::{counted, hex, Xorshift};
use trawlbeacon::{
    Checked, Laid, Placed, Reply, Window, CERT_LENGTH, DELEGATION_CONTEXT, DELE_LENGTH,
    MOST_LEAVES, MOST_ROWS_LENGTH, REQUEST_LENGTH, RESPONSE_CONTEXT, SREP_LENGTH,
};

const RIGHT: &str = "right calls";
const FAULTY: &str = "faulty calls";

const COUNTED: &str = "calls of a server's writers";

/// What the other side's checker says of a response, in our types.
fn checked_there(request: &[u8], packet: &[u8]) -> Result<Checked, u32> {
    let valid = check::check(request, packet, true, true).map_err(|why| why.code())?;
    let check::Window { midp, radi, low, high, mint, maxt } = valid.window;
    let window = Window { midp, radi, low, high, mint, maxt };
    Ok(Checked { window, pubk: valid.pubk })
}

/// What a response that was written says, by both readers and both checkers.
fn judge(call: &Call, written: &[u8]) {
    let (request, shown) = (&call.request[..], || call.show());
    let ours = trawlbeacon::check_response(request, written, true, true).map_err(|why| why.code());
    assert_eq!(ours, checked_there(request, written), "{}", shown());
    let said = ours.expect("what is written passes");
    assert_eq!((said.window.midp, said.window.radi), (call.midp, call.radi), "{}", shown());
    let read = trawlbeacon::read_response(written).expect("what is written is read");
    let asked = trawlbeacon::read_request(request).expect("it was answered");
    assert_eq!((read.nonc, read.indx, read.root), (asked.nonc, call.indx, call.root));
    assert!(written.len() <= request.len(), "{}", shown());
    // What was signed is what is verified.
    let mut srep = [0; SREP_LENGTH];
    assert_eq!(trawlbeacon::write_srep(&call.root, call.midp, call.radi, &mut srep), Ok(92));
    let parsed = response::read(written).expect("what is written is read");
    assert_eq!((parsed.outer.srep, parsed.outer.cert), (&srep[..], &call.cert[..]));
    let signed = [&RESPONSE_CONTEXT[..], &srep].concat();
    let delegated = [&DELEGATION_CONTEXT[..], parsed.cert.dele].concat();
    assert_eq!((text::response(written), text::delegation(written)), (Ok(signed), Ok(delegated)));
    assert_eq!(parsed.outer.sig, call.signature);
}

/// Compares a call, sees that the rest of its buffer stays, and gives what was written.
fn compare(tally: &mut Tally, column: &str, call: &Call, due: u32) -> Vec<u8> {
    let Both { ours, independent } = call.ask();
    let stays = ours.answer.unwrap_or(0);
    let written = ours.buffer[..stays].to_vec();
    assert_eq!(ours.buffer[stays..], call.buffer[stays..], "{}", call.show());
    tally.answer(column, &Both { ours, independent }, Some(due), || call.show());
    written
}

#[test]
fn both_sides_write_the_same_responses() {
    let mut random = Xorshift::new(0x5eed_0101);
    let mut tally = Tally::new(&[RIGHT]);
    for _ in 0..50_000 {
        let call = Call::with(&mut random, &[]);
        let written = compare(&mut tally, RIGHT, &call, 0);
        judge(&call, &written);
    }
    println!("responses, ours compared with independent:\n{}", tally.table("code"));
    tally.no_difference();
    tally.at_least(50_000, RIGHT, [0]);
    counted(tally.answers(), COUNTED);
}

/// Some first fault, now and then alone, now and then with the one that comes next in the order, and
/// any others behind it.
fn some_faults(random: &mut Xorshift) -> Vec<Fault> {
    let first = random.below(FAULTS.len());
    let mut faults = vec![FAULTS[first]];
    if random.once_in(4) {
        return faults;
    }
    for (behind, fault) in FAULTS[first + 1..].iter().enumerate() {
        if random.once_in(if behind == 0 { 2 } else { 5 }) {
            faults.push(*fault);
        }
    }
    faults
}

/// The cause of code 4 that is due, seen to be the one that the independent side finds.
fn frame_due(call: &Call, first: Fault) -> Option<(Kind, Frame)> {
    let (kind, frame) = match first {
        Fault::CertFrame => (Kind::Cert, call.frames[0]?),
        Fault::DeleFrame => (Kind::Dele, call.frames[1]?),
        _ => return None,
    };
    let found = place::in_cert(&call.cert).expect("its frame is wrong");
    assert_eq!(found.kind, kind, "{frame:?}: {}", call.show());
    assert!(frame.is_told_as(found.cause), "{frame:?}: {:?}: {}", found.cause, call.show());
    Some((kind, frame))
}

#[test]
fn both_sides_refuse_the_same_calls() {
    let mut random = Xorshift::new(0x5eed_0102);
    let mut tally = Tally::new(&[FAULTY]);
    let mut alone = [0; FAULTS.len()];
    let mut beside = [0; FAULTS.len()];
    let mut frames: BTreeMap<(Kind, Frame), usize> = BTreeMap::new();
    for _ in 0..110_000 {
        let faults = some_faults(&mut random);
        let call = Call::with(&mut random, &faults);
        compare(&mut tally, FAULTY, &call, faults[0].code());
        if let Some(due) = frame_due(&call, faults[0]) {
            *frames.entry(due).or_insert(0) += 1;
        }
        let place = faults[0] as usize;
        alone[place] += usize::from(faults.len() == 1);
        let next = FAULTS.get(place + 1);
        beside[place] += usize::from(next.map_or(false, |next| faults.contains(next)));
    }
    println!("refused calls, ours compared with independent:\n{}", tally.table("code"));
    println!("how often each fault was told, alone and beside the one that comes next:");
    for (place, fault) in FAULTS.iter().enumerate() {
        println!("{:>12} {:>7} {:>7}", format!("{fault:?}"), alone[place], beside[place]);
    }
    println!("how often each cause of code 4 was told, of CERT and of its DELE:");
    for ((kind, frame), count) in &frames {
        println!("{:>12} {:>9} {count:>7}", format!("{kind:?}"), format!("{frame:?}"));
    }
    tally.no_difference();
    tally.at_least(1_000, FAULTY, [4, 5, 6, 7, 10, 11, 14, 19, 23]);
    assert!(alone.iter().all(|count| *count >= 1_000), "{alone:?}");
    assert!(beside[..FAULTS.len() - 1].iter().all(|count| *count >= 1_000), "{beside:?}");
    assert_eq!(frames.len(), CERT_FRAMES.len() + DELE_FRAMES.len());
    assert!(frames.values().all(|count| *count >= 500), "{frames:?}");
    counted(tally.answers(), COUNTED);
}

/// The writers of SREP, DELE and CERT, into buffers of every length up to some beyond what they
/// need.
#[test]
fn both_sides_write_the_same_parts() {
    let mut random = Xorshift::new(0x5eed_0103);
    let mut tally = Tally::new(&["SREP", "DELE", "CERT"]);
    for round in 0..60 {
        for length in (0..=160).chain([200, 1000]) {
            let (key, buffer) = (random.array(), random.bytes(length));
            let (first, second) = (number(&mut random), number(&mut random));
            let signature = random.bytes(64).try_into().expect("64 bytes were asked for");
            let radi = if round % 3 == 0 { 0 } else { 1.max(second as u32) };
            let shown = || format!("{length} bytes, {} {first} {second} {radi}", hex(&key));
            let room = |needed: usize| if length < needed { 19 } else { 0 };
            let both = answers::write_both(
                &buffer,
                None,
                |out| trawlbeacon::write_srep(&key, first, radi, out),
                |out| {
                    respond::srep(&key, first, radi)
                        .and_then(|srep| independent::write::put(&srep, out))
                },
            );
            let due = if radi == 0 { 7 } else { room(SREP_LENGTH) };
            tally.answer("SREP", &both, Some(due), shown);
            let both = answers::write_both(
                &buffer,
                None,
                |out| trawlbeacon::write_dele(&key, first, second, out),
                |out| independent::write::put(&respond::dele(&key, first, second), out),
            );
            tally.answer("DELE", &both, Some(room(DELE_LENGTH)), shown);
            let both = answers::write_both(
                &buffer,
                None,
                |out| trawlbeacon::write_cert(&key, first, second, &signature, out),
                |out| independent::write::put(&respond::cert(&key, first, second, &signature), out),
            );
            tally.answer("CERT", &both, Some(room(CERT_LENGTH)), shown);
        }
    }
    println!("SREP, DELE and CERT, ours compared with independent:\n{}", tally.table("code"));
    tally.no_difference();
    tally.at_least(1_000, "SREP", [0, 7, 19]);
    tally.at_least(1_000, "DELE", [0, 19]);
    tally.at_least(500, "CERT", [0]);
    counted(tally.answers(), COUNTED);
}

/// Beside 7 there is a byte exactly where RADI is not 0.
#[test]
fn a_radius_of_0_has_no_place() {
    let mut random = Xorshift::new(0x5eed_0104);
    for fault in [Fault::Radius, Fault::CertValue, Fault::DeleValue] {
        for _ in 0..500 {
            let call = Call::with(&mut random, &[fault]);
            let mut out = call.buffer.clone();
            let why = trawlbeacon::write_response(&call.reply(), &mut out).unwrap_err();
            assert_eq!(why.code(), 7);
            assert_eq!(why.at.is_some(), fault != Fault::Radius, "{}", call.show());
            let srep = trawlbeacon::write_srep(&call.root, call.midp, 0, &mut out);
            assert_eq!(srep, Err(trawlbeacon::Refusal::Value));
            assert_eq!(out, call.buffer);
        }
    }
}

/// Batches of many sizes, end to end: one SREP, and a response for each place.
#[test]
fn every_request_of_a_batch_is_answered() {
    let mut random = Xorshift::new(0x5eed_0105);
    let sizes = (1..=33).chain([63, 64, 65, 511, 512, 513, 900, MOST_LEAVES - 1, MOST_LEAVES]);
    let mut answered = 0;
    for count in sizes {
        let mut requests = vec![vec![0; REQUEST_LENGTH]; count];
        for request in &mut requests {
            trawlbeacon::write_request(&random.array(), &random.array(), request).unwrap();
        }
        let leaves: Vec<u8> =
            requests.iter().flat_map(|packet| trawlbeacon::leaf(packet)).collect();
        let mut rows = [0; MOST_ROWS_LENGTH];
        let Laid { depth, length } = trawlbeacon::rows(&leaves, &mut rows).unwrap();
        let rows = &rows[..length];
        let root: [u8; 32] = rows[rows.len() - 32..].try_into().unwrap();
        let (pubk, midp, radi) = (random.array(), number(&mut random), 5);
        let [signature, delegation]: [[u8; 64]; 2] =
            [(); 2].map(|()| random.bytes(64).try_into().unwrap());
        let mut cert = [0; CERT_LENGTH];
        trawlbeacon::write_cert(&pubk, midp, midp, &delegation, &mut cert).unwrap();
        let mut srep = [0; SREP_LENGTH];
        trawlbeacon::write_srep(&root, midp, radi, &mut srep).unwrap();
        let mut path = vec![0; 32 * depth];
        for (place, request) in requests.iter().enumerate() {
            let placed = trawlbeacon::path_from(rows, count, place, &mut path).unwrap();
            assert_eq!(placed, Placed { indx: place as u32, depth });
            let (indx, root, cert) = (placed.indx, &root, &cert[..]);
            let reply =
                Reply { request, indx, root, path: &path, midp, radi, cert, signature: &signature };
            let mut out = vec![0; REQUEST_LENGTH];
            let length = trawlbeacon::write_response(&reply, &mut out).unwrap();
            let said = checked_there(request, &out[..length]).unwrap();
            assert_eq!((said.window.midp, said.window.maxt, said.pubk), (midp, midp, pubk));
            assert_eq!(trawlbeacon::check_response(request, &out[..length], true, true), Ok(said));
            assert_eq!(response::read(&out[..length]).unwrap().outer.srep, srep);
            // Another request of the batch is not answered by it.
            if count > 1 {
                let other = &requests[(place + 1) % count];
                let why = trawlbeacon::check_response(other, &out[..length], true, true);
                assert_eq!(why.unwrap_err().code(), 9);
            }
            answered += 1;
        }
    }
    println!(
        "batches of 1 to 1,024 requests: {answered} responses, each valid for its own request"
    );
}

/// The three responses that draft 19 prints, written again out of their values, to the byte.
#[test]
fn the_drafts_own_responses_are_written_again() {
    for Entry { request, response, .. } in appendix::entries() {
        let said = response::read(&response).expect("it is a response");
        let (outer, dele) = (&said.outer, &said.dele);
        let mut cert = [0; CERT_LENGTH];
        trawlbeacon::write_cert(&dele.pubk, dele.mint, dele.maxt, &said.cert.sig, &mut cert)
            .expect("there is room");
        assert_eq!(outer.cert, cert);
        let reply = Reply {
            request: &request,
            indx: outer.indx,
            root: &said.srep.root,
            path: &outer.path.concat(),
            midp: said.srep.midp,
            radi: said.srep.radi,
            cert: &cert,
            signature: &outer.sig,
        };
        let mut out = vec![0; response.len()];
        assert_eq!(trawlbeacon::write_response(&reply, &mut out), Ok(response.len()));
        assert_eq!(hex(&out), hex(&response));
    }
}
