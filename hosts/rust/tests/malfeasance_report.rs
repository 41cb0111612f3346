//! The malfeasance report of draft 19, appendix B: packets that neither side made. Both must read
//! all six, find each response valid, take them as a pile for a report, and say the same.

mod support;

use independent::appendix::{self, Entry};
use independent::making::Made;
use independent::response;
use support::answers::{self, Answer, Bad};
use support::hex;
use support::pairs::Question;
use support::pile_answers::{Asked, Reported};
use trawlbeacon::{Checked, Request, Response, Run, Window, RECORD_LENGTH};

/// MIDP and RADI of each response.
const WINDOWS: [(u64, u32); 3] = [(1_773_685_571, 3), (1_773_599_171, 3), (1_773_599_171, 3)];

/// Both sides' answer where they agree and none refuses.
fn agreed<T: std::fmt::Debug>(both: answers::Both<Result<T, Bad>>, what: &str) -> T
where
    Result<T, Bad>: answers::Answer,
{
    assert!(
        both.ours == both.independent,
        "{what}: ours {:?}, independent {:?}",
        both.ours,
        both.independent
    );
    both.ours.unwrap_or_else(|bad| panic!("{what}: refused with {bad:?}"))
}

fn show(index: usize, entry: &Entry, request: &Request, response: &Response) {
    println!("entry {index}: key {}", hex(&entry.key));
    println!("  rand         {}", entry.rand.map_or("none".to_string(), |rand| hex(&rand)));
    println!("  request NONC {}", hex(&request.nonc));
    println!("          SRV  {}", request.srv.map_or("none".to_string(), |srv| hex(&srv)));
    println!("  response INDX {} MIDP {} RADI {}", response.indx, response.midp, response.radi);
    println!("          NONC {}", hex(&response.nonc));
    println!("          ROOT {}", hex(&response.root));
}

/// The texts that were signed end with the value that the signature stands beside.
fn compare_texts(index: usize, entry: &Entry) {
    let shaped = response::shaped(&entry.response).expect("it was read before");
    let (dele, srep) = (shaped.dele.bytes, shaped.srep.bytes);
    let mut out = [0; trawlbeacon::LONGEST_TEXT];
    let length = trawlbeacon::delegation_text(&entry.response, &mut out).expect("there is room");
    assert_eq!(
        out[..length],
        [b"RoughTime v1 delegation signature\0", dele].concat(),
        "entry {index}"
    );
    let length = trawlbeacon::response_text(&entry.response, &mut out).expect("there is room");
    assert_eq!(
        out[..length],
        [b"RoughTime v1 response signature\0", srep].concat(),
        "entry {index}"
    );
}

#[test]
fn both_sides_read_all_six_packets() {
    let entries = appendix::entries();
    assert_eq!(entries.len(), 3);
    for (index, entry) in entries.iter().enumerate() {
        let request = agreed(answers::read_request(&entry.request), "request");
        let response = agreed(answers::read_response(&entry.response), "response");
        show(index, entry, &request, &response);
        compare_texts(index, entry);
        assert_eq!(
            request.srv,
            Some(trawlbeacon::srv_value(&entry.key)),
            "entry {index}: SRV is the key's"
        );
        assert_eq!(response.nonc, request.nonc, "entry {index}: the response answers the request");
        // With no siblings the leaf is the root.
        assert_eq!(
            response.root,
            trawlbeacon::leaf(&entry.request),
            "entry {index}: ROOT is the request's leaf"
        );
        // The draft's client writes the request that we write.
        let mut ours = [0; trawlbeacon::REQUEST_LENGTH];
        trawlbeacon::write_request(&entry.key, &request.nonc, &mut ours).expect("there is room");
        assert_eq!(ours[..], entry.request, "entry {index}: the request, written by us");
    }
    println!(
        "draft 19, appendix B: 3 requests and 3 responses, all fields of ours compared with \
         independent"
    );
}

/// What a check is asked about the request of one entry and the response of another.
fn question(request: &Entry, response: &Entry, delegation: bool, signature: bool) -> Question {
    Question {
        request: request.request.clone(),
        response: response.response.clone(),
        delegation,
        signature,
    }
}

/// The paths are empty, so that nothing here tells which of two hashes goes first.
#[test]
fn both_sides_find_each_response_valid() {
    let entries = appendix::entries();
    for (index, entry) in entries.iter().enumerate() {
        let checked = agreed(question(entry, entry, true, true).ask(), "both signatures right");
        let (midp, radi) = WINDOWS[index];
        let (low, high) = (midp - u64::from(radi), midp + u64::from(radi));
        let shaped = response::shaped(&entry.response).expect("it is a response");
        let response::Dele { pubk, mint, maxt, .. } = shaped.dele;
        let window = Window { midp, radi, low, high, mint, maxt };
        assert_eq!(checked, Checked { window, pubk });
        println!("entry {index}: valid, from {low} to {high}, by a key from {mint} to {maxt}");
        for (delegation, signature, due) in
            [(false, true, 12), (true, false, 13), (false, false, 12)]
        {
            let both = question(entry, entry, delegation, signature).ask();
            let due = Err(Bad { code: due, at: None });
            assert_eq!((both.ours, both.independent), (due, due), "entry {index}");
        }
        for (other_index, other) in entries.iter().enumerate().filter(|other| other.0 != index) {
            let both = question(entry, other, true, true).ask();
            assert_eq!(
                (both.ours, both.independent),
                (Err(Bad { code: 9, at: None }), Err(Bad { code: 9, at: None })),
                "request {index}, response {other_index}"
            );
        }
    }
    println!(
        "draft 19, appendix B: 3 responses, the windows that both sides tell compared with their \
         MIDP and RADI, and what they tell of the key with their DELE"
    );
}

#[test]
fn each_request_is_linked_to_the_response_before_it() {
    let entries = appendix::entries();
    assert!(entries[0].rand.is_none(), "nothing comes before the first request");
    for pair in entries.windows(2) {
        let rand = pair[1].rand.expect("every later request has a rand");
        let nonc = trawlbeacon::read_request(&pair[1].request).expect("it is a request").nonc;
        assert_eq!(nonc, trawlbeacon::link(&pair[0].response, &rand));
    }
    println!("draft 19, appendix B: 2 links, the nonces of the draft compared with ours");
}

/// The first server's time is a day ahead of the second's, and the second was asked later: they are
/// the pair. The third agrees with the second.
#[test]
fn both_sides_find_the_report_to_be_one() {
    let Made { pile, answers } = appendix::pile();
    let asked = Asked { pile: &pile, answers: &answers };
    let report = asked.report();
    assert_eq!((report.ours, report.independent), (Reported(Ok((0, 1))), Reported(Ok((0, 1)))));
    let both = asked.cut(&[0xee; 3 * RECORD_LENGTH + 1]);
    assert!(
        both.ours == both.independent,
        "ours: {}, independent: {}",
        both.ours.show(),
        both.independent.show()
    );
    assert_eq!(both.ours.answer, Ok(Run { first: 0, last: 1 }));
    // The first record of a chain has no rand, so that nothing had to be set to zero.
    let (run, rest) = both.ours.buffer.split_at(2 * RECORD_LENGTH);
    assert!(run == &pile[..2 * RECORD_LENGTH] && rest.iter().all(|byte| *byte == 0xee));
    let alone = Asked { pile: run, answers: &answers[..4] }.report();
    assert_eq!((alone.ours, alone.independent), (Reported(Ok((0, 1))), Reported(Ok((0, 1)))));
    println!(
        "draft 19, appendix B: a report for its entries 0 and 1, which are the run that is cut"
    );
}

/// Without the first server's word nobody is convicted: each later refusal in turn, by the answers
/// about one record.
#[test]
fn both_sides_find_no_run_without_the_first_entry() {
    let Made { pile, answers } = appendix::pile();
    for (at, code) in [(0, 12), (1, 13)] {
        let answers: Vec<u8> = (0..answers.len()).map(|i| u8::from(i != at)).collect();
        let asked = Asked { pile: &pile, answers: &answers };
        let (report, cut) = (asked.report(), asked.cut(&[0; 3 * RECORD_LENGTH]));
        let due = Reported(Err((code, Some(0), None)));
        assert_eq!((report.ours, report.independent), (due, due));
        let none = Err(Bad { code: 18, at: None });
        assert_eq!((cut.ours.answer, cut.independent.answer), (none, none));
    }
}
