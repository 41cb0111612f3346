//! Records and piles as a host makes them: the same bytes as the independent implementation's, and
//! the same words about them as about those bytes.

mod support;

use independent::making::{self, Made};
use independent::{pile, report};
use support::Xorshift;
use trawlbeacon::{Pile, Record, Refusal, Run, LONGEST_PACKET, MOST_RECORDS, RECORD_LENGTH};

#[test]
fn a_record_is_laid_out_as_it_must_be() {
    let mut random = Xorshift::new(0x5eed_0601);
    let lengths = [0, 1, 12, 404, 1036, LONGEST_PACKET - 1, LONGEST_PACKET];
    for asked in lengths {
        for told in lengths {
            let (key, rand) = (random.array(), random.array());
            let (request, response) = (random.bytes(asked), random.bytes(told));
            let record = Record::new(&key, &rand, &request, &response).expect("both fit");
            let due = making::record(&key, &rand, &request, &response);
            assert!(record.bytes()[..] == due[..], "{asked} and {told} bytes");
        }
    }
    println!("records: {} pairs of lengths, ours compared with independent", lengths.len().pow(2));
}

#[test]
fn a_packet_that_is_too_long_makes_no_record() {
    let long = vec![0; LONGEST_PACKET + 1];
    for (request, response) in [(&long[..], &long[1..]), (&long[1..], &long), (&long, &long)] {
        assert_eq!(Record::new(&[0; 32], &[0; 32], request, response), Err(Refusal::Record));
    }
}

#[test]
fn a_pile_takes_16_records() {
    let mut pile = Pile::new();
    assert_eq!(pile.records(), 0);
    assert_eq!(pile.judge(0).map_err(Refusal::from), Err(Refusal::Pile));
    assert_eq!(pile.cut(), Err(Refusal::Pile));
    for place in 0..MOST_RECORDS as u8 {
        let record = Record::new(&[place; 32], &[0; 32], &[], &[]).expect("both fit");
        assert_eq!(pile.push(&record, place % 2 == 0, place % 3 == 0), Ok(()));
        let last = usize::from(place) * RECORD_LENGTH;
        assert!(pile.bytes()[last..] == record.bytes()[..], "record {place}");
    }
    let full = pile.clone();
    let record = Record::new(&[0; 32], &[0; 32], &[], &[]).expect("both fit");
    assert_eq!(pile.push(&record, true, true), Err(Refusal::Pile));
    assert!(pile == full && pile.records() == MOST_RECORDS);
    let answers = (0..MOST_RECORDS).flat_map(|place| [place % 2 == 0, place % 3 == 0]);
    assert_eq!(pile.answers(), answers.map(u8::from).collect::<Vec<u8>>());
    assert_eq!(trawlbeacon::pile_code(pile.bytes(), pile.answers()), Ok(()));
}

/// The pile of these bytes, made of its parts once more.
fn gathered(made: &Made) -> Pile {
    let mut pile = Pile::new();
    let answered = pile::read(&made.pile, &made.answers).expect("it is a pile");
    for (bytes, told) in made.pile.chunks(RECORD_LENGTH).zip(answered) {
        let key = bytes[..32].try_into().expect("it has 32 bytes");
        let (request, response) = told.record.packets().expect("it is laid out as it must be");
        let record = Record::new(key, told.record.rand(), request, response).expect("both fit");
        pile.push(&record, told.delegation, told.signature).expect("there is room");
    }
    pile
}

/// Document 01's fifth example, with every answer in turn as a no, and with none.
#[test]
fn a_pile_says_what_its_bytes_say() {
    let mut made = making::pile_of(&[(1000, 10), (1500, 10), (1495, 1), (1400, 10)]);
    let cut = gathered(&made).cut().expect("two records contradict each other");
    assert_eq!((cut.run, cut.run.records()), (Run { first: 2, last: 3 }, 2));
    for no in 0..=made.answers.len() {
        made.answers = (0..made.answers.len()).map(|at| u8::from(at != no)).collect();
        let pile = gathered(&made);
        assert!(pile.bytes() == made.pile && pile.answers() == made.answers);
        for place in 0..=pile.records() {
            let judged = trawlbeacon::judge(&made.pile, &made.answers, place);
            assert_eq!(pile.judge(place), judged, "record {place}");
        }
        assert_eq!(pile.check_report(), trawlbeacon::check_report(&made.pile, &made.answers));
        let mut out = vec![0; made.pile.len()];
        let due = report::cut(&made.pile, &made.answers, &mut out);
        let cut = pile.cut().map(|cut| ((cut.run.first, cut.run.last), cut.bytes));
        let due = due.map(|run| (run, out[..(run.1 + 1 - run.0) * RECORD_LENGTH].to_vec()));
        assert!(cut.map_err(Refusal::code) == due.map_err(|refusal| refusal.code()));
    }
    println!("a pile made of its parts: 9 sets of answers, ours compared with independent");
}
