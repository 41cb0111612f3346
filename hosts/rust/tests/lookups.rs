//! Servers looked up in two lists by the proved library and by the independent implementation: the
//! list, the place and every byte of the record must be the same.

mod support;

use independent::servers;
use support::answers::{Both, Said};
use support::tally::Tally;
use support::{counted, hex, Xorshift};
use trawlbeacon::{raw, List};

const LOOKUPS: &str = "lookups";
/// Servers that were found, by list: 0 the owner's, 1 the shipped one.
const LISTS: &str = "found in";

/// Bytes of a record.
const RECORD: usize = 64;

/// A server that was found.
#[derive(Clone, PartialEq)]
struct Found {
    /// 0 the owner's, 1 the shipped one.
    list: u32,
    offset: usize,
    record: Vec<u8>,
}

impl Said for Found {
    fn say(&self) -> String {
        format!("list {} offset {} record {}", self.list, self.offset, hex(&self.record))
    }
}

/// Two lists, and the SRV value that is sought in them.
struct Lookup {
    owner: Vec<u8>,
    shipped: Vec<u8>,
    srv: [u8; 32],
}

impl Lookup {
    fn ask(&self) -> Both<Result<Found, u32>> {
        let Lookup { owner, shipped, srv } = self;
        let ours = trawlbeacon::find_server(owner, shipped, srv);
        let independent = servers::find(owner, shipped, srv);
        Both {
            ours: ours
                .map(|found| {
                    let list = if found.list == List::Owner { 0 } else { 1 };
                    Found { list, offset: found.offset, record: found.record.to_vec() }
                })
                .map_err(trawlbeacon::Refusal::code),
            independent: independent
                .map(|found| {
                    let list = if found.list == servers::List::Owner { 0 } else { 1 };
                    Found { list, offset: found.offset, record: found.record.to_vec() }
                })
                .map_err(independent::refusal::Refusal::code),
        }
    }

    /// What is due, by counting through the records one after the other.
    fn due(&self) -> Result<Found, u32> {
        let Lookup { owner, shipped, srv } = self;
        if [owner, shipped].iter().any(|list| list.len() % RECORD != 0) {
            return Err(21);
        }
        for (list, bytes) in [(0, owner), (1, shipped)] {
            let mut offset = 0;
            while offset < bytes.len() {
                let record = &bytes[offset..offset + RECORD];
                if record.ends_with(srv) {
                    return Ok(Found { list, offset, record: record.to_vec() });
                }
                offset += RECORD;
            }
        }
        Err(22)
    }

    /// What is wrong with the fields that hosts/rust does not show, or not whole.
    fn unseen_fields(&self, due: &Result<Found, u32>) -> Option<String> {
        let Lookup { owner, shipped, srv } = self;
        let ((start, n), (start_too, m)) =
            ((owner.as_ptr(), owner.len()), (shipped.as_ptr(), shipped.len()));
        // SAFETY: the library only reads both lists and the SRV value.
        let found =
            unsafe { raw::tb_find_server(start, raw::size(n), start_too, raw::size(m), srv) };
        let due = match due {
            Ok(due) => raw::tb_found { code: 0, list: due.list, offset: due.offset as u64 },
            Err(code) => raw::tb_found { code: *code, list: 0, offset: 0 },
        };
        (found != due).then(|| format!("tb_find_server answered {found:?}"))
    }

    fn show(&self) -> String {
        format!(
            "SRV {}\n  owner's {}\n  shipped {}",
            hex(&self.srv),
            hex(&self.owner),
            hex(&self.shipped)
        )
    }
}

struct Comparison {
    tally: Tally,
    lists: Tally,
    random: Xorshift,
}

impl Comparison {
    fn ask(&mut self, lookup: &Lookup) {
        let (both, due) = (lookup.ask(), lookup.due());
        self.tally
            .answer(LOOKUPS, &both, Some(*due.as_ref().err().unwrap_or(&0)), || lookup.show());
        if both.ours != due {
            self.tally
                .differs(format!("the record is not the one that is due, for {}", lookup.show()));
        }
        if let Some(wrong) = lookup.unseen_fields(&due) {
            self.tally.differs(format!("{wrong}\n  for {}", lookup.show()));
        }
        if let Ok(found) = due {
            self.lists.count(LISTS, found.list);
        }
    }

    /// A list of `count` records, all of whose keys differ, with SRV values out of `srvs`.
    fn list(&mut self, count: usize, srvs: &[[u8; 32]]) -> Vec<u8> {
        let random = &mut self.random;
        (0..count).flat_map(|_| [random.array(), random.pick(srvs)].concat()).collect()
    }

    fn srvs(&mut self, count: usize) -> Vec<[u8; 32]> {
        (0..count).map(|_| self.random.array()).collect()
    }
}

/// Lists of any lengths, with so few SRV values that many stand several times, in one list or in
/// both.
fn duplicates(seen: &mut Comparison) {
    for _ in 0..6_000 {
        let count = 1 + seen.random.below(12);
        let srvs = seen.srvs(count);
        let (few, many) = (seen.random.below(4), seen.random.below(24));
        let (owner, shipped) = (seen.list(few, &srvs), seen.list(many, &srvs));
        let srv = seen.random.pick(&srvs);
        seen.ask(&Lookup { owner: owner.clone(), shipped: shipped.clone(), srv });
        seen.ask(&Lookup { owner: shipped, shipped: owner, srv });
    }
}

/// The one match at every place of either list.
fn every_place(seen: &mut Comparison) {
    for (owners, shippeds) in [(1, 0), (0, 1), (1, 1), (7, 5), (40, 60), (600, 400)] {
        let srvs = seen.srvs(1_000);
        let (mut owner, mut shipped) = (seen.list(owners, &srvs), seen.list(shippeds, &srvs));
        let records = owner.chunks_mut(RECORD).chain(shipped.chunks_mut(RECORD)).zip(&srvs);
        // Every SRV value stands once, so that no place is hidden by an earlier one.
        records.for_each(|(record, srv)| record[32..].copy_from_slice(srv));
        for srv in &srvs[..owners + shippeds] {
            seen.ask(&Lookup { owner: owner.clone(), shipped: shipped.clone(), srv: *srv });
        }
    }
}

/// SRV values that stand in no record, or only where none stands: at a key, across a record, or off
/// by one bit.
fn no_match(seen: &mut Comparison) {
    for round in 0..300 {
        let srvs = seen.srvs(5);
        let (few, many) = (round % 5, 1 + round % 7);
        let (owner, shipped) = (seen.list(few, &srvs), seen.list(many, &srvs));
        let mut ask = |srv: [u8; 32]| {
            seen.ask(&Lookup { owner: owner.clone(), shipped: shipped.clone(), srv })
        };
        ask([0; 32]);
        ask([0xff; 32]);
        for start in (0..shipped.len() - 32).step_by(4) {
            ask(shipped[start..start + 32].try_into().expect("it has 32 bytes"));
        }
        for bit in (round % 8..256).step_by(8) {
            let mut srv = srvs[0];
            srv[bit / 8] ^= 1 << (bit % 8);
            ask(srv);
        }
    }
}

/// Lists of every length up to some records, and far longer ones, with a whole list beside them
/// that has what is sought.
fn ragged(seen: &mut Comparison) {
    for length in (0..=330).chain([4095, 4096, 4097, 65_535, 65_536]) {
        let srvs = seen.srvs(2);
        let whole = seen.list(3, &srvs);
        let any = seen.random.bytes(length);
        let srv = srvs[0];
        seen.ask(&Lookup { owner: any.clone(), shipped: whole.clone(), srv });
        seen.ask(&Lookup { owner: whole.clone(), shipped: any.clone(), srv });
        seen.ask(&Lookup { owner: any.clone(), shipped: any.clone(), srv });
        seen.ask(&Lookup { owner: any, shipped: vec![], srv });
        // The match stands in front of what is too much.
        let cut = [&whole[..], &whole[..length % RECORD]].concat();
        seen.ask(&Lookup { owner: cut.clone(), shipped: vec![], srv });
        seen.ask(&Lookup { owner: vec![], shipped: cut, srv });
    }
}

/// Lists and SRV values may start anywhere.
fn unaligned(seen: &mut Comparison) {
    for start in 0..16 {
        let srvs = seen.srvs(3);
        let (owner, shipped) = (seen.list(2, &srvs[..2]), seen.list(4, &srvs));
        let srv = srvs[2];
        let lookup = Lookup { owner, shipped, srv };
        let due = lookup.due();
        let Lookup { owner, shipped, .. } = lookup;
        let (owner, shipped) =
            ([vec![0; start], owner].concat(), [vec![0; 15 - start], shipped].concat());
        let found = trawlbeacon::find_server(&owner[start..], &shipped[15 - start..], &srv);
        let code = found.map_or_else(trawlbeacon::Refusal::code, |_| 0);
        assert_eq!(
            found.ok().map(|found| found.record.to_vec()),
            due.ok().map(|due| due.record),
            "start {start}"
        );
        seen.tally.count(LOOKUPS, code);
    }
}

#[test]
fn both_sides_find_alike() {
    let (tally, lists) = (Tally::new(&[LOOKUPS]), Tally::new(&[LISTS]));
    let mut seen = Comparison { tally, lists, random: Xorshift::new(0x5eed_0501) };
    for group in [duplicates, every_place, no_match, ragged, unaligned] {
        group(&mut seen);
    }
    seen.ask(&Lookup { owner: vec![], shipped: vec![], srv: [0; 32] });
    println!(
        "lookups, ours compared with independent; how often each code was given:\n{}",
        seen.tally.table("code")
    );
    println!(
        "servers found in the owner's list (0) and in the shipped one (1):\n{}",
        seen.lists.table("list")
    );
    seen.tally.no_difference();
    seen.tally.at_least(1_000, LOOKUPS, [0, 21, 22]);
    seen.lists.at_least(1_000, LISTS, [0, 1]);
    counted(seen.tally.answers(), "lookups in server lists");
}
