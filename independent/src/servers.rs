//! Lists of servers, which are a house rule: records of 64 bytes, a long-term key and then its SRV
//! value, with nothing around them.

use crate::refusal::Refusal;

/// Bytes of a record.
pub const RECORD: usize = 64;

/// The list that a server was found in.
#[derive(Clone, Copy, Debug, PartialEq, Eq)]
pub enum List {
    /// The owner's, which is searched first.
    Owner,
    /// The one that we ship.
    Shipped,
}

/// A server that was found.
#[derive(Clone, Copy, Debug, PartialEq, Eq)]
pub struct Found<'a> {
    /// Where it was found.
    pub list: List,
    /// How many bytes of that list stand before its record.
    pub offset: usize,
    /// Its record.
    pub record: &'a [u8],
}

/// The first server that is marked `srv`, in the owner's list or else in the shipped one.
pub fn find<'a>(owner: &'a [u8], shipped: &'a [u8], srv: &[u8; 32]) -> Result<Found<'a>, Refusal> {
    // Both lists are judged before either is searched, so that a broken one never goes unnoticed.
    if owner.len() % RECORD != 0 || shipped.len() % RECORD != 0 {
        return Err(Refusal::List);
    }
    let within = |list, bytes: &'a [u8]| {
        let index = bytes.chunks(RECORD).position(|record| record[32..] == srv[..])?;
        let offset = RECORD * index;
        Some(Found { list, offset, record: &bytes[offset..offset + RECORD] })
    };
    within(List::Owner, owner)
        .or_else(|| within(List::Shipped, shipped))
        .ok_or(Refusal::ServerUnknown)
}

#[cfg(test)]
mod tests {
    use super::*;

    /// A list of records with these keys and SRV values.
    fn list(records: &[(u8, u8)]) -> Vec<u8> {
        records.iter().flat_map(|(key, srv)| [[*key; 32], [*srv; 32]].concat()).collect()
    }

    /// The list, the offset and the key of what is found.
    fn found(owner: &[(u8, u8)], shipped: &[(u8, u8)], srv: u8) -> Option<(List, usize, u8)> {
        let (owner, shipped) = (list(owner), list(shipped));
        let found = find(&owner, &shipped, &[srv; 32]).ok()?;
        assert_eq!((found.record.len(), found.record[63]), (RECORD, srv));
        Some((found.list, found.offset, found.record[0]))
    }

    #[test]
    fn the_first_match_wins_and_the_owners_list_comes_first() {
        let (owner, shipped) = ([(1, 10), (2, 20), (3, 20)], [(4, 20), (5, 30), (6, 30)]);
        assert_eq!(found(&owner, &shipped, 10), Some((List::Owner, 0, 1)));
        assert_eq!(found(&owner, &shipped, 20), Some((List::Owner, 64, 2)));
        assert_eq!(found(&owner, &shipped, 30), Some((List::Shipped, 64, 5)));
        assert_eq!(found(&[], &shipped, 20), Some((List::Shipped, 0, 4)));
        assert_eq!(found(&owner, &[], 20), Some((List::Owner, 64, 2)));
    }

    /// Neither the key nor bytes across two records are an SRV value.
    #[test]
    fn only_the_mark_is_sought() {
        assert_eq!(found(&[(7, 1), (7, 2)], &[(7, 3)], 7), None);
        let shifted = [&[0; 32][..], &[7; 32], &[0; 64]].concat();
        assert_eq!(
            find(&[&shifted[16..], &[0; 16]].concat(), &[], &[7; 32]),
            Err(Refusal::ServerUnknown)
        );
    }

    #[test]
    fn a_broken_list_is_refused_before_any_is_searched() {
        let whole = list(&[(1, 10)]);
        for length in 0..=128 {
            let ragged = vec![10; length];
            let due = if length % 64 == 0 { None } else { Some(Refusal::List) };
            assert_eq!(find(&whole, &ragged, &[10; 32]).err(), due, "{length} bytes shipped");
            assert_eq!(
                find(&ragged, &whole, &[10; 32]).err(),
                due,
                "{length} bytes of the owner's"
            );
        }
        assert_eq!(find(&[], &[], &[10; 32]), Err(Refusal::ServerUnknown));
        assert_eq!(find(&whole, &whole, &[11; 32]), Err(Refusal::ServerUnknown));
    }
}
