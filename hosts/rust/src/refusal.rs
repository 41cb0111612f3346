//! Why a call was refused.

use core::fmt;

/// A refusal: the first that applies, in the order in which the function that gives it names them.
///
/// A response's messages are judged one after the other, the outermost first, then SREP, CERT and
/// DELE, each by codes 4 to 7, and 8 comes after them all.
#[derive(Clone, Copy, Debug, PartialEq, Eq, Hash)]
#[must_use]
// Between the two marks stands what cargo xtask codes makes of the library's own table.
// codes: begin
pub enum Refusal {
    /// the packet has under 12 or over 2,000 bytes
    PacketSize,
    /// the packet does not begin with ROUGHTIM
    Mark,
    /// the packet's length field differs from the rest
    PacketLength,
    /// a message's length, number of tags, header or offset is wrong
    Frame,
    /// the tags of a message do not rise
    TagOrder,
    /// a needed tag is absent
    TagAbsent,
    /// a value's length is wrong, a version list does not rise, or RADI is 0
    Value,
    /// TYPE or the version is wrong, VERS lacks it, or both sides know a higher one
    TypeOrVersion,
    /// NONC is not the request's
    Nonce,
    /// INDX is too large, or the path does not lead to ROOT
    Path,
    /// MIDP is outside MINT to MAXT
    Time,
    /// the delegation's signature does not verify
    Delegation,
    /// the response's signature does not verify
    Signature,
    /// the request that the response answers is bad
    Request,
    /// the pile is not 1 to 16 whole records, or its answers are not two bytes a record, each 1 or
    /// 0
    Pile,
    /// a record's lengths are above 2,000, or a byte that must be zero is not
    Record,
    /// the first rand is not zero, or a record is not linked to the one before it
    Link,
    /// no two records contradict each other, or no run of records convicts
    NoContradiction,
    /// the buffer is too short
    Room,
    /// the leaves are not 1 to 1,024 whole ones, or the place is past the last
    Leaves,
    /// a list of servers is not whole records
    Lists,
    /// no list has the server
    UnknownServer,
    /// the response would be longer than the request that it answers
    ResponseLength,
    /// the text is no report and no server list: not JSON, too deep, or a member missing, repeated
    /// or wrong
    ReportText,
    /// the text has no entry, too many, or one with a packet above 2,000 bytes or over 8 addresses
    Entries,
    /// a response was received before it was sent for, or a moment is before the last receipt
    Clock,
    /// the response took longer than is allowed
    Delay,
    /// the walk has ended
    Ended,
    /// an old stamp's date is under 40587, or its microseconds are 86,401,000,000 or more
    OldStamp,
    /// the pieces of a message come to more than 2^64 - 1 bytes
    Pieces,
    /// the servers of a walk are not 3 to 8 whole keys, or one key stands there twice
    WalkServers,
    /// the server of a clock is above 7, or its drift is a million or more
    ClockInput,
    /// no more servers are counted than may lie
    TooFew,
    /// no time lies in the windows of enough servers
    NoAgreement,
    /// the seed's public key is not the PUBK of CERT
    OtherKey,
    /// the list has no such server, address, source or place for reports
    ListPlace,
}

impl Refusal {
    /// Its number, which is the same in every language and never 0.
    #[must_use]
    pub const fn code(self) -> u32 {
        match self {
            Refusal::PacketSize => 1,
            Refusal::Mark => 2,
            Refusal::PacketLength => 3,
            Refusal::Frame => 4,
            Refusal::TagOrder => 5,
            Refusal::TagAbsent => 6,
            Refusal::Value => 7,
            Refusal::TypeOrVersion => 8,
            Refusal::Nonce => 9,
            Refusal::Path => 10,
            Refusal::Time => 11,
            Refusal::Delegation => 12,
            Refusal::Signature => 13,
            Refusal::Request => 14,
            Refusal::Pile => 15,
            Refusal::Record => 16,
            Refusal::Link => 17,
            Refusal::NoContradiction => 18,
            Refusal::Room => 19,
            Refusal::Leaves => 20,
            Refusal::Lists => 21,
            Refusal::UnknownServer => 22,
            Refusal::ResponseLength => 23,
            Refusal::ReportText => 24,
            Refusal::Entries => 25,
            Refusal::Clock => 26,
            Refusal::Delay => 27,
            Refusal::Ended => 28,
            Refusal::OldStamp => 29,
            Refusal::Pieces => 30,
            Refusal::WalkServers => 31,
            Refusal::ClockInput => 32,
            Refusal::TooFew => 33,
            Refusal::NoAgreement => 34,
            Refusal::OtherKey => 35,
            Refusal::ListPlace => 36,
        }
    }

    /// What is wrong, in words.
    #[must_use]
    pub const fn words(self) -> &'static str {
        match self {
            Refusal::PacketSize => "the packet has under 12 or over 2,000 bytes",
            Refusal::Mark => "the packet does not begin with ROUGHTIM",
            Refusal::PacketLength => "the packet's length field differs from the rest",
            Refusal::Frame => "a message's length, number of tags, header or offset is wrong",
            Refusal::TagOrder => "the tags of a message do not rise",
            Refusal::TagAbsent => "a needed tag is absent",
            Refusal::Value => {
                "a value's length is wrong, a version list does not rise, or RADI is 0"
            }
            Refusal::TypeOrVersion => {
                "TYPE or the version is wrong, VERS lacks it, or both sides know a higher one"
            }
            Refusal::Nonce => "NONC is not the request's",
            Refusal::Path => "INDX is too large, or the path does not lead to ROOT",
            Refusal::Time => "MIDP is outside MINT to MAXT",
            Refusal::Delegation => "the delegation's signature does not verify",
            Refusal::Signature => "the response's signature does not verify",
            Refusal::Request => "the request that the response answers is bad",
            Refusal::Pile => {
                "the pile is not 1 to 16 whole records, or its answers are not two bytes a record, \
                 each 1 or 0"
            }
            Refusal::Record => {
                "a record's lengths are above 2,000, or a byte that must be zero is not"
            }
            Refusal::Link => {
                "the first rand is not zero, or a record is not linked to the one before it"
            }
            Refusal::NoContradiction => {
                "no two records contradict each other, or no run of records convicts"
            }
            Refusal::Room => "the buffer is too short",
            Refusal::Leaves => {
                "the leaves are not 1 to 1,024 whole ones, or the place is past the last"
            }
            Refusal::Lists => "a list of servers is not whole records",
            Refusal::UnknownServer => "no list has the server",
            Refusal::ResponseLength => {
                "the response would be longer than the request that it answers"
            }
            Refusal::ReportText => {
                "the text is no report and no server list: not JSON, too deep, or a member \
                 missing, repeated or wrong"
            }
            Refusal::Entries => {
                "the text has no entry, too many, or one with a packet above 2,000 bytes or over 8 \
                 addresses"
            }
            Refusal::Clock => {
                "a response was received before it was sent for, or a moment is before the last \
                 receipt"
            }
            Refusal::Delay => "the response took longer than is allowed",
            Refusal::Ended => "the walk has ended",
            Refusal::OldStamp => {
                "an old stamp's date is under 40587, or its microseconds are 86,401,000,000 or more"
            }
            Refusal::Pieces => "the pieces of a message come to more than 2^64 - 1 bytes",
            Refusal::WalkServers => {
                "the servers of a walk are not 3 to 8 whole keys, or one key stands there twice"
            }
            Refusal::ClockInput => {
                "the server of a clock is above 7, or its drift is a million or more"
            }
            Refusal::TooFew => "no more servers are counted than may lie",
            Refusal::NoAgreement => "no time lies in the windows of enough servers",
            Refusal::OtherKey => "the seed's public key is not the PUBK of CERT",
            Refusal::ListPlace => {
                "the list has no such server, address, source or place for reports"
            }
        }
    }

    /// The refusal with this number, if there is one.
    #[must_use]
    pub const fn from_code(code: u32) -> Option<Refusal> {
        Some(match code {
            1 => Refusal::PacketSize,
            2 => Refusal::Mark,
            3 => Refusal::PacketLength,
            4 => Refusal::Frame,
            5 => Refusal::TagOrder,
            6 => Refusal::TagAbsent,
            7 => Refusal::Value,
            8 => Refusal::TypeOrVersion,
            9 => Refusal::Nonce,
            10 => Refusal::Path,
            11 => Refusal::Time,
            12 => Refusal::Delegation,
            13 => Refusal::Signature,
            14 => Refusal::Request,
            15 => Refusal::Pile,
            16 => Refusal::Record,
            17 => Refusal::Link,
            18 => Refusal::NoContradiction,
            19 => Refusal::Room,
            20 => Refusal::Leaves,
            21 => Refusal::Lists,
            22 => Refusal::UnknownServer,
            23 => Refusal::ResponseLength,
            24 => Refusal::ReportText,
            25 => Refusal::Entries,
            26 => Refusal::Clock,
            27 => Refusal::Delay,
            28 => Refusal::Ended,
            29 => Refusal::OldStamp,
            30 => Refusal::Pieces,
            31 => Refusal::WalkServers,
            32 => Refusal::ClockInput,
            33 => Refusal::TooFew,
            34 => Refusal::NoAgreement,
            35 => Refusal::OtherKey,
            36 => Refusal::ListPlace,
            _ => return None,
        })
    }
}
// codes: end

impl Refusal {
    /// Nothing where the library answered 0, which is how it says that a call passed, or else the
    /// refusal.
    ///
    /// # Panics
    ///
    /// The library answers with no other number than those of its table. One that is not there
    /// means that an archive of another version was linked, whose answers mean nothing here.
    pub(crate) fn check(code: u32) -> Result<(), Refusal> {
        if code == 0 {
            return Ok(());
        }
        match Refusal::from_code(code) {
            Some(refusal) => Err(refusal),
            None => panic!("libcapi.a answered with {code}, which is no code of this version"),
        }
    }
}

impl fmt::Display for Refusal {
    fn fmt(&self, f: &mut fmt::Formatter) -> fmt::Result {
        f.write_str(self.words())
    }
}

#[cfg(feature = "std")]
impl std::error::Error for Refusal {}

/// Why a packet is refused, and where it is bad.
#[derive(Clone, Copy, Debug, PartialEq, Eq, Hash)]
#[must_use]
pub struct PacketRefusal {
    /// The refusal.
    pub refusal: Refusal,
    /// The byte at which the packet is bad, counted from its first one: there is one where the code
    /// is 4 to 7, but for the 7 by which a writer tells a RADI of 0. It is the start of the first
    /// wrong word of a message's header (4, 5), of the message that lacks a tag (6) or has a wrong
    /// length (4), or of the wrong value with the smallest tag (7). Where a response is written it
    /// is a byte of the value of CERT.
    pub at: Option<usize>,
}

impl PacketRefusal {
    /// Its number.
    #[must_use]
    pub const fn code(self) -> u32 {
        self.refusal.code()
    }

    /// What the library answered, as a result. A place is one in a packet, so that nothing is lost
    /// where it becomes a usize.
    pub(crate) fn check(code: u32, at: u64) -> Result<(), PacketRefusal> {
        Refusal::check(code).map_err(|refusal| PacketRefusal {
            refusal,
            at: (4..=7).contains(&code).then_some(at as usize),
        })
    }
}

impl From<PacketRefusal> for Refusal {
    fn from(why: PacketRefusal) -> Refusal {
        why.refusal
    }
}

impl From<Refusal> for PacketRefusal {
    /// A refusal of a call that reads no packet, and so names no byte.
    fn from(refusal: Refusal) -> PacketRefusal {
        PacketRefusal { refusal, at: None }
    }
}

impl fmt::Display for PacketRefusal {
    fn fmt(&self, f: &mut fmt::Formatter) -> fmt::Result {
        match self.at {
            Some(at) => write!(f, "{}, at byte {at}", self.refusal),
            None => self.refusal.fmt(f),
        }
    }
}

#[cfg(feature = "std")]
impl std::error::Error for PacketRefusal {}

#[cfg(test)]
mod tests {
    use super::Refusal;

    #[test]
    fn each_number_stands_for_one_refusal() {
        let mut known = 0;
        for number in 0..=1_000 {
            if let Some(refusal) = Refusal::from_code(number) {
                assert_eq!(refusal.code(), number);
                assert_eq!(refusal.to_string(), refusal.words());
                assert_eq!(Refusal::check(number), Err(refusal));
                known += 1;
            }
        }
        assert!(known > 0);
        assert_eq!(Refusal::check(0), Ok(()));
        assert_eq!(Refusal::from_code(u32::MAX), None);
    }
}
