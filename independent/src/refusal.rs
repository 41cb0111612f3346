//! Why a call was refused. Every refusal has a fixed number, and where several apply, the first in
//! the order of the document counts.

use std::fmt;

/// A refusal. Its number is the code that callers see.
#[derive(Clone, Copy, Debug, PartialEq, Eq)]
#[repr(u32)]
pub enum Refusal {
    /// The packet has fewer than 12 or more than 2,000 bytes.
    PacketSize = 1,
    /// The first eight bytes are not `ROUGHTIM`.
    Mark = 2,
    /// The length field differs from the number of bytes that follow it.
    PacketLength = 3,
    /// The message has under 4 bytes or no multiple of 4, its number of pairs is wrong, its header
    /// is too long, or an offset is wrong.
    Frame = 4,
    /// The tags do not rise.
    TagOrder = 5,
    /// A needed tag is absent.
    TagAbsent = 6,
    /// A value has a wrong length, or a list of versions does not rise.
    Value = 7,
    /// TYPE or the version is wrong.
    Kind = 8,
    /// NONC of the response differs from that of the request.
    Nonce = 9,
    /// INDX has too many bits, or the path does not lead to ROOT.
    Path = 10,
    /// MIDP is below MINT or above MAXT.
    Time = 11,
    /// The delegation's signature is not the long-term key's.
    Delegation = 12,
    /// The response's signature is not the delegated key's.
    Signature = 13,
    /// The request lent with a response is bad.
    Request = 14,
    /// The pile is not 1 to 16 whole records, its answers are not two bytes a record, or one of
    /// them is above 1.
    Pile = 15,
    /// A record has a length above 2,000, or a byte that must be zero and is not.
    Record = 16,
    /// The first rand of a report is not zero, or a record is not linked to the one before it.
    Link = 17,
    /// No two records contradict each other, or there is no run that convicts.
    NoContradiction = 18,
    /// The buffer to be written into is too short.
    BufferTooShort = 19,
    /// The leaves are not 1 to 1,024 whole ones, or a place is past the last.
    Leaves = 20,
    /// A list of servers is not whole records.
    List = 21,
    /// No list has the server.
    ServerUnknown = 22,
    /// A response would be longer than the request that it answers.
    ResponseLength = 23,
    /// A text is not JSON, nests too deep, or is no report: bad base64, a key or a rand that is not
    /// 32 bytes, or a member that is missing, repeated or of the wrong kind. Or it is no list of
    /// servers.
    ReportText = 24,
    /// A report as JSON has no entry or more than 16, or a packet of more than 2,000 bytes; a list of
    /// servers has none or more than 64, or one with more than 8 addresses.
    ReportSize = 25,
    /// A response to a walk was received before its request was sent, or that was sent before the
    /// last response was received.
    Clock = 26,
    /// A response to a walk took longer than the caller allows.
    Delay = 27,
    /// A walk has ended.
    Ended = 28,
    /// An old stamp has a day before 1 January 1970, or more microseconds than a day with a leap
    /// second.
    OldStamp = 29,
    /// The servers of a walk are not 3 to 8, or one of them stands there twice.
    WalkServers = 31,
    /// A clock is told of a server above 7, or states a drift of a million or more.
    ClockInput = 32,
    /// Of a clock, no more servers are counted than may lie.
    TooFew = 33,
    /// Of a clock, no time lies in the windows of enough servers.
    NoAgreement = 34,
    /// The key that a batch is to be signed with is not the one that CERT delegates to.
    OtherKey = 35,
    /// A list of servers has no such server, address or source, or does not say where reports go.
    ListPlace = 36,
}

impl Refusal {
    /// The number of this refusal.
    pub fn code(self) -> u32 {
        self as u32
    }
}

impl fmt::Display for Refusal {
    fn fmt(&self, f: &mut fmt::Formatter) -> fmt::Result {
        write!(f, "refused with code {}", self.code())
    }
}

impl std::error::Error for Refusal {}
