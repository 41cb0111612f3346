//! The same question put to both sides: the proved library, and the independent implementation.
//!
//! Both answer in one type here, so that they can be compared as they are. A refusal is its code,
//! and the byte at which a packet is bad.

use super::hex;
use independent::place::{self, Place};
use independent::refusal::Refusal;
use independent::{request, response, text, write};
use trawlbeacon::{raw, PacketRefusal, Request, Response, SignedParts};

/// What each side answered.
pub struct Both<T> {
    pub ours: T,
    pub independent: T,
}

/// An answer that can be compared, counted by its code, and shown where it is wrong.
pub trait Answer: PartialEq {
    /// The code of a refusal, or 0.
    fn code(&self) -> u32;
    fn show(&self) -> String;
}

/// What a call that passed says.
pub trait Said: PartialEq {
    fn say(&self) -> String;
}

/// A refusal: its code, and the byte that it names, if it does.
#[derive(Clone, Copy, Debug, PartialEq, Eq)]
pub struct Bad {
    pub code: u32,
    pub at: Option<usize>,
}

impl From<PacketRefusal> for Bad {
    fn from(why: PacketRefusal) -> Bad {
        Bad { code: why.code(), at: why.at }
    }
}

impl From<trawlbeacon::Refusal> for Bad {
    fn from(refusal: trawlbeacon::Refusal) -> Bad {
        Bad { code: refusal.code(), at: None }
    }
}

/// What the independent side says, where it finds this place in the packet: codes 4 to 7 name it.
pub fn placed(refusal: Refusal, place: Option<Place>) -> Bad {
    let code = refusal.code();
    Bad { code, at: place.filter(|_| (4..=7).contains(&code)).map(|place| place.at) }
}

impl<T: Said> Answer for Result<T, u32> {
    fn code(&self) -> u32 {
        *self.as_ref().err().unwrap_or(&0)
    }

    fn show(&self) -> String {
        match self {
            Ok(said) => said.say(),
            Err(code) => format!("code {code}"),
        }
    }
}

impl<T: Said> Answer for Result<T, Bad> {
    fn code(&self) -> u32 {
        self.as_ref().err().map_or(0, |bad| bad.code)
    }

    fn show(&self) -> String {
        match self {
            Ok(said) => said.say(),
            Err(bad) => format!("code {} at {:?}", bad.code, bad.at),
        }
    }
}

impl Said for Request {
    fn say(&self) -> String {
        format!("NONC {} SRV {:?}", hex(&self.nonc), self.srv.map(|srv| hex(&srv)))
    }
}

impl Said for Response {
    fn say(&self) -> String {
        let numbers = format!("INDX {} MIDP {} RADI {}", self.indx, self.midp, self.radi);
        format!("NONC {} {numbers} ROOT {}", hex(&self.nonc), hex(&self.root))
    }
}

impl Said for SignedParts {
    fn say(&self) -> String {
        let (signature, delegation) = (hex(&self.signature), hex(&self.delegation));
        format!("SIG {signature} SIG of CERT {delegation} PUBK {}", hex(&self.pubk))
    }
}

/// How many bytes were written.
impl Said for usize {
    fn say(&self) -> String {
        format!("{self} bytes written")
    }
}

/// What a writer answered, with all of the buffer that it was lent.
#[derive(PartialEq)]
pub struct Written<T = usize> {
    pub answer: Result<T, Bad>,
    pub buffer: Vec<u8>,
}

impl<T: Said> Answer for Written<T> {
    fn code(&self) -> u32 {
        self.answer.code()
    }

    fn show(&self) -> String {
        format!("{}, and the buffer is {}", self.answer.show(), hex(&self.buffer))
    }
}

pub fn read_request(packet: &[u8]) -> Both<Result<Request, Bad>> {
    let independent = request::read(packet).map(|read| Request { nonc: read.nonc, srv: read.srv });
    Both {
        ours: trawlbeacon::read_request(packet).map_err(Bad::from),
        independent: independent.map_err(|refusal| placed(refusal, place::in_request(packet))),
    }
}

pub fn read_response(packet: &[u8]) -> Both<Result<Response, Bad>> {
    let independent = response::read(packet).map(|read| Response {
        nonc: read.outer.nonc,
        indx: read.outer.indx,
        midp: read.srep.midp,
        radi: read.srep.radi,
        root: read.srep.root,
    });
    Both {
        ours: trawlbeacon::read_response(packet).map_err(Bad::from),
        independent: independent.map_err(|refusal| placed(refusal, place::in_response(packet))),
    }
}

pub fn signed_parts(packet: &[u8]) -> Both<Result<SignedParts, Bad>> {
    let independent = response::shaped(packet).map(|read| SignedParts {
        signature: read.outer.sig,
        delegation: read.cert.sig,
        pubk: read.dele.pubk,
    });
    Both {
        ours: trawlbeacon::signed_parts(packet).map_err(Bad::from),
        independent: independent.map_err(|refusal| placed(refusal, place::in_response(packet))),
    }
}

/// Lends each side a copy of `buffer` of its own. `place` is what the independent side finds in the
/// packet that is written from.
pub fn write_both<T, E: Into<Bad>>(
    buffer: &[u8],
    place: Option<Place>,
    ours: impl FnOnce(&mut [u8]) -> Result<T, E>,
    independent: impl FnOnce(&mut [u8]) -> Result<T, Refusal>,
) -> Both<Written<T>> {
    let (mut lent, mut lent_too) = (buffer.to_vec(), buffer.to_vec());
    let answer = ours(&mut lent).map_err(Into::into);
    let answer_too = independent(&mut lent_too).map_err(|refusal| placed(refusal, place));
    Both {
        ours: Written { answer, buffer: lent },
        independent: Written { answer: answer_too, buffer: lent_too },
    }
}

pub fn write_request(key: &[u8; 32], nonce: &[u8; 32], buffer: &[u8]) -> Both<Written> {
    write_both(
        buffer,
        None,
        |out| trawlbeacon::write_request(key, nonce, out),
        |out| write::put(&write::request(key, nonce), out),
    )
}

pub fn delegation_text(packet: &[u8], buffer: &[u8]) -> Both<Written> {
    write_both(
        buffer,
        place::in_response(packet),
        |out| trawlbeacon::delegation_text(packet, out),
        |out| text::delegation(packet).and_then(|text| write::put(&text, out)),
    )
}

pub fn response_text(packet: &[u8], buffer: &[u8]) -> Both<Written> {
    write_both(
        buffer,
        place::in_response(packet),
        |out| trawlbeacon::response_text(packet, out),
        |out| text::response(packet).and_then(|text| write::put(&text, out)),
    )
}

/// What is wrong with the fields that the functions of hosts/rust never show: those of a refused
/// call, and SRV where there is none.
pub fn unseen_fields(packet: &[u8]) -> Option<String> {
    let (start, n) = (packet.as_ptr(), packet.len());
    // SAFETY: the library only reads, and only the packet.
    let (request, response, parts) = unsafe {
        (
            raw::tb_read_request(start, raw::size(n)),
            raw::tb_read_response(start, raw::size(n)),
            raw::tb_signed_parts(start, raw::size(n)),
        )
    };
    if request != without_unseen(request) || unplaced(request.code, request.at) {
        return Some(format!("tb_read_request answered {request:?}"));
    }
    let raw::tb_response { code, at, .. } = response;
    let refused =
        raw::tb_response { code, at, indx: 0, midp: 0, radi: 0, nonc: [0; 32], root: [0; 32] };
    if (code != 0 && response != refused) || unplaced(code, at) {
        return Some(format!("tb_read_response answered {response:?}"));
    }
    let raw::tb_parts { code, at, .. } = parts;
    let refused =
        raw::tb_parts { code, at, signature: [0; 64], delegation: [0; 64], pubk: [0; 32] };
    if (code != 0 && parts != refused) || unplaced(code, at) {
        return Some(format!("tb_signed_parts answered {parts:?}"));
    }
    unseen_lengths(packet)
}

/// Whether a byte is named beside a code that names none.
pub fn unplaced(code: u32, at: u64) -> bool {
    !(4..=7).contains(&code) && at != 0
}

/// What is wrong with the length that a refused writer tells. Nothing that it writes is as short as
/// the buffer here, so that each is refused.
fn unseen_lengths(packet: &[u8]) -> Option<String> {
    let (start, n) = (packet.as_ptr(), packet.len());
    let mut out = [0; 32];
    let (to, m) = (out.as_mut_ptr(), out.len());
    // SAFETY: the library only reads the packet, and only writes `out`.
    let writers = unsafe {
        [
            raw::tb_write_request(&[0; 32], &[0; 32], to, raw::size(m)),
            raw::tb_delegation_text(start, raw::size(n), to, raw::size(m)),
            raw::tb_response_text(start, raw::size(n), to, raw::size(m)),
            raw::tb_write_srep(&[0; 32], 0, 1, to, raw::size(m)),
            raw::tb_write_srep(&[0; 32], 0, 0, to, raw::size(m)),
            raw::tb_write_dele(&[0; 32], 0, 0, to, raw::size(m)),
            raw::tb_write_cert(&[0; 32], 0, 0, &[0; 64], to, raw::size(m)),
            raw::tb_write_response(
                start,
                raw::size(n),
                0,
                &[0; 32],
                start,
                0,
                0,
                1,
                start,
                raw::size(n),
                &[0; 64],
                to,
                raw::size(m),
            ),
        ]
    };
    let wrong = writers.iter().any(|wrote| {
        wrote.length != 0 || !(1..=19).contains(&wrote.code) || unplaced(wrote.code, wrote.at)
    });
    wrong.then(|| format!("the writers answered {writers:?}"))
}

/// What a request's answer must be where the parts of it that mean something are these.
fn without_unseen(request: raw::tb_request) -> raw::tb_request {
    let with_srv = request.code == 0 && request.with_srv == 1;
    raw::tb_request {
        code: request.code,
        with_srv: u32::from(with_srv),
        at: request.at,
        nonc: if request.code == 0 { request.nonc } else { [0; 32] },
        srv: if with_srv { request.srv } else { [0; 32] },
    }
}
