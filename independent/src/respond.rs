//! What a server writes (draft 19, sections 5.2 and 5.2.6): the signed part, the delegation, and the
//! whole response to one request, with all that can be refused before any of it is written.
//!
//! No key signs anything here: signatures are lent.

use crate::message;
use crate::place;
use crate::refusal::Refusal;
use crate::response::{Cert, Dele, TYPE_OF_RESPONSE};
use crate::tag::{
    CERT, DELE, INDX, MAXT, MIDP, MINT, NONC, PATH, PUBK, RADI, ROOT, SIG, SREP, TYPE, VER, VERS,
};
use crate::{hash, packet, request, tree, value, VERSION};

/// Why nothing was written.
#[derive(Clone, Copy, Debug, PartialEq, Eq)]
pub struct Unwritten {
    /// The refusal.
    pub refusal: Refusal,
    /// The byte of the value of CERT at which it, or its DELE, is bad.
    pub at: Option<usize>,
}

impl From<Refusal> for Unwritten {
    fn from(refusal: Refusal) -> Self {
        Unwritten { refusal, at: None }
    }
}

/// What a response is made of.
#[derive(Clone, Debug, PartialEq, Eq)]
pub struct Reply<'a> {
    /// The request packet.
    pub request: &'a [u8],
    /// INDX: which leaf of the batch the request is.
    pub indx: u32,
    /// ROOT: the root of the batch.
    pub root: [u8; 32],
    /// PATH: the bytes of the siblings.
    pub path: &'a [u8],
    /// MIDP.
    pub midp: u64,
    /// RADI.
    pub radi: u32,
    /// The value of CERT.
    pub cert: &'a [u8],
    /// SIG, over SREP.
    pub signature: [u8; 64],
}

/// SREP: what is signed in every response of a batch.
pub fn srep(root: &[u8; 32], midp: u64, radi: u32) -> Result<Vec<u8>, Refusal> {
    value::radius(&radi.to_le_bytes())?;
    let versions = value::list(&[VERSION]);
    let pairs: [(_, &[u8]); 5] = [
        (VER, &VERSION.to_le_bytes()),
        (RADI, &radi.to_le_bytes()),
        (MIDP, &midp.to_le_bytes()),
        (VERS, &versions),
        (ROOT, root),
    ];
    Ok(message::encode(&pairs))
}

/// DELE: what the long-term key signs.
pub fn dele(pubk: &[u8; 32], mint: u64, maxt: u64) -> Vec<u8> {
    let pairs: [(_, &[u8]); 3] =
        [(PUBK, pubk), (MINT, &mint.to_le_bytes()), (MAXT, &maxt.to_le_bytes())];
    message::encode(&pairs)
}

/// CERT: the delegation with its signature.
pub fn cert(pubk: &[u8; 32], mint: u64, maxt: u64, signature: &[u8; 64]) -> Vec<u8> {
    let dele = dele(pubk, mint, maxt);
    let pairs: [(_, &[u8]); 2] = [(SIG, signature), (DELE, &dele)];
    message::encode(&pairs)
}

/// The response packet, or the first reason not to write it.
pub fn response(reply: &Reply) -> Result<Vec<u8>, Unwritten> {
    let asked = request::read(reply.request).map_err(|_| Refusal::Request)?;
    let srep = srep(&reply.root, reply.midp, reply.radi)?;
    let delegation = Cert::read(reply.cert).and_then(|cert| Dele::read(cert.dele));
    let delegation = delegation.map_err(|refusal| Unwritten {
        refusal,
        at: place::in_cert(reply.cert).map(|place| place.at),
    })?;
    if !tree::leads(&hash::leaf(reply.request), reply.indx, reply.path, &reply.root) {
        return Err(Refusal::Path.into());
    }
    if !(delegation.mint..=delegation.maxt).contains(&reply.midp) {
        return Err(Refusal::Time.into());
    }
    let pairs: [(_, &[u8]); 7] = [
        (SIG, &reply.signature),
        (NONC, &asked.nonc),
        (TYPE, &TYPE_OF_RESPONSE.to_le_bytes()),
        (PATH, reply.path),
        (SREP, &srep),
        (CERT, reply.cert),
        (INDX, &reply.indx.to_le_bytes()),
    ];
    let written = packet::encode(&message::encode(&pairs));
    if written.len() > reply.request.len() {
        return Err(Refusal::ResponseLength.into());
    }
    Ok(written)
}

#[cfg(test)]
mod tests {
    use super::*;
    use crate::server::Server;
    use crate::{check, response, text, write};

    /// A request alone in its batch, and a delegation from 900 to 1,100.
    fn alone(request: &[u8]) -> (Vec<u8>, [u8; 32]) {
        (cert(&[4; 32], 900, 1100, &[5; 64]), hash::leaf(request))
    }

    fn reply<'a>(request: &'a [u8], cert: &'a [u8], root: [u8; 32]) -> Reply<'a> {
        Reply { request, indx: 0, root, path: &[], midp: 1000, radi: 7, cert, signature: [6; 64] }
    }

    /// The two were written apart: the one puts pairs together, the other pieces.
    #[test]
    fn it_writes_what_the_server_of_batches_sends() {
        let server = Server {
            midp: 1000,
            radi: 7,
            pubk: [4; 32],
            mint: 900,
            maxt: 1100,
            delegation: [5; 64],
            signature: [6; 64],
        };
        let requests: Vec<Vec<u8>> = (0..13).map(|i| write::request(&[1; 32], &[i; 32])).collect();
        let cert = cert(&[4; 32], 900, 1100, &[5; 64]);
        for (request, sent) in requests.iter().zip(server.answer(&requests).unwrap()) {
            let said = response::read(&sent).unwrap();
            let path = said.outer.path.concat();
            let made = Reply {
                indx: said.outer.indx,
                path: &path,
                ..reply(request, &cert, said.srep.root)
            };
            assert_eq!(response(&made), Ok(sent.clone()));
            assert_eq!(srep(&said.srep.root, 1000, 7), Ok(said.outer.srep.to_vec()));
            assert_eq!(dele(&[4; 32], 900, 1100), said.cert.dele);
        }
    }

    #[test]
    fn it_is_valid_and_its_texts_are_what_was_signed() {
        let request = write::request(&[1; 32], &[2; 32]);
        let (cert, root) = alone(&request);
        let written = response(&reply(&request, &cert, root)).unwrap();
        assert_eq!(written.len(), 264 + cert.len());
        assert!(check::check(&request, &written, true, true).is_ok());
        assert!(text::response(&written).unwrap().ends_with(&srep(&root, 1000, 7).unwrap()));
        assert!(text::delegation(&written).unwrap().ends_with(&dele(&[4; 32], 900, 1100)));
    }

    /// Each reason by itself, and then with all that come after it.
    #[test]
    fn the_first_reason_counts() {
        let request = write::padded_request(&[1; 32], &[2; 32], 4);
        let root = hash::leaf(&request);
        let mut bad_cert = cert(&[4; 32], 1001, 1100, &[5; 64]);
        bad_cert[0] = 0;
        let late = cert(&[4; 32], 900, 999, &[5; 64]);
        let due = |reply: &Reply, code, at| {
            let why = response(reply).unwrap_err();
            assert_eq!((why.refusal.code(), why.at), (code, at));
        };
        let longer = reply(&request, &late, root);
        due(&Reply { midp: 999, ..longer.clone() }, 23, None);
        due(&longer, 11, None);
        let lost = Reply { indx: 1, ..longer };
        due(&lost, 10, None);
        let uncertain = Reply { cert: &bad_cert, ..lost };
        due(&uncertain, 4, Some(0));
        let boastful = Reply { radi: 0, ..uncertain };
        due(&boastful, 7, None);
        due(&Reply { request: &request[1..], ..boastful }, 14, None);
    }

    /// CERT grows by a tag that means nothing.
    #[test]
    fn as_long_as_the_request_is_not_too_long() {
        let request = write::request(&[1; 32], &[2; 32]);
        let written = |more: usize| {
            let dele = dele(&[4; 32], 900, 1100);
            let pairs = [(SIG, vec![5; 64]), (DELE, dele), (ROOT, vec![0; more])];
            let cert = message::encode(&pairs);
            response(&reply(&request, &cert, hash::leaf(&request))).map(|sent| sent.len())
        };
        assert_eq!(written(612), Ok(request.len()));
        assert_eq!(written(616), Err(Refusal::ResponseLength.into()));
    }
}
