//! The tags that Roughtime gives a meaning (draft 19, sections 4.1.3 and 5).
//!
//! A tag is four bytes: capital letters, then zeros. It is sorted and compared as the number that
//! those bytes are, lowest first.

/// A tag as a number.
pub type Tag = u32;

/// The tag that is written with these four bytes.
pub const fn named(bytes: &[u8; 4]) -> Tag {
    u32::from_le_bytes(*bytes)
}

/// A signature.
pub const SIG: Tag = named(b"SIG\0");
/// A version, or in a request a list of them.
pub const VER: Tag = named(b"VER\0");
/// What names the key that the client expects.
pub const SRV: Tag = named(b"SRV\0");
/// The nonce.
pub const NONC: Tag = named(b"NONC");
/// What a server's long-term key delegates to another key.
pub const DELE: Tag = named(b"DELE");
/// Whether the message is a request or a response.
pub const TYPE: Tag = named(b"TYPE");
/// The siblings on the way from a leaf to the root.
pub const PATH: Tag = named(b"PATH");
/// The radius: how far the true time may be from the midpoint.
pub const RADI: Tag = named(b"RADI");
/// The delegated public key.
pub const PUBK: Tag = named(b"PUBK");
/// The midpoint: the time that the server tells.
pub const MIDP: Tag = named(b"MIDP");
/// The signed part of a response.
pub const SREP: Tag = named(b"SREP");
/// The versions that a server knows.
pub const VERS: Tag = named(b"VERS");
/// The first second at which the delegated key may sign.
pub const MINT: Tag = named(b"MINT");
/// The root of the Merkle tree.
pub const ROOT: Tag = named(b"ROOT");
/// The certificate: a delegation and its signature.
pub const CERT: Tag = named(b"CERT");
/// The last second at which the delegated key may sign.
pub const MAXT: Tag = named(b"MAXT");
/// Which leaf of the tree the request is.
pub const INDX: Tag = named(b"INDX");
/// Zeros that make a request long enough.
pub const ZZZZ: Tag = named(b"ZZZZ");

#[cfg(test)]
mod tests {
    use super::*;

    /// The letters are typed once and the numbers once, so that a slip in either shows.
    #[test]
    fn the_letters_are_the_numbers_that_the_document_lists() {
        let listed = [
            (SIG, 0x0047_4953),
            (VER, 0x0052_4556),
            (SRV, 0x0056_5253),
            (NONC, 0x434e_4f4e),
            (DELE, 0x454c_4544),
            (TYPE, 0x4550_5954),
            (PATH, 0x4854_4150),
            (RADI, 0x4944_4152),
            (PUBK, 0x4b42_5550),
            (MIDP, 0x5044_494d),
            (SREP, 0x5045_5253),
            (VERS, 0x5352_4556),
            (MINT, 0x544e_494d),
            (ROOT, 0x544f_4f52),
            (CERT, 0x5452_4543),
            (MAXT, 0x5458_414d),
            (INDX, 0x5844_4e49),
            (ZZZZ, 0x5a5a_5a5a),
        ];
        for (letters, number) in listed {
            assert_eq!(letters, number, "{:?}", letters.to_le_bytes());
        }
        assert!(
            listed.windows(2).all(|pair| pair[0].0 < pair[1].0),
            "the document lists them in rising order"
        );
    }
}
