//! How a time server comes to its delegated key: the examples `demo` and `server` share it, and so
//! do tests.

use trawlbeacon::{Batch, Refusal, SigningKey, CERT_LENGTH, DELE_LENGTH};

/// The radius that a server claims, in seconds: the least that draft 19 (5.2.5) recommends to one
/// that knows nothing of leap seconds.
pub const RADI: u32 = 3;

/// Delegates to this key from the first of these seconds to the last, and hands out what the server
/// answers with. The long-term key is needed here alone, so that it can be kept where no packet ever
/// comes.
pub fn delegated(
    long_term: &SigningKey,
    key: SigningKey,
    (mint, maxt): (u64, u64),
) -> Result<Batch, Refusal> {
    let (pubk, mut dele) = (key.public_key(), [0; DELE_LENGTH]);
    trawlbeacon::write_dele(&pubk, mint, maxt, &mut dele)?;
    let signature = long_term.sign_dele(&dele);
    let mut cert = [0; CERT_LENGTH];
    trawlbeacon::write_cert(&pubk, mint, maxt, &signature, &mut cert)?;
    Ok(Batch::new(&long_term.public_key(), key, &cert))
}
