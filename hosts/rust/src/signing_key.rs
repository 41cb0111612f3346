//! Signing: Ed25519 of RFC 8032, sections 5.1.5 and 5.1.6.

use crate::raw::{self, size};
use crate::serving::{DELEGATION_CONTEXT, RESPONSE_CONTEXT};
use core::sync::atomic::{compiler_fence, Ordering};
use core::{fmt, ptr};

/// A key that signs: its seed, which RFC 8032 calls the private key.
///
/// The public key is made of the seed at each call and never taken beside it: two signatures of one
/// text, by one seed and beside two public keys, would tell the key to whoever sees both.
///
/// No branch and no address depends on the seed, as far as `tools/try-secrets` sees in the compiled
/// code. `SECURITY.md` says what is promised of it and what is not. When the key is dropped its seed
/// is overwritten with zeros. The bytes that it was made of, the place that it was moved from and
/// what a call left on the stack are not. So put it where it is to stay, and clear your own copy of
/// the seed. It cannot be copied, cloned or compared, and `{:?}` prints none of it.
///
/// ```
/// use trawlbeacon::SigningKey;
///
/// // A server takes 32 bytes of the system's random source.
/// let key = SigningKey::new(&[7; 32]);
/// let signature = key.sign(b"a text");
/// assert!(trawlbeacon::verify(&key.public_key(), b"a text", &signature));
/// assert_eq!(key.sign_parts(b"a ", b"text"), signature);
/// assert_eq!(format!("{key:?}"), "SigningKey { .. }");
/// ```
///
/// ```compile_fail,E0599
/// let key = trawlbeacon::SigningKey::new(&[7; 32]);
/// let copy = key.clone();
/// ```
pub struct SigningKey {
    seed: [u8; 32],
}

impl SigningKey {
    /// The key of this seed: 32 bytes of a good random source, which nobody else has.
    #[must_use]
    pub fn new(seed: &[u8; 32]) -> Self {
        SigningKey { seed: *seed }
    }

    /// The seed, for a call that signs.
    pub(crate) fn seed(&self) -> &[u8; 32] {
        &self.seed
    }

    /// The public key, under which what is signed verifies. It is made anew at each call, which
    /// takes nearly half as long as a signature.
    #[must_use]
    pub fn public_key(&self) -> [u8; 32] {
        let mut out = [0; 32];
        // SAFETY: see raw.
        unsafe { raw::tb_public_key(&self.seed, &mut out) };
        out
    }

    /// The signature of a text. The same text has the same one.
    #[must_use]
    pub fn sign(&self, text: &[u8]) -> [u8; 64] {
        let mut out = [0; 64];
        // SAFETY: see raw.
        unsafe { raw::tb_sign(&self.seed, text.as_ptr(), size(text.len()), &mut out) };
        out
    }

    /// The signature of the text that is `context` and then `value`, so that no buffer is needed for
    /// it. Where the two come to more than 2^64 - 65 bytes, which no host has, it is zeros.
    #[must_use]
    pub fn sign_parts(&self, context: &[u8], value: &[u8]) -> [u8; 64] {
        let mut out = [0; 64];
        let (before, after) = (context.as_ptr(), value.as_ptr());
        // SAFETY: see raw.
        unsafe {
            raw::tb_sign_parts(
                &self.seed,
                before,
                size(context.len()),
                after,
                size(value.len()),
                &mut out,
            )
        };
        out
    }

    /// The signature of DELE behind its context, which [`write_cert`](crate::write_cert) takes: for
    /// the long-term key.
    ///
    /// ```
    /// use trawlbeacon::{SigningKey, CERT_LENGTH, DELE_LENGTH};
    ///
    /// let (long_term, delegated) = (SigningKey::new(&[1; 32]), SigningKey::new(&[2; 32]));
    /// let (pubk, mint, maxt) = (delegated.public_key(), 1_773_600_000, 1_773_700_000);
    /// let (mut dele, mut cert) = ([0; DELE_LENGTH], [0; CERT_LENGTH]);
    /// trawlbeacon::write_dele(&pubk, mint, maxt, &mut dele)?;
    /// trawlbeacon::write_cert(&pubk, mint, maxt, &long_term.sign_dele(&dele), &mut cert)?;
    /// # Ok::<(), trawlbeacon::Refusal>(())
    /// ```
    #[must_use]
    pub fn sign_dele(&self, dele: &[u8]) -> [u8; 64] {
        self.sign_parts(DELEGATION_CONTEXT, dele)
    }

    /// The signature of SREP behind its context, which goes into each [`Reply`](crate::Reply) to a
    /// batch: for the delegated key.
    ///
    /// ```
    /// use trawlbeacon::{SigningKey, SREP_LENGTH};
    ///
    /// let (delegated, root) = (SigningKey::new(&[2; 32]), [3; 32]);
    /// let mut srep = [0; SREP_LENGTH];
    /// trawlbeacon::write_srep(&root, 1_773_685_571, 3, &mut srep)?;
    /// let signature = delegated.sign_srep(&srep);
    /// # assert!(signature != [0; 64]);
    /// # Ok::<(), trawlbeacon::Refusal>(())
    /// ```
    #[must_use]
    pub fn sign_srep(&self, srep: &[u8]) -> [u8; 64] {
        self.sign_parts(RESPONSE_CONTEXT, srep)
    }
}

/// Nothing of the seed.
impl fmt::Debug for SigningKey {
    fn fmt(&self, to: &mut fmt::Formatter<'_>) -> fmt::Result {
        to.debug_struct("SigningKey").finish_non_exhaustive()
    }
}

impl Drop for SigningKey {
    fn drop(&mut self) {
        // SAFETY: the seed is ours, and nobody else reads or writes it. A volatile write is one that
        // the compiler may not leave out, though nobody reads the seed any more; the fence keeps it
        // before whatever becomes of the place.
        unsafe { ptr::write_volatile(&mut self.seed, [0; 32]) };
        compiler_fence(Ordering::SeqCst);
    }
}
