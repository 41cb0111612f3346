//! Ed25519's other half, which only a server has need of, and an attacker.

use super::ed25519::{Context, Key, ED25519};
use core::ffi::{c_int, c_void};
use core::ptr;

#[link(name = "crypto")]
extern "C" {
    fn EVP_PKEY_new_raw_private_key(
        kind: c_int,
        engine: *mut c_void,
        key: *const u8,
        key_len: usize,
    ) -> *mut c_void;
    fn EVP_PKEY_get_raw_public_key(key: *const c_void, out: *mut u8, out_len: *mut usize) -> c_int;
    fn EVP_DigestSignInit(
        context: *mut c_void,
        key_context: *mut *mut c_void,
        digest: *const c_void,
        engine: *mut c_void,
        key: *mut c_void,
    ) -> c_int;
    fn EVP_DigestSign(
        context: *mut c_void,
        out: *mut u8,
        out_len: *mut usize,
        text: *const u8,
        text_len: usize,
    ) -> c_int;
    fn EVP_PKEY_CTX_new(key: *mut c_void, engine: *mut c_void) -> *mut c_void;
    fn EVP_PKEY_CTX_free(context: *mut c_void);
    fn EVP_PKEY_verify(
        context: *mut c_void,
        signature: *const u8,
        signature_len: usize,
        text: *const u8,
        text_len: usize,
    ) -> c_int;
}

/// Who has a private key.
pub struct Signer(Key);

impl Signer {
    /// The one whose private key is made of this seed.
    pub fn new(seed: &[u8; 32]) -> Signer {
        let none = ptr::null_mut();
        // SAFETY: OpenSSL reads the seed and keeps no pointer to it.
        let key = unsafe { EVP_PKEY_new_raw_private_key(ED25519, none, seed.as_ptr(), 32) };
        assert!(!key.is_null(), "OpenSSL makes no key");
        Signer(Key(key))
    }

    /// The public key.
    pub fn key(&self) -> [u8; 32] {
        let (mut out, mut length) = ([0; 32], 32);
        // SAFETY: the key is OpenSSL's own, and it writes at most as many bytes as it is told.
        let status =
            unsafe { EVP_PKEY_get_raw_public_key(self.0 .0, out.as_mut_ptr(), &mut length) };
        assert_eq!((status, length), (1, 32), "OpenSSL tells no public key");
        out
    }

    /// The signature of a text.
    pub fn sign(&self, text: &[u8]) -> [u8; 64] {
        let (mut out, mut length) = ([0; 64], 64);
        let context = Context::new().expect("there is memory");
        let none: *mut c_void = ptr::null_mut();
        // SAFETY: the key and the context are OpenSSL's own; it only reads the text, and writes at
        // most as many bytes as it is told.
        let status = unsafe {
            EVP_DigestSignInit(context.0, none.cast(), none, none, self.0 .0)
                & EVP_DigestSign(
                    context.0,
                    out.as_mut_ptr(),
                    &mut length,
                    text.as_ptr(),
                    text.len(),
                )
        };
        assert_eq!((status, length), (1, 64), "OpenSSL signs nothing");
        out
    }

    /// What OpenSSL answers where it is asked in a way that it has not for this kind of key, as a
    /// host may by mistake.
    pub fn failing(&self) -> c_int {
        // SAFETY: the key and the context are OpenSSL's own, and it only reads the bytes.
        unsafe {
            let context = EVP_PKEY_CTX_new(self.0 .0, ptr::null_mut());
            assert!(!context.is_null(), "OpenSSL makes no context");
            let answer = EVP_PKEY_verify(context, [0; 64].as_ptr(), 64, [0; 3].as_ptr(), 3);
            EVP_PKEY_CTX_free(context);
            answer
        }
    }
}
