//! Ed25519 by OpenSSL's libcrypto, 1.1.1 or later: the few of its functions that verify a
//! signature, as its header openssl/evp.h declares them.

use core::ffi::{c_int, c_void};
use core::ptr;

/// NID_ED25519, by which OpenSSL names this kind of key.
pub const ED25519: c_int = 1087;

#[link(name = "crypto")]
extern "C" {
    fn EVP_PKEY_new_raw_public_key(
        kind: c_int,
        engine: *mut c_void,
        key: *const u8,
        key_len: usize,
    ) -> *mut c_void;
    fn EVP_PKEY_free(key: *mut c_void);
    fn EVP_MD_CTX_new() -> *mut c_void;
    fn EVP_MD_CTX_free(context: *mut c_void);
    fn EVP_DigestVerifyInit(
        context: *mut c_void,
        key_context: *mut *mut c_void,
        digest: *const c_void,
        engine: *mut c_void,
        key: *mut c_void,
    ) -> c_int;
    fn EVP_DigestVerify(
        context: *mut c_void,
        signature: *const u8,
        signature_len: usize,
        text: *const u8,
        text_len: usize,
    ) -> c_int;
}

/// A key that OpenSSL holds. It is never null.
pub struct Key(pub *mut c_void);

impl Key {
    /// The public key of these bytes.
    pub fn public(bytes: &[u8; 32]) -> Option<Key> {
        let none: *mut c_void = ptr::null_mut();
        // SAFETY: OpenSSL reads the bytes and keeps no pointer to them.
        let key = unsafe { EVP_PKEY_new_raw_public_key(ED25519, none, bytes.as_ptr(), 32) };
        (!key.is_null()).then_some(Key(key))
    }
}

impl Drop for Key {
    fn drop(&mut self) {
        // SAFETY: it is a key, and nobody else has it.
        unsafe { EVP_PKEY_free(self.0) };
    }
}

/// What OpenSSL works in. It is never null.
pub struct Context(pub *mut c_void);

impl Context {
    pub fn new() -> Option<Context> {
        // SAFETY: nothing is asked of the caller.
        let context = unsafe { EVP_MD_CTX_new() };
        (!context.is_null()).then_some(Context(context))
    }
}

impl Drop for Context {
    fn drop(&mut self) {
        // SAFETY: it is a context, and nobody else has it.
        unsafe { EVP_MD_CTX_free(self.0) };
    }
}

/// Whether `signature` is that of `text` under the public key `key`. It is not where OpenSSL fails.
#[must_use]
pub fn verifies(key: &[u8; 32], signature: &[u8; 64], text: &[u8]) -> bool {
    let (Some(key), Some(context)) = (Key::public(key), Context::new()) else { return false };
    let none: *mut c_void = ptr::null_mut();
    // SAFETY: the key and the context are OpenSSL's own, and live until the end of this function.
    let begun = unsafe { EVP_DigestVerifyInit(context.0, none.cast(), none, none, key.0) };
    // SAFETY: the same; and OpenSSL only reads the signature and the text.
    begun == 1
        && unsafe {
            EVP_DigestVerify(context.0, signature.as_ptr(), 64, text.as_ptr(), text.len()) == 1
        }
}
