//! libsodium's Ed25519. Where it is not linked there is none.

/// Whether there is one.
pub const LINKED: bool = cfg!(feature = "sodium");

#[cfg(feature = "sodium")]
mod library {
    use core::ffi::{c_char, c_int, c_ulonglong};

    #[link(name = "sodium")]
    extern "C" {
        pub fn sodium_init() -> c_int;
        pub fn sodium_version_string() -> *const c_char;
        pub fn crypto_sign_verify_detached(
            signature: *const u8,
            text: *const u8,
            text_len: c_ulonglong,
            key: *const u8,
        ) -> c_int;
        pub fn crypto_sign_seed_keypair(public: *mut u8, secret: *mut u8, seed: *const u8)
            -> c_int;
        pub fn crypto_sign_detached(
            signature: *mut u8,
            signature_len: *mut c_ulonglong,
            text: *const u8,
            text_len: c_ulonglong,
            secret: *const u8,
        ) -> c_int;
    }
}

/// To be called before the first call: libsodium then chooses what it has for the processor.
#[cfg(feature = "sodium")]
pub fn start() {
    // SAFETY: nothing is asked of the caller.
    assert!(unsafe { library::sodium_init() } >= 0, "libsodium does not start");
}

#[cfg(feature = "sodium")]
pub fn verifies(key: &[u8; 32], signature: &[u8; 64], text: &[u8]) -> bool {
    let (signature, length) = (signature.as_ptr(), text.len() as u64);
    // SAFETY: libsodium reads 64 bytes, 32, and as many of the text as it has, and keeps none.
    unsafe {
        library::crypto_sign_verify_detached(signature, text.as_ptr(), length, key.as_ptr()) == 0
    }
}

/// Who has a private key, as libsodium keeps it: the seed and behind it the public key.
pub struct Signer([u8; 64]);

impl Signer {
    /// The one whose private key is made of this seed.
    #[cfg(feature = "sodium")]
    pub fn new(seed: &[u8; 32]) -> Self {
        start();
        let (mut public, mut secret) = ([0; 32], [0; 64]);
        // SAFETY: libsodium reads 32 bytes, and writes 32 and 64.
        let status = unsafe {
            library::crypto_sign_seed_keypair(
                public.as_mut_ptr(),
                secret.as_mut_ptr(),
                seed.as_ptr(),
            )
        };
        assert_eq!(status, 0, "libsodium makes no key");
        Signer(secret)
    }

    /// The public key.
    pub fn key(&self) -> [u8; 32] {
        self.0[32..].try_into().expect("half of 64 bytes")
    }

    /// The signature of a text.
    #[cfg(feature = "sodium")]
    pub fn sign(&self, text: &[u8]) -> [u8; 64] {
        let (mut out, none) = ([0; 64], core::ptr::null_mut());
        let (at, length, secret) = (text.as_ptr(), text.len() as u64, self.0.as_ptr());
        // SAFETY: libsodium reads 64 bytes and as many of the text as it has, and writes 64.
        let status =
            unsafe { library::crypto_sign_detached(out.as_mut_ptr(), none, at, length, secret) };
        assert_eq!(status, 0, "libsodium signs nothing");
        out
    }

    #[cfg(not(feature = "sodium"))]
    pub fn new(_: &[u8; 32]) -> Self {
        unreachable!("libsodium is not linked")
    }

    #[cfg(not(feature = "sodium"))]
    pub fn sign(&self, _: &[u8]) -> [u8; 64] {
        unreachable!("libsodium is not linked")
    }
}

/// Its name and version.
#[cfg(feature = "sodium")]
pub fn version() -> String {
    // SAFETY: it is a text that libsodium keeps for good.
    let text = unsafe { std::ffi::CStr::from_ptr(library::sodium_version_string()) };
    format!("libsodium {}", text.to_string_lossy())
}

#[cfg(not(feature = "sodium"))]
pub fn version() -> String {
    "no libsodium".into()
}

#[cfg(not(feature = "sodium"))]
pub fn start() {}

#[cfg(not(feature = "sodium"))]
pub fn verifies(_: &[u8; 32], _: &[u8; 64], _: &[u8]) -> bool {
    unreachable!("libsodium is not linked")
}
