//! Prints the SHA-512 digests, one a line, of three messages: NIST's two examples for FIPS 180-4,
//! "abc" first and the one of two blocks last, and the empty message between them. A proved program
//! prints the same lines, and the two outputs are compared.

use independent::sha512::sha512;

/// 112 bytes, the shortest message whose padding needs a second block.
const TWO_BLOCKS: &str = "abcdefghbcdefghicdefghijdefghijkefghijklfghijklmghijklmn\
    hijklmnoijklmnopjklmnopqklmnopqrlmnopqrsmnopqrstnopqrstu";

fn hex(bytes: &[u8]) -> String {
    bytes.iter().map(|byte| format!("{byte:02x}")).collect()
}

fn main() {
    for message in ["abc", "", TWO_BLOCKS] {
        println!("{}", hex(&sha512(message.as_bytes())));
    }
}
