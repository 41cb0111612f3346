//! RFC 8032's own signatures, section 7.1.

use super::{unhex, vectors};

/// An entry.
pub struct Entry {
    pub seed: [u8; 32],
    pub key: [u8; 32],
    pub text: Vec<u8>,
    pub signature: [u8; 64],
}

/// The secret keys, in their order, which the file has not.
const SEEDS: [&str; 5] = [
    "9d61b19deffd5a60ba844af492ec2cc44449c5697b326919703bac031cae7f60",
    "4ccd089b28ff96da9db6c346ec114e0f5b8a319f35aba624da8cf6ed4fb8a6fb",
    "c5aa8df43f9f837bedb7442f31dcb7b166d38535076f094b85ce3a2e0b4458f7",
    "f5e5767cf153319517630f226876b86c8160cc583bc013744c6bf255f5cc0ee5",
    "833fe62409237b9d62ec77587520911e9a759cec1d19755b7da901b96dca3d42",
];

/// The bytes that a line spells, as many as there should be.
fn exactly<const N: usize>(bytes: &[u8]) -> [u8; N] {
    bytes.try_into().expect("a line has as many bytes as it should")
}

/// All five.
pub fn entries() -> Vec<Entry> {
    let file = vectors("RFC8032-7.1.txt");
    let values = |name: &str| -> Vec<Vec<u8>> {
        let of = |line: &str| line.strip_prefix(name).map(|value| unhex(value.trim()));
        file.lines().filter_map(of).map(|value| value.expect("it is hexadecimal")).collect()
    };
    let (keys, texts, signatures) = (values("key "), values("message"), values("signature "));
    assert_eq!((keys.len(), texts.len(), signatures.len()), (5, 5, 5));
    let entry = |at: usize| Entry {
        seed: exactly(&unhex(SEEDS[at]).expect("it is hexadecimal")),
        key: exactly(&keys[at]),
        text: texts[at].clone(),
        signature: exactly(&signatures[at]),
    };
    (0..5).map(entry).collect()
}
