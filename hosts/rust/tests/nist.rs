//! Every message of NIST's files: the proved library and the independent implementation must both
//! give NIST's digest.

mod support;

fn compare(file: &str, expected: usize) {
    let entries = support::nist(file);
    // The count is fixed, so that a file that was cut short, or misread, is no pass.
    assert_eq!(entries.len(), expected, "{file} has another number of entries than it should");
    for entry in &entries {
        let length = entry.message.len();
        assert_eq!(
            trawlbeacon::sha512(&entry.message)[..],
            entry.digest,
            "{file}: ours, {length} bytes"
        );
        assert_eq!(
            independent::sha512::sha512(&entry.message)[..],
            entry.digest,
            "{file}: independent, {length} bytes"
        );
    }
    let longest = entries.iter().map(|entry| entry.message.len()).max().unwrap_or(0);
    println!(
        "{file}: {expected} messages of up to {longest} bytes, ours and independent both compared \
         with NIST's digests"
    );
}

#[test]
fn short_messages() {
    compare("SHA512ShortMsg.rsp", 129);
}

#[test]
fn long_messages() {
    compare("SHA512LongMsg.rsp", 128);
}
