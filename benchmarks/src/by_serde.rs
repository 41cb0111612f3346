//! Reports read by serde_json and base64, of Debian's packages. Where they are not installed nothing
//! is.

use crate::sides::{Side, Work};
use crate::texts::Said;

#[cfg(feature = "json")]
#[path = "../peer/report.rs"]
mod report;

/// Reading, into a buffer that is long enough for any report.
#[cfg(feature = "json")]
pub fn read(text: &[u8]) -> Option<(Side, Work<'_>)> {
    let mut out = vec![0; trawlbeacon::MOST_PILE_LENGTH];
    let read = move || report::read_into(std::hint::black_box(text), &mut out);
    Some((Side::SerdeJson, crate::sides::work(read)))
}

/// What they say of a text.
#[cfg(feature = "json")]
pub fn said(text: &[u8]) -> Option<Said> {
    Some(crate::texts::said(|out| report::read_into(text, out), |refusal| refusal.code()))
}

#[cfg(not(feature = "json"))]
pub fn read(_: &[u8]) -> Option<(Side, Work<'_>)> {
    None
}

#[cfg(not(feature = "json"))]
pub fn said(_: &[u8]) -> Option<Said> {
    None
}
