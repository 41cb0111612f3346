//! The check of a response with nothing below it: no operating system's library, no heap, no
//! standard library. It ends with status 0 where the first response of draft 19's report passes for
//! its request and tells the window that it should, and with another one where it does not.
//!
//! It is built for Linux, since the toolchain at hand has nothing for bare machines; all that it
//! asks of Linux is to be started and ended.

#![no_std]
#![no_main]

mod memory;
mod start;

use trawlbeacon::{check_signed, read_report, PacketRefusal, Window, RECORD_LENGTH};

/// The report that draft 19 prints in appendix B: three responses.
const REPORT: &[u8] = include_bytes!("../../../vectors/malfeasance-report.json");

/// What the first of them tells.
const LOW: u64 = 1_773_685_568;
const HIGH: u64 = 1_773_685_574;

/// Where a record has its two lengths and its two packets.
const LENGTHS: usize = 64;
const REQUEST: usize = 96;
const RESPONSE: usize = 2_096;

/// The packet at a place of a record, whose length stands at another.
fn packet(record: &[u8], at: usize, length: usize) -> &[u8] {
    let length = u16::from_le_bytes([record[length], record[length + 1]]);
    &record[at..at + usize::from(length)]
}

/// The window of the report's first response, checked under its own key.
fn window() -> Result<Window, PacketRefusal> {
    let mut pile = [0; 3 * RECORD_LENGTH];
    read_report(REPORT, &mut pile)?;
    let mut key = [0; 32];
    key.copy_from_slice(&pile[..32]);
    let (request, response) =
        (packet(&pile, REQUEST, LENGTHS), packet(&pile, RESPONSE, LENGTHS + 4));
    Ok(check_signed(&key, request, response)?.window)
}

/// The status to end with: 0, 1 where the window is another, or else 100 and the refusal's code.
pub fn status() -> u8 {
    match window() {
        Ok(Window { low: LOW, high: HIGH, .. }) => 0,
        Ok(_) => 1,
        Err(why) => 100 + why.code() as u8,
    }
}
