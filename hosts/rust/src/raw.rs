//! The C functions of the proved library, and the structs that they answer with, as
//! `include/trawlbeacon.h` declares them and under its names. The header says what each does.
//!
//! A slice is passed as a pointer and then a length. The pointer must not be null, whatever the
//! length. A reference to an array is a plain pointer to C, and says here how many bytes it must
//! lead to. What is written to must be initialised, and must overlap nothing else that is read or
//! written.
//!
//! Why the safe functions of this package are sound: the library only reads its inputs, only writes
//! within `out` and whatever else it is lent to be written, and keeps no pointer. A Rust slice's
//! pointer is never null, also where the slice is empty; what it leads to is initialised; and a
//! mutable one, or a new array that is filled with zeros first, overlaps no other.

#![allow(non_camel_case_types)]

/// A length, a number of things or a place among them, as `tb_size` of the header. It has 64 bits on
/// every machine: where a pointer has as many it is `usize`, and where it has fewer `u64`.
#[cfg(target_pointer_width = "64")]
pub type tb_size = usize;
#[cfg(not(target_pointer_width = "64"))]
#[allow(missing_docs)] // see above
pub type tb_size = u64;

/// A length or a place of Rust's, as the library takes it. No machine has more bits than are kept.
#[must_use]
pub const fn size(number: usize) -> tb_size {
    number as tb_size
}

/// The state of a hash in pieces. It is the caller's, and any content does no harm.
#[repr(C)]
#[derive(Clone, Copy, Debug, PartialEq, Eq)]
pub struct tb_running {
    /// The hash value after the whole blocks so far.
    pub h: [u64; 8],
    /// The bytes that fill no block yet, at the front of a block's room.
    pub rest: [u8; 128],
    /// How many bytes there were.
    pub count: u64,
}

/// What is kept of windows as they come. It is the caller's, and any content does no harm.
#[repr(C)]
#[derive(Clone, Copy, Debug, PartialEq, Eq)]
pub struct tb_tally {
    /// The largest MIDP - RADI so far, but not below 0.
    pub most: u64,
}

/// The state of a measuring walk. It is the caller's, and any content does no harm.
#[repr(C)]
#[derive(Clone, Copy, Debug, PartialEq, Eq)]
pub struct tb_walk {
    /// The servers' keys, 32 bytes each, and then zeros.
    pub keys: [u8; 256],
    /// How many servers there are.
    pub count: u64,
    /// The step, from 0.
    pub step: u64,
    /// The nonce that is asked next.
    pub nonce: [u8; 32],
    /// The rand that it was made with.
    pub rand: [u8; 32],
    /// When the last response was received.
    pub last: u64,
    /// The longest delay that is allowed.
    pub most: u64,
}

/// The state of a clock. It is the caller's, and any content does no harm. Places 2 s and 2 s + 1 of
/// each array are the newest window of server s and the one before it.
#[repr(C)]
#[derive(Clone, Copy, Debug, PartialEq, Eq)]
pub struct tb_clock {
    /// The bound on the drift of the host's own clock, in parts per million.
    pub drift: u32,
    /// The low ends of the windows, in seconds since 1970.
    pub low: [u64; 16],
    /// Their high ends.
    pub high: [u64; 16],
    /// Their MAXT: 0 where there is no window.
    pub maxt: [u64; 16],
    /// When the first copy of the request was sent, in microseconds of the host's own clock.
    pub sent: [u64; 16],
    /// When the response was received.
    pub received: [u64; 16],
}

/// What [`tb_read_request`] answers.
#[repr(C)]
#[derive(Clone, Copy, Debug, PartialEq, Eq)]
pub struct tb_request {
    /// 0, or a refusal; then all else but `at` is 0.
    pub code: u32,
    /// 1 where the request has an SRV, else 0; then `srv` is all 0.
    pub with_srv: u32,
    /// The byte of the packet at which it is bad, with codes 4 to 7; else 0.
    pub at: u64,
    /// NONC.
    pub nonc: [u8; 32],
    /// SRV.
    pub srv: [u8; 32],
}

/// What [`tb_read_response`] answers.
#[repr(C)]
#[derive(Clone, Copy, Debug, PartialEq, Eq)]
pub struct tb_response {
    /// 0, or a refusal; then all else but `at` is 0.
    pub code: u32,
    /// INDX.
    pub indx: u32,
    /// The byte of the packet at which it is bad, with codes 4 to 7; else 0.
    pub at: u64,
    /// MIDP.
    pub midp: u64,
    /// RADI.
    pub radi: u32,
    /// NONC.
    pub nonc: [u8; 32],
    /// ROOT.
    pub root: [u8; 32],
}

/// What a function answers that writes a request, a text to be signed, or what a server sends.
#[repr(C)]
#[derive(Clone, Copy, Debug, PartialEq, Eq)]
pub struct tb_wrote {
    /// 0, or a refusal.
    pub code: u32,
    /// The byte of the packet, or of the value of CERT, at which it is bad, with codes 4 to 7; else
    /// 0, and beside the 7 for a RADI of 0.
    pub at: u64,
    /// How many bytes were written: 0 on a refusal.
    pub length: u64,
}

/// What [`tb_answer_batch`] answers.
#[repr(C)]
#[derive(Clone, Copy, Debug, PartialEq, Eq)]
pub struct tb_batch {
    /// 0, or a refusal.
    pub code: u32,
    /// The byte of the value of CERT at which it is bad, with codes 4 to 7; else 0, and beside the 7
    /// for a RADI of 0.
    pub at: u64,
    /// How many packets were answered: 0 on a refusal.
    pub answered: u64,
}

/// What [`tb_signed_parts`] answers.
#[repr(C)]
#[derive(Clone, Copy, Debug, PartialEq, Eq)]
pub struct tb_parts {
    /// 0, or a refusal; then all else but `at` is 0.
    pub code: u32,
    /// The byte of the packet at which it is bad, with codes 4 to 7; else 0.
    pub at: u64,
    /// SIG of the outermost message.
    pub signature: [u8; 64],
    /// SIG of CERT.
    pub delegation: [u8; 64],
    /// PUBK of DELE.
    pub pubk: [u8; 32],
}

/// What [`tb_check_response`] and [`tb_check_signed`] answer.
#[repr(C)]
#[derive(Clone, Copy, Debug, PartialEq, Eq)]
pub struct tb_verdict {
    /// 0, or a refusal; then all else but `at` is 0.
    pub code: u32,
    /// RADI.
    pub radi: u32,
    /// The byte of the packet at which it is bad, with codes 4 to 7; else 0.
    pub at: u64,
    /// MIDP.
    pub midp: u64,
    /// The low end of the window.
    pub low: u64,
    /// The high end of the window.
    pub high: u64,
    /// MINT.
    pub mint: u64,
    /// MAXT.
    pub maxt: u64,
    /// PUBK.
    pub pubk: [u8; 32],
}

/// What [`tb_root`] answers.
#[repr(C)]
#[derive(Clone, Copy, Debug, PartialEq, Eq)]
pub struct tb_rooted {
    /// 0, or a refusal; then all else is 0.
    pub code: u32,
    /// How many steps lead from a leaf to the root.
    pub depth: u32,
    /// The root.
    pub root: [u8; 32],
}

/// What a function answers that writes a path.
#[repr(C)]
#[derive(Clone, Copy, Debug, PartialEq, Eq)]
pub struct tb_placed {
    /// 0, or a refusal; then all else is 0.
    pub code: u32,
    /// INDX.
    pub indx: u32,
    /// How many siblings were written.
    pub depth: u32,
}

/// What [`tb_rows`] answers.
#[repr(C)]
#[derive(Clone, Copy, Debug, PartialEq, Eq)]
pub struct tb_laid {
    /// 0, or a refusal.
    pub code: u32,
    /// How many steps lead from a leaf to the root: 0 on a refusal.
    pub depth: u32,
    /// How many bytes were written: 0 on a refusal.
    pub length: u64,
}

/// What [`tb_find_server`] answers.
#[repr(C)]
#[derive(Clone, Copy, Debug, PartialEq, Eq)]
pub struct tb_found {
    /// 0, or a refusal; then all else is 0.
    pub code: u32,
    /// 0 where the record is in the owner's list, 1 where it is in the shipped one.
    pub list: u32,
    /// Where in that list the record starts.
    pub offset: u64,
}

/// What [`tb_read_servers`] answers.
#[repr(C)]
#[derive(Clone, Copy, Debug, PartialEq, Eq)]
pub struct tb_servers {
    /// 0, or a refusal; then all else is 0.
    pub code: u32,
    /// How many records were written.
    pub records: u64,
    /// How many servers were passed over.
    pub passed_over: u64,
}

/// What [`tb_server_address`] answers.
#[repr(C)]
#[derive(Clone, Copy, Debug, PartialEq, Eq)]
pub struct tb_addressed {
    /// 0, or a refusal; then all else is 0.
    pub code: u32,
    /// 1 where the address is one of TCP, 0 where it is one of UDP.
    pub tcp: u32,
    /// How many bytes were written.
    pub length: u64,
}

/// What [`tb_judge`] and [`tb_judge_signed`] answer.
#[repr(C)]
#[derive(Clone, Copy, Debug, PartialEq, Eq)]
pub struct tb_judged {
    /// 0, or a refusal; then all else but the place and `at` is 0.
    pub code: u32,
    /// RADI.
    pub radi: u32,
    /// The place that was asked for.
    pub place: u64,
    /// The byte of the record's response at which it is bad, with codes 4 to 7; else 0.
    pub at: u64,
    /// MIDP.
    pub midp: u64,
    /// The low end of the window.
    pub low: u64,
    /// The high end of the window.
    pub high: u64,
    /// MINT.
    pub mint: u64,
    /// MAXT.
    pub maxt: u64,
    /// PUBK.
    pub pubk: [u8; 32],
}

/// What [`tb_check_report`] and [`tb_check_signed_report`] answer.
#[repr(C)]
#[derive(Clone, Copy, Debug, PartialEq, Eq)]
pub struct tb_reported {
    /// 0, or a refusal; then all else but the place and `at` is 0.
    pub code: u32,
    /// The place of the record to which the refusal applies: 0 where there is none, as with 0, 15
    /// and 18.
    pub place: u64,
    /// The byte of the record's response at which it is bad, with codes 4 to 7; else 0.
    pub at: u64,
    /// The place of the earlier record of the pair.
    pub first: u64,
    /// The place of the later one.
    pub second: u64,
}

/// What [`tb_cut_run`] and [`tb_cut_signed_run`] answer.
#[repr(C)]
#[derive(Clone, Copy, Debug, PartialEq, Eq)]
pub struct tb_cut {
    /// 0, or a refusal; then all else is 0.
    pub code: u32,
    /// The place of the first record of the run.
    pub first: u64,
    /// The place of the last one.
    pub last: u64,
}

/// What [`tb_read_report`] answers.
#[repr(C)]
#[derive(Clone, Copy, Debug, PartialEq, Eq)]
pub struct tb_records {
    /// 0, or a refusal; then all else is 0.
    pub code: u32,
    /// How many records were written.
    pub records: u64,
}

/// What a function answers that writes a report as text.
#[repr(C)]
#[derive(Clone, Copy, Debug, PartialEq, Eq)]
pub struct tb_published {
    /// 0, or a refusal; then all else but the place and `at` is 0.
    pub code: u32,
    /// The place of the record to which the refusal applies: 0 where there is none, as with 0, 15,
    /// 18 and 19.
    pub place: u64,
    /// The byte of the record's response at which it is bad, with codes 4 to 7; else 0.
    pub at: u64,
    /// How many bytes were written.
    pub length: u64,
}

/// What a function answers that cuts a report as text.
#[repr(C)]
#[derive(Clone, Copy, Debug, PartialEq, Eq)]
pub struct tb_forwarded {
    /// 0, or a refusal; then all else is 0.
    pub code: u32,
    /// The place of the first record of the run.
    pub first: u64,
    /// The place of the last one.
    pub last: u64,
    /// How many bytes were written.
    pub length: u64,
}

/// What [`tb_walk_ask_fields`] answers.
#[repr(C)]
#[derive(Clone, Copy, Debug, PartialEq, Eq)]
pub struct tb_asked {
    /// 0, or a refusal; then all else is 0.
    pub code: u32,
    /// Which server is asked, from 0.
    pub server: u64,
    /// The nonce of its request.
    pub nonce: [u8; 32],
}

/// How a walk stands: nothing is said of it, since the response was refused.
pub const TB_NOTHING_SAID: u32 = 0;
/// It goes on.
pub const TB_GOES_ON: u32 = 1;
/// It has ended, and the servers' answers are consistent.
pub const TB_CONSISTENT: u32 = 2;
/// It has ended, and two of its records contradict each other.
pub const TB_MALFEASANCE: u32 = 3;
/// It has ended, and its pile was altered.
pub const TB_PILE_ALTERED: u32 = 4;

/// What [`tb_walk_take_fields`] and [`tb_walk_take_signed_fields`] answer.
#[repr(C)]
#[derive(Clone, Copy, Debug, PartialEq, Eq)]
pub struct tb_took {
    /// 0, or a refusal; then all else but `at` is 0.
    pub code: u32,
    /// How the walk stands: [`TB_NOTHING_SAID`] beside a refusal, else one of the four after it.
    pub outcome: u32,
    /// The byte of the response at which it is bad, with codes 4 to 7; else 0.
    pub at: u64,
    /// The place of the earlier record of the pair, in malfeasance; else 0.
    pub first: u64,
    /// The place of the later one; else 0.
    pub second: u64,
    /// MIDP of the response that was taken.
    pub midp: u64,
    /// The low end of its window.
    pub low: u64,
    /// The high end of its window.
    pub high: u64,
    /// MINT.
    pub mint: u64,
    /// MAXT.
    pub maxt: u64,
    /// RADI.
    pub radi: u32,
}

/// What [`tb_clock_now_fields`] answers.
#[repr(C)]
#[derive(Clone, Copy, Debug, PartialEq, Eq)]
pub struct tb_time {
    /// 0, or a refusal; then all else is 0.
    pub code: u32,
    /// 1 where `high` is 2^64 - 1 and the time may be later, else 0.
    pub stopped: u32,
    /// The low end of the time, in microseconds since 1970.
    pub low: u64,
    /// The high end.
    pub high: u64,
    /// How many servers were counted.
    pub counted: u64,
    /// Those of them that agree: server s is the bit 1 << s.
    pub agree: u64,
    /// Those that do not.
    pub suspects: u64,
}

/// What [`tb_old_window`] answers.
#[repr(C)]
#[derive(Clone, Copy, Debug, PartialEq, Eq)]
pub struct tb_old {
    /// 0, or a refusal; then all else is 0.
    pub code: u32,
    /// The low end of the window.
    pub low: u64,
    /// The high end of the window.
    pub high: u64,
}

extern "C" {
    /// SHA-512.
    pub fn tb_sha512(message: *const u8, message_len: tb_size, out: &mut [u8; 64]);
    /// The leaf of a request packet.
    pub fn tb_leaf(packet: *const u8, packet_len: tb_size, out: &mut [u8; 32]);
    /// The node above two nodes.
    pub fn tb_parent(left: &[u8; 32], right: &[u8; 32], out: &mut [u8; 32]);
    /// A leaf without a packet.
    pub fn tb_empty_place(out: &mut [u8; 32]);
    /// The SRV value of a server's key.
    pub fn tb_srv_value(key: &[u8; 32], out: &mut [u8; 32]);
    /// The nonce of the next request of a chain.
    pub fn tb_link(response: *const u8, response_len: tb_size, rand: &[u8; 32], out: &mut [u8; 32]);

    /// Starts the hash of a message.
    pub fn tb_sha512_start_fields(h: &mut [u64; 8], rest: &mut [u8; 128], count: &mut u64);
    /// Starts the leaf of a packet.
    pub fn tb_leaf_start_fields(h: &mut [u64; 8], rest: &mut [u8; 128], count: &mut u64);
    /// Takes a piece.
    pub fn tb_sha512_take_fields(
        h: &mut [u64; 8],
        rest: &mut [u8; 128],
        count: &mut u64,
        piece: *const u8,
        piece_len: tb_size,
    ) -> u32;
    /// The SHA-512 digest of what was taken so far.
    pub fn tb_sha512_finish_fields(h: &[u64; 8], rest: &[u8; 128], count: u64, out: &mut [u8; 64]);
    /// H of what was taken so far.
    pub fn tb_hash_finish_fields(h: &[u64; 8], rest: &[u8; 128], count: u64, out: &mut [u8; 32]);

    /// Reads a request.
    pub fn tb_read_request(packet: *const u8, packet_len: tb_size) -> tb_request;
    /// Reads a response.
    pub fn tb_read_response(packet: *const u8, packet_len: tb_size) -> tb_response;
    /// Writes a request.
    pub fn tb_write_request(
        key: &[u8; 32],
        nonce: &[u8; 32],
        out: *mut u8,
        out_len: tb_size,
    ) -> tb_wrote;

    /// Writes DELE.
    pub fn tb_write_dele(
        pubk: &[u8; 32],
        mint: u64,
        maxt: u64,
        out: *mut u8,
        out_len: tb_size,
    ) -> tb_wrote;
    /// Writes CERT.
    pub fn tb_write_cert(
        pubk: &[u8; 32],
        mint: u64,
        maxt: u64,
        signature: &[u8; 64],
        out: *mut u8,
        out_len: tb_size,
    ) -> tb_wrote;
    /// Writes SREP.
    pub fn tb_write_srep(
        root: &[u8; 32],
        midp: u64,
        radi: u32,
        out: *mut u8,
        out_len: tb_size,
    ) -> tb_wrote;
    /// Writes the response to a request. A place is one in the value of CERT.
    pub fn tb_write_response(
        request: *const u8,
        request_len: tb_size,
        indx: u32,
        root: &[u8; 32],
        path: *const u8,
        path_len: tb_size,
        midp: u64,
        radi: u32,
        cert: *const u8,
        cert_len: tb_size,
        signature: &[u8; 64],
        out: *mut u8,
        out_len: tb_size,
    ) -> tb_wrote;
    /// Answers a batch. A place is one in the value of CERT.
    pub fn tb_answer_batch(
        packets: *const u8,
        packets_len: tb_size,
        slot: tb_size,
        lengths: *const u32,
        lengths_len: tb_size,
        srv: &[u8; 32],
        cert: *const u8,
        cert_len: tb_size,
        seed: &[u8; 32],
        midp: u64,
        radi: u32,
        rows: *mut u8,
        rows_len: tb_size,
        out: *mut u8,
        out_len: tb_size,
        room: tb_size,
        out_lengths: *mut u32,
        out_lengths_len: tb_size,
    ) -> tb_batch;

    /// Whether a signature of a text verifies under a key.
    pub fn tb_verify(
        key: *const u8,
        key_len: tb_size,
        text: *const u8,
        text_len: tb_size,
        signature: *const u8,
        signature_len: tb_size,
    ) -> bool;
    /// The same of a text in two parts.
    pub fn tb_verify_parts(
        key: *const u8,
        key_len: tb_size,
        context: *const u8,
        context_len: tb_size,
        value: *const u8,
        value_len: tb_size,
        signature: *const u8,
        signature_len: tb_size,
    ) -> bool;

    /// The public key of a seed.
    pub fn tb_public_key(seed: &[u8; 32], out: &mut [u8; 32]);
    /// The signature of a text.
    pub fn tb_sign(seed: &[u8; 32], text: *const u8, text_len: tb_size, out: &mut [u8; 64]);
    /// The same of a text in two parts.
    pub fn tb_sign_parts(
        seed: &[u8; 32],
        context: *const u8,
        context_len: tb_size,
        value: *const u8,
        value_len: tb_size,
        out: &mut [u8; 64],
    );

    /// Takes out of a response what is verified.
    pub fn tb_signed_parts(packet: *const u8, packet_len: tb_size) -> tb_parts;
    /// Writes the text that the delegation signs.
    pub fn tb_delegation_text(
        packet: *const u8,
        packet_len: tb_size,
        out: *mut u8,
        out_len: tb_size,
    ) -> tb_wrote;
    /// Writes the text that the response signs.
    pub fn tb_response_text(
        packet: *const u8,
        packet_len: tb_size,
        out: *mut u8,
        out_len: tb_size,
    ) -> tb_wrote;
    /// Checks a response. Of the two answers 1 is yes, and every other number is no.
    pub fn tb_check_response(
        request: *const u8,
        request_len: tb_size,
        response: *const u8,
        response_len: tb_size,
        delegation: u32,
        signature: u32,
    ) -> tb_verdict;
    /// Whether the two signatures of a response verify: the delegation's, then the response's own.
    pub fn tb_answers(
        key: &[u8; 32],
        response: *const u8,
        response_len: tb_size,
        out: &mut [u8; 2],
    );
    /// Checks a response, and verifies its signatures.
    pub fn tb_check_signed(
        key: &[u8; 32],
        request: *const u8,
        request_len: tb_size,
        response: *const u8,
        response_len: tb_size,
    ) -> tb_verdict;
    /// Whether the window of an answer may still be used at a time.
    pub fn tb_may_use_fields(code: u32, maxt: u64, time: u64) -> bool;
    /// Whether two answers come from one delegation: PUBK, MINT and MAXT are compared, and the
    /// long-term keys are the caller's to compare.
    pub fn tb_same_delegation_fields(
        first_code: u32,
        first_pubk: &[u8; 32],
        first_mint: u64,
        first_maxt: u64,
        second_code: u32,
        second_pubk: &[u8; 32],
        second_mint: u64,
        second_maxt: u64,
    ) -> bool;

    /// Whether a path leads from a leaf to a root.
    pub fn tb_leads(
        leaf: &[u8; 32],
        indx: u32,
        path: *const u8,
        path_len: tb_size,
        root: &[u8; 32],
    ) -> bool;
    /// The root of a tree.
    pub fn tb_root(leaves: *const u8, leaves_len: tb_size) -> tb_rooted;
    /// Writes the path of a leaf.
    pub fn tb_path(
        leaves: *const u8,
        leaves_len: tb_size,
        place: tb_size,
        out: *mut u8,
        out_len: tb_size,
    ) -> tb_placed;
    /// Writes all rows of a tree.
    pub fn tb_rows(
        leaves: *const u8,
        leaves_len: tb_size,
        out: *mut u8,
        out_len: tb_size,
    ) -> tb_laid;
    /// Writes the path of a leaf as it stands in rows.
    pub fn tb_path_from(
        rows: *const u8,
        rows_len: tb_size,
        count: tb_size,
        place: tb_size,
        out: *mut u8,
        out_len: tb_size,
    ) -> tb_placed;

    /// Looks a server up.
    pub fn tb_find_server(
        owner: *const u8,
        owner_len: tb_size,
        shipped: *const u8,
        shipped_len: tb_size,
        srv: &[u8; 32],
    ) -> tb_found;

    /// Reads a list of servers as JSON into records.
    pub fn tb_read_servers(
        text: *const u8,
        text_len: tb_size,
        out: *mut u8,
        out_len: tb_size,
    ) -> tb_servers;
    /// Writes the name of a server of such a list.
    pub fn tb_server_name(
        text: *const u8,
        text_len: tb_size,
        place: tb_size,
        out: *mut u8,
        out_len: tb_size,
    ) -> tb_wrote;
    /// Writes an address of such a server.
    pub fn tb_server_address(
        text: *const u8,
        text_len: tb_size,
        place: tb_size,
        which: tb_size,
        out: *mut u8,
        out_len: tb_size,
    ) -> tb_addressed;
    /// Writes one of the places where newer lists are.
    pub fn tb_list_source(
        text: *const u8,
        text_len: tb_size,
        place: tb_size,
        out: *mut u8,
        out_len: tb_size,
    ) -> tb_wrote;
    /// Writes where reports are sent to.
    pub fn tb_list_reports(
        text: *const u8,
        text_len: tb_size,
        out: *mut u8,
        out_len: tb_size,
    ) -> tb_wrote;
    /// Writes the object of one server of a list as JSON.
    pub fn tb_write_server(
        name: *const u8,
        name_len: tb_size,
        version: u32,
        key: &[u8; 32],
        addresses: *const u8,
        addresses_len: tb_size,
        out: *mut u8,
        out_len: tb_size,
    ) -> tb_wrote;
    /// Writes a list of servers as JSON.
    pub fn tb_write_servers(
        keys: *const u8,
        keys_len: tb_size,
        versions: *const u32,
        versions_len: tb_size,
        names: *const u8,
        names_len: tb_size,
        name_lengths: *const u32,
        name_lengths_len: tb_size,
        addresses: *const u8,
        addresses_len: tb_size,
        address_lengths: *const u32,
        address_lengths_len: tb_size,
        sources: *const u8,
        sources_len: tb_size,
        reports: *const u8,
        reports_len: tb_size,
        out: *mut u8,
        out_len: tb_size,
    ) -> tb_wrote;

    /// Code 15 of a pile and its answers, or 0.
    pub fn tb_pile_code(
        pile: *const u8,
        pile_len: tb_size,
        answers: *const u8,
        answers_len: tb_size,
    ) -> u32;
    /// Judges a record of a pile.
    pub fn tb_judge(
        pile: *const u8,
        pile_len: tb_size,
        answers: *const u8,
        answers_len: tb_size,
        place: tb_size,
    ) -> tb_judged;
    /// Whether a record of a pile is linked to the one before it.
    pub fn tb_linked(pile: *const u8, pile_len: tb_size, place: tb_size) -> bool;
    /// Whether the first rand of a pile is all zero.
    pub fn tb_first_rand_zero(pile: *const u8, pile_len: tb_size) -> bool;
    /// Whether two windows contradict each other: true is yes.
    pub fn tb_contradicts(
        earlier_midp: u64,
        earlier_radi: u32,
        later_midp: u64,
        later_radi: u32,
    ) -> bool;
    /// Whether two valid records of a pile contradict each other: 0 is yes, 18 no, and 15 says that
    /// it is no pile.
    pub fn tb_pile_contradicts(
        pile: *const u8,
        pile_len: tb_size,
        answers: *const u8,
        answers_len: tb_size,
    ) -> u32;
    /// Before any window.
    pub fn tb_tally_start_field(most: &mut u64);
    /// Takes one window more: whether an earlier one contradicts it.
    pub fn tb_tally_take_field(most: &mut u64, midp: u64, radi: u32) -> bool;
    /// Checks whether a pile is a report.
    pub fn tb_check_report(
        pile: *const u8,
        pile_len: tb_size,
        answers: *const u8,
        answers_len: tb_size,
    ) -> tb_reported;
    /// Writes the run of a pile that convicts by itself.
    pub fn tb_cut_run(
        pile: *const u8,
        pile_len: tb_size,
        answers: *const u8,
        answers_len: tb_size,
        out: *mut u8,
        out_len: tb_size,
    ) -> tb_cut;
    /// Judges a record of a pile by its own signatures.
    pub fn tb_judge_signed(pile: *const u8, pile_len: tb_size, place: tb_size) -> tb_judged;
    /// Checks whether a pile is a report by its own signatures.
    pub fn tb_check_signed_report(pile: *const u8, pile_len: tb_size) -> tb_reported;
    /// Writes the run of a pile that convicts by its own signatures.
    pub fn tb_cut_signed_run(
        pile: *const u8,
        pile_len: tb_size,
        out: *mut u8,
        out_len: tb_size,
    ) -> tb_cut;

    /// Reads a report as JSON into records.
    pub fn tb_read_report(
        text: *const u8,
        text_len: tb_size,
        out: *mut u8,
        out_len: tb_size,
    ) -> tb_records;
    /// Writes a pile that is a report as JSON.
    pub fn tb_write_report(
        pile: *const u8,
        pile_len: tb_size,
        answers: *const u8,
        answers_len: tb_size,
        out: *mut u8,
        out_len: tb_size,
    ) -> tb_published;
    /// Writes a pile that is a report by its own signatures as JSON.
    pub fn tb_write_signed_report(
        pile: *const u8,
        pile_len: tb_size,
        out: *mut u8,
        out_len: tb_size,
    ) -> tb_published;
    /// Reads a report as JSON, and writes the run of it that convicts by itself.
    pub fn tb_cut_text(
        text: *const u8,
        text_len: tb_size,
        answers: *const u8,
        answers_len: tb_size,
        out: *mut u8,
        out_len: tb_size,
    ) -> tb_forwarded;
    /// The same by its own signatures.
    pub fn tb_cut_signed_text(
        text: *const u8,
        text_len: tb_size,
        out: *mut u8,
        out_len: tb_size,
    ) -> tb_forwarded;

    /// Starts a walk: 0, 31 or 19.
    pub fn tb_walk_start_fields(
        keys: &mut [u8; 256],
        count: &mut u64,
        step: &mut u64,
        nonce: &mut [u8; 32],
        rand: &mut [u8; 32],
        last: &mut u64,
        most: &mut u64,
        servers: *const u8,
        servers_len: tb_size,
        first: &[u8; 32],
        longest: u64,
        pile: *const u8,
        pile_len: tb_size,
    ) -> u32;
    /// Writes the request that is asked next.
    pub fn tb_walk_ask_fields(
        keys: &[u8; 256],
        count: u64,
        step: u64,
        nonce: &[u8; 32],
        rand: &[u8; 32],
        last: u64,
        most: u64,
        out: *mut u8,
        out_len: tb_size,
    ) -> tb_asked;
    /// Takes the response to it. Of the two answers 1 is yes, and every other number is no.
    pub fn tb_walk_take_fields(
        keys: &[u8; 256],
        count: u64,
        step: &mut u64,
        nonce: &mut [u8; 32],
        rand: &mut [u8; 32],
        last: &mut u64,
        most: u64,
        delegation: u32,
        signature: u32,
        sent: u64,
        received: u64,
        next: &[u8; 32],
        response: *const u8,
        response_len: tb_size,
        pile: *mut u8,
        pile_len: tb_size,
    ) -> tb_took;
    /// The same with no answers lent: the signatures are verified under the key of the server that
    /// is asked.
    pub fn tb_walk_take_signed_fields(
        keys: &[u8; 256],
        count: u64,
        step: &mut u64,
        nonce: &mut [u8; 32],
        rand: &mut [u8; 32],
        last: &mut u64,
        most: u64,
        sent: u64,
        received: u64,
        next: &[u8; 32],
        response: *const u8,
        response_len: tb_size,
        pile: *mut u8,
        pile_len: tb_size,
    ) -> tb_took;

    /// Starts a clock: 0 or 32.
    pub fn tb_clock_start_fields(
        drift: &mut u32,
        low: &mut [u64; 16],
        high: &mut [u64; 16],
        maxt: &mut [u64; 16],
        sent: &mut [u64; 16],
        received: &mut [u64; 16],
        bound: u32,
    ) -> u32;
    /// Takes the window of a server: 0, 32 or 26.
    pub fn tb_clock_take_fields(
        drift: u32,
        low: &mut [u64; 16],
        high: &mut [u64; 16],
        maxt: &mut [u64; 16],
        sent: &mut [u64; 16],
        received: &mut [u64; 16],
        server: u64,
        window_low: u64,
        window_high: u64,
        window_maxt: u64,
        window_sent: u64,
        window_received: u64,
    ) -> u32;
    /// The time at a moment.
    pub fn tb_clock_now_fields(
        drift: u32,
        low: &[u64; 16],
        high: &[u64; 16],
        maxt: &[u64; 16],
        sent: &[u64; 16],
        received: &[u64; 16],
        moment: u64,
        liars: u64,
    ) -> tb_time;

    /// The window of a stamp of the 2021 draft.
    pub fn tb_old_window(midp: u64, radi: u32) -> tb_old;
}
