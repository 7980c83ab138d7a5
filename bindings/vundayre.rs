//! The timing check of Vundayre, for Rust of edition 2024 or 2021. Link with libvundayre.a (`tools/build vundayre`) of the same version: the
//! layout below is no other version's.

// a program may use a part of this
#![allow(dead_code)]

/// An answer buffer of this many bytes suffices for every table; a shorter one is refused with number 1.
pub const ANSWER_BYTES: usize = 5120;

/// A thread with a stack of this many bytes can analyse every table, join and preview any two and hide any port (`bench/run` tries it out; it is not
/// proved; none recurses). With rattle-kit-13f the frames of the analysis take 72,800 of them, those of the join 11,240, of the preview
/// 72,832 and of hiding 72,960.
pub const STACK_BYTES: usize = 98_304;

/// A buffer of this many bytes suffices for every joined table and for every table with a hidden port; a shorter one may be refused with number
/// 16.
pub const TABLE_BYTES: usize = 6_656;

#[repr(C)]
struct Outcome {
    number: u64,
    place: usize,
    written: usize,
}

/// What the check says of a table.
pub struct Answer<'a> {
    /// Document 01's number: 0 is consistent; 1 to 15, and 17, periods but no least, are refusals.
    pub number: u64,
    /// Of 2 to 11 the byte of the table at which the faulty record begins, counted from 0; of every other number 0.
    pub place: usize,
    /// What was written at the front of the answer buffer.
    pub records: &'a [u8],
}

#[repr(C)]
struct JoinOutcome {
    number: u64,
    place: usize,
    input: u64,
    written: usize,
}

/// What came of a join.
pub struct Joined<'a> {
    /// 0 is joined; 2 to 11, document 01's numbers, and 16, `out` is shorter than the joined table, are refusals.
    pub number: u64,
    /// Of 2 to 11 the byte at which the faulty record begins, counted from 0 within its own input; of every other number 0.
    pub place: usize,
    /// Of 2 to 11 the input of the faulty record: 1 the first, 2 the second, 3 the added records; of every other number 0.
    pub input: u64,
    /// The joined table, which was written at the front of `out`; of a refusal no bytes.
    pub table: &'a [u8],
}

/// What came of the preview of a join.
pub struct Preview<'a> {
    /// The join's 2 to 11, else what the analysis says of the joined table: 0, 1, 12 to 15 or 17.
    pub number: u64,
    /// Of 2 to 11 the byte at which the faulty record begins, counted from 0 within its own input; of every other number 0.
    pub place: usize,
    /// Of 2 to 11 the input of the faulty record: 1 the first, 2 the second, 3 the added records; of every other number 0.
    pub input: u64,
    /// What was written at the front of the answer buffer.
    pub records: &'a [u8],
}

/// What came of hiding a port.
pub struct Hidden<'a> {
    /// 0 is hidden; 2 to 15 and 17 are what the analysis says of the table. After these are tried 18, the port cannot be hidden, 19, a resulting
    /// value leaves its range, 7, there would be more than 256 connections and buffers, and 16, `out` is shorter than the resulting table.
    pub number: u64,
    /// Of 2 to 11 the byte of the table at which the faulty record begins, counted from 0; of every other number, and of hiding's own 7, 0.
    pub place: usize,
    /// The table without the port, which was written at the front of `out`; of a refusal no bytes.
    pub table: &'a [u8],
}

unsafe extern "C" {
    fn vundayre_analyse(table: *const u8, table_bytes: usize, answer: *mut u8, answer_bytes: usize) -> Outcome;

    fn vundayre_join(
        first: *const u8,
        first_bytes: usize,
        second: *const u8,
        second_bytes: usize,
        added: *const u8,
        added_bytes: usize,
        out: *mut u8,
        out_bytes: usize,
    ) -> JoinOutcome;

    fn vundayre_preview(
        first: *const u8,
        first_bytes: usize,
        second: *const u8,
        second_bytes: usize,
        added: *const u8,
        added_bytes: usize,
        answer: *mut u8,
        answer_bytes: usize,
    ) -> JoinOutcome;

    fn vundayre_hide(table: *const u8, table_bytes: usize, port: u64, out: *mut u8, out_bytes: usize) -> Outcome;
}

type JoinCall = unsafe extern "C" fn(*const u8, usize, *const u8, usize, *const u8, usize, *mut u8, usize) -> JoinOutcome;

/// Calls the join or the preview.
fn call(function: JoinCall, first: &[u8], second: &[u8], added: &[u8], buffer: &mut [u8]) -> JoinOutcome {
    // SAFETY: the pointers of slices are never null, both only read the inputs, and a mutable slice overlaps no shared one.
    unsafe {
        function(
            first.as_ptr(),
            first.len(),
            second.as_ptr(),
            second.len(),
            added.as_ptr(),
            added.len(),
            buffer.as_mut_ptr(),
            buffer.len(),
        )
    }
}

/// Analyses a table, any bytes at all.
///
/// Numbers 1 to 12, 14 and 17 write nothing. The port of a floor that 15 shows is 65535 where the floor is zero, which is so only where no port
/// of the component has a rate (0/0). Bytes of `answer` past the records keep what they held.
pub fn analyse<'a>(table: &[u8], answer: &'a mut [u8]) -> Answer<'a> {
    // SAFETY: the pointers of slices are never null, and a shared and a mutable slice never overlap.
    let outcome = unsafe { vundayre_analyse(table.as_ptr(), table.len(), answer.as_mut_ptr(), answer.len()) };
    Answer { number: outcome.number, place: outcome.place, records: &answer[..outcome.written] }
}

/// Joins the first table, the second and the added connections and buffers, any bytes at all, to one table. The second table's ports are
/// numbered behind the first's; the added records go by the numbers of the joined table.
///
/// A refusal writes nothing. Bytes of `out` past the table keep what they held. The inputs may be one and the same.
pub fn join<'a>(first: &[u8], second: &[u8], added: &[u8], out: &'a mut [u8]) -> Joined<'a> {
    let JoinOutcome { number, place, input, written } = call(vundayre_join, first, second, added, out);
    Joined { number, place, input, table: &out[..written] }
}

/// Previews a join: analyses the table that `join` makes of these inputs, and makes no such table. It equals the join into a buffer of
/// `TABLE_BYTES` and then the analysis of what was written there, refusals and their order included: 2 to 11, of an input, come before 1, and
/// 16 never comes. 13 and 15 may show another loop, floor or block. What is shown has the numbers of the joined table.
///
/// 2 to 11 write nothing, every other number what it writes in the analysis. Bytes of `answer` past the records keep what they held. The inputs
/// may be one and the same.
pub fn preview<'a>(first: &[u8], second: &[u8], added: &[u8], answer: &'a mut [u8]) -> Preview<'a> {
    let JoinOutcome { number, place, input, written } = call(vundayre_preview, first, second, added, answer);
    Preview { number, place, input, records: &answer[..written] }
}

/// Hides a port of a table, any bytes at all: writes the table without it, where each connection into the port and each out of it make one. Later
/// ports are numbered one less. The other ports keep their periods and the starts that are possible for them, of any sign; the starts and sizes
/// that the analysis returns may be others.
///
/// A port that is no port of the table, touches a buffer, joins itself, or lacks a sender or a receiver is refused with number 18. A refusal
/// writes nothing. Bytes of `out` past the table keep what they held.
pub fn hide<'a>(table: &[u8], port: u64, out: &'a mut [u8]) -> Hidden<'a> {
    // SAFETY: the pointers of slices are never null, and a shared and a mutable slice never overlap.
    let outcome = unsafe { vundayre_hide(table.as_ptr(), table.len(), port, out.as_mut_ptr(), out.len()) };
    Hidden { number: outcome.number, place: outcome.place, table: &out[..outcome.written] }
}
