//! The C layer as `include/cftree.h` has it; `.ci/shapes` holds both against the library's own text. Every `unsafe` of the
//! crate is here: a slice is passed as its pointer and its length, and the library reads and writes nothing else.

use crate::head::Head;
use crate::lent::Lent;

#[repr(C)]
pub struct Answer {
    pub first: u64,
    pub second: u64,
    pub number: u32,
}

#[repr(C)]
pub struct Outcome {
    pub head: Head,
    pub answer: Answer,
}

#[repr(C)]
pub struct Listing {
    pub answer: Answer,
    pub entries: u64,
    pub first: u64,
    pub width: u64,
    pub means: u64,
    pub deviations: u64,
}

// Structs cross by value, so both sides have to lay them out alike.
const _: () = assert!(core::mem::size_of::<Head>() == 96);
const _: () = assert!(core::mem::size_of::<Answer>() == 24);
const _: () = assert!(core::mem::size_of::<Outcome>() == 120);
const _: () = assert!(core::mem::size_of::<Listing>() == 64);

extern "C" {
    fn cftree_version() -> u32;
    fn cftree_floats_needed(head: Head) -> u64;
    fn cftree_links_needed(head: Head) -> u64;
    fn cftree_scratch_floats_needed(head: Head) -> u64;
    fn cftree_scratch_links_needed(head: Head) -> u64;
    fn cftree_create(
        head: Head,
        floats: *mut f64,
        floats_len: usize,
        links: *mut u32,
        links_len: usize,
    ) -> Outcome;
    fn cftree_validate(
        head: Head,
        floats: *const f64,
        floats_len: usize,
        links: *const u32,
        links_len: usize,
    ) -> Answer;
    fn cftree_entries(
        head: Head,
        floats: *const f64,
        floats_len: usize,
        links: *const u32,
        links_len: usize,
    ) -> Listing;
    fn cftree_route(
        head: Head,
        floats: *const f64,
        floats_len: usize,
        links: *const u32,
        links_len: usize,
        rows: *const f64,
        rows_len: usize,
        out: *mut u32,
        out_len: usize,
    ) -> Answer;
    fn cftree_spread(
        head: Head,
        floats: *const f64,
        floats_len: usize,
        links: *const u32,
        links_len: usize,
        out: *mut f64,
        out_len: usize,
    ) -> Answer;
}

/// A call that changes the tree: head, floats, links, scratch of both kinds, rows.
type Change = unsafe extern "C" fn(
    Head,
    *mut f64,
    usize,
    *mut u32,
    usize,
    *mut f64,
    usize,
    *mut u32,
    usize,
    *const f64,
    usize,
) -> Outcome;

macro_rules! changing {
    ($($name:ident($rows:ident, $rows_len:ident))*) => {
        extern "C" {
            $(fn $name(
                head: Head,
                floats: *mut f64,
                floats_len: usize,
                links: *mut u32,
                links_len: usize,
                scratch_floats: *mut f64,
                scratch_floats_len: usize,
                scratch_links: *mut u32,
                scratch_links_len: usize,
                $rows: *const f64,
                $rows_len: usize,
            ) -> Outcome;)*
        }
    };
}

changing! {
    cftree_insert_row(row, row_len)
    cftree_insert_batch(rows, rows_len)
    cftree_refit(rows, rows_len)
}

pub fn version() -> u32 {
    // SAFETY: the call takes nothing.
    unsafe { cftree_version() }
}

pub fn floats_needed(head: Head) -> u64 {
    // SAFETY: the call takes numbers only.
    unsafe { cftree_floats_needed(head) }
}

pub fn links_needed(head: Head) -> u64 {
    // SAFETY: as above.
    unsafe { cftree_links_needed(head) }
}

pub fn scratch_floats_needed(head: Head) -> u64 {
    // SAFETY: as above.
    unsafe { cftree_scratch_floats_needed(head) }
}

pub fn scratch_links_needed(head: Head) -> u64 {
    // SAFETY: as above.
    unsafe { cftree_scratch_links_needed(head) }
}

pub fn create(head: Head, floats: &mut [f64], links: &mut [u32]) -> Outcome {
    // SAFETY: each pointer goes with its slice's length, and the slices are exclusive.
    unsafe {
        cftree_create(
            head,
            floats.as_mut_ptr(),
            floats.len(),
            links.as_mut_ptr(),
            links.len(),
        )
    }
}

fn change(call: Change, head: Head, lent: Lent, rows: &[f64]) -> Outcome {
    // SAFETY: each pointer goes with its slice's length, and the slices that are written are exclusive.
    unsafe {
        call(
            head,
            lent.floats.as_mut_ptr(),
            lent.floats.len(),
            lent.links.as_mut_ptr(),
            lent.links.len(),
            lent.scratch_floats.as_mut_ptr(),
            lent.scratch_floats.len(),
            lent.scratch_links.as_mut_ptr(),
            lent.scratch_links.len(),
            rows.as_ptr(),
            rows.len(),
        )
    }
}

pub fn insert_row(head: Head, lent: Lent, row: &[f64]) -> Outcome {
    change(cftree_insert_row, head, lent, row)
}

pub fn insert_batch(head: Head, lent: Lent, rows: &[f64]) -> Outcome {
    change(cftree_insert_batch, head, lent, rows)
}

pub fn refit(head: Head, lent: Lent, rows: &[f64]) -> Outcome {
    change(cftree_refit, head, lent, rows)
}

pub fn validate(head: Head, floats: &[f64], links: &[u32]) -> Answer {
    // SAFETY: each pointer goes with its slice's length, and nothing is written.
    unsafe {
        cftree_validate(
            head,
            floats.as_ptr(),
            floats.len(),
            links.as_ptr(),
            links.len(),
        )
    }
}

pub fn entries(head: Head, floats: &[f64], links: &[u32]) -> Listing {
    // SAFETY: as above.
    unsafe {
        cftree_entries(
            head,
            floats.as_ptr(),
            floats.len(),
            links.as_ptr(),
            links.len(),
        )
    }
}

pub fn route(head: Head, floats: &[f64], links: &[u32], rows: &[f64], out: &mut [u32]) -> Answer {
    // SAFETY: each pointer goes with its slice's length, and the output is exclusive.
    unsafe {
        cftree_route(
            head,
            floats.as_ptr(),
            floats.len(),
            links.as_ptr(),
            links.len(),
            rows.as_ptr(),
            rows.len(),
            out.as_mut_ptr(),
            out.len(),
        )
    }
}

pub fn spread(head: Head, floats: &[f64], links: &[u32], out: &mut [f64]) -> Answer {
    // SAFETY: each pointer goes with its slice's length, and the output is exclusive.
    unsafe {
        cftree_spread(
            head,
            floats.as_ptr(),
            floats.len(),
            links.as_ptr(),
            links.len(),
            out.as_mut_ptr(),
            out.len(),
        )
    }
}
