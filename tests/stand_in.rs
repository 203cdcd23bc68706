//! The library's C interface over the brute-force lister itself, so that the comparison can be
//! tried without the proved library. Built as a static library named `exports`.

#[allow(dead_code)]
mod lister;
mod packed;

use lister::{Blame, From, Refusal, COUNTS};
use std::cell::RefCell;
use std::slice;

/// Up to so many atoms in a position every subset of it is tried.
const FEW_UP: u32 = 14;

/// Up to so many atoms in heads every set of them is tried.
const FEW_ATOMS: u32 = 14;

#[no_mangle]
pub unsafe extern "C" fn lucarnecress_list(
    plan: *const u8,
    plan_len: usize,
    table: *mut u64,
    table_len: usize,
    counts: *mut u64,
    counts_len: usize,
) -> u64 {
    if counts_len < COUNTS {
        return 0;
    }
    let outcome = lister::list(slice::from_raw_parts(plan, plan_len), table_len);
    let filled = lister::fill_table(&outcome, slice::from_raw_parts_mut(table, table_len));
    slice::from_raw_parts_mut(counts, COUNTS).copy_from_slice(&filled);
    outcome.map_or_else(Refusal::code, |_| 0)
}

#[no_mangle]
pub unsafe extern "C" fn lucarnecress_judge(plan: *const u8, plan_len: usize, position: u64) -> u64 {
    let plan = slice::from_raw_parts(plan, plan_len);
    if position.count_ones() > FEW_UP {
        // Too many subsets to try: an accepted plan's last list knows.
        if let Ok(listing) = lister::list(plan, lister::TABLE_WORDS) {
            return u64::from(listing.uncut.contains(&position));
        }
    }
    lister::judge(plan, position).map_or_else(Refusal::code, u64::from)
}

#[no_mangle]
pub unsafe extern "C" fn lucarnecress_judge_sheet(
    plan: *const u8,
    plan_len: usize,
    positions: *const u8,
    positions_len: usize,
) -> u64 {
    let plan = slice::from_raw_parts(plan, plan_len);
    let is_settled = |position| match last_list(plan) {
        Some(last) => last.contains(&position),
        None => lister::judge(plan, position) == Ok(true),
    };
    let sheet = slice::from_raw_parts(positions, positions_len);
    lister::judge_sheet(plan, sheet, is_settled).unwrap_or_else(Refusal::code)
}

#[no_mangle]
pub unsafe extern "C" fn lucarnecress_first(plan: *const u8, plan_len: usize, found: *mut u64, found_len: usize) -> u64 {
    let next = next(slice::from_raw_parts(plan, plan_len), From::Start);
    lister::hand_out(next, slice::from_raw_parts_mut(found, found_len))
}

#[no_mangle]
pub unsafe extern "C" fn lucarnecress_next(
    plan: *const u8,
    plan_len: usize,
    position: u64,
    found: *mut u64,
    found_len: usize,
) -> u64 {
    let next = next(slice::from_raw_parts(plan, plan_len), From::Above(position));
    lister::hand_out(next, slice::from_raw_parts_mut(found, found_len))
}

#[no_mangle]
pub unsafe extern "C" fn lucarnecress_first_positions(
    plan: *const u8,
    plan_len: usize,
    found: *mut u64,
    found_len: usize,
    count: *mut u64,
    count_len: usize,
) -> u64 {
    let (found, count) = (slice::from_raw_parts_mut(found, found_len), slice::from_raw_parts_mut(count, count_len));
    many(slice::from_raw_parts(plan, plan_len), From::Start, found, count)
}

#[no_mangle]
pub unsafe extern "C" fn lucarnecress_next_positions(
    plan: *const u8,
    plan_len: usize,
    position: u64,
    found: *mut u64,
    found_len: usize,
    count: *mut u64,
    count_len: usize,
) -> u64 {
    let (found, count) = (slice::from_raw_parts_mut(found, found_len), slice::from_raw_parts_mut(count, count_len));
    many(slice::from_raw_parts(plan, plan_len), From::Above(position), found, count)
}

fn many(plan: &[u8], from: From, found: &mut [u64], count: &mut [u64]) -> u64 {
    lister::hand_out_many(plan, from, |place| next(plan, place).ok().flatten(), found, count)
}

#[no_mangle]
pub unsafe extern "C" fn lucarnecress_missing(
    plan: *const u8,
    plan_len: usize,
    positions: *const u8,
    positions_len: usize,
    found: *mut u64,
    found_len: usize,
) -> u64 {
    let (plan, sheet) = (slice::from_raw_parts(plan, plan_len), slice::from_raw_parts(positions, positions_len));
    let missing = lister::missing(plan, sheet, |place| next(plan, place).ok().flatten());
    lister::hand_out(missing, slice::from_raw_parts_mut(found, found_len))
}

/// The next position of a plan.
fn next(plan: &[u8], from: From) -> Result<Option<u64>, Refusal> {
    let rules = lister::read(plan).map_or(Vec::new(), |plan| plan.rules);
    if lister::head_atoms(&rules).count_ones() > FEW_ATOMS {
        // Many sets to try: an accepted plan's last list knows.
        if let Some(last) = last_list(plan) {
            return Ok(lister::next_of(&last, from));
        }
    }
    lister::next(plan, from)
}

thread_local! {
    /// The plan that was listed last, and its last list: a walk and a sheet ask for one plan again and again.
    static LISTED: RefCell<(Vec<u8>, Option<Vec<u64>>)> = RefCell::default();
}

fn last_list(plan: &[u8]) -> Option<Vec<u64>> {
    LISTED.with(|listed| {
        let mut listed = listed.borrow_mut();
        if listed.0 != plan {
            *listed = (plan.to_vec(), lister::list(plan, lister::TABLE_WORDS).ok().map(|listing| listing.uncut));
        }
        listed.1.clone()
    })
}

#[no_mangle]
pub unsafe extern "C" fn lucarnecress_blame(plan: *const u8, plan_len: usize, found: *mut u64, found_len: usize) -> u64 {
    let blame = blame(slice::from_raw_parts(plan, plan_len));
    lister::hand_blame(blame, slice::from_raw_parts_mut(found, found_len))
}

/// What a plan is blamed on.
fn blame(plan: &[u8]) -> Result<Blame, Refusal> {
    let rules = lister::read(plan).map_or(Vec::new(), |plan| plan.rules);
    if lister::head_atoms(&rules).count_ones() > FEW_ATOMS {
        // Many sets to try: an accepted plan's last list knows its least position.
        if let Some(&position) = last_list(plan).as_ref().and_then(|last| last.first()) {
            return Ok(Blame::Position(position));
        }
    }
    lister::blame(plan)
}

#[no_mangle]
pub unsafe extern "C" fn lucarnecress_sheet(
    plan: *const u8,
    plan_len: usize,
    sheet: *mut u8,
    sheet_len: usize,
) -> u64 {
    let text = lister::sheet(&lister::list(slice::from_raw_parts(plan, plan_len), lister::TABLE_WORDS));
    if text.len() > sheet_len {
        return 0;
    }
    slice::from_raw_parts_mut(sheet, text.len()).copy_from_slice(text.as_bytes());
    text.len() as u64
}

#[no_mangle]
pub extern "C" fn lucarnecress_reading_number(reading: u16) -> u64 {
    packed::number(reading)
}

#[no_mangle]
pub extern "C" fn lucarnecress_reading_of(number: u64) -> u64 {
    packed::reading_of(number)
}

#[no_mangle]
pub extern "C" fn lucarnecress_reading_sum(a: u16, b: u16) -> u64 {
    packed::sum(a, b)
}

#[no_mangle]
pub extern "C" fn lucarnecress_reading_compare(reading: u16, limit: u16) -> u64 {
    packed::compare(reading, limit)
}

#[no_mangle]
pub unsafe extern "C" fn lucarnecress_reading_largest(
    bytes: *const u8,
    bytes_len: usize,
    found: *mut u64,
    found_len: usize,
) -> u64 {
    packed::largest(slice::from_raw_parts(bytes, bytes_len), slice::from_raw_parts_mut(found, found_len))
}

#[no_mangle]
pub unsafe extern "C" fn lucarnecress_count(
    list: *const u64,
    list_len: usize,
    questions: *mut u64,
    questions_len: usize,
) -> u64 {
    let questions = slice::from_raw_parts_mut(questions, questions_len);
    lister::count(slice::from_raw_parts(list, list_len), questions).map_or_else(Refusal::code, |_| 0)
}

#[no_mangle]
pub unsafe extern "C" fn lucarnecress_common(
    list: *const u64,
    list_len: usize,
    atoms: *mut u64,
    atoms_len: usize,
) -> u64 {
    let found = lister::common(slice::from_raw_parts(list, list_len));
    let room = atoms_len.min(found.len());
    slice::from_raw_parts_mut(atoms, room).copy_from_slice(&found[..room]);
    0
}

#[no_mangle]
pub unsafe extern "C" fn lucarnecress_rows(
    list: *const u64,
    list_len: usize,
    count: u64,
    rows: *mut u64,
    rows_len: usize,
) -> u64 {
    let rows = slice::from_raw_parts_mut(rows, rows_len);
    lister::rows(slice::from_raw_parts(list, list_len), count, rows).map_or_else(Refusal::code, |_| 0)
}

#[no_mangle]
pub unsafe extern "C" fn lucarnecress_positions_of_rows(
    rows: *const u64,
    rows_len: usize,
    count: u64,
    list: *mut u64,
    list_len: usize,
) -> u64 {
    let list = slice::from_raw_parts_mut(list, list_len);
    lister::positions_of_rows(slice::from_raw_parts(rows, rows_len), count, list).map_or_else(Refusal::code, |_| 0)
}
