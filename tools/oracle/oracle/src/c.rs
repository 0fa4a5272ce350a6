//! The C face of the oracle, for tools/reference.py and bench/. Slices come as a pointer and a length; a length of 0
//! may come with any pointer. The caller hands over only screens that checking accepts.

use crate::aexpr::AExpr;
use crate::{merge, passes, prepare, rewrite, Outcome, Pools};
use polars_utils::arena::Arena;
use std::slice;

unsafe fn bytes<'a>(at: *const u8, len: usize) -> &'a [u8] {
    if len == 0 {
        &[]
    } else {
        slice::from_raw_parts(at, len)
    }
}

unsafe fn values(at: *const u8, len: usize) -> Vec<i64> {
    bytes(at, len).chunks_exact(8).map(|v| i64::from_le_bytes(v.try_into().unwrap())).collect()
}

/// Rewrites a checked screen. Answers 0 unchanged, 1 nothing passes, 2 rewritten, or -1 if `room` bytes at `added`
/// cannot hold the added records; with 1 and 2 these are written there, their length to `added_len` and the new root to
/// `new_root`. `difference` applies the one intended difference (docs/DIFFERENCES.md).
///
/// # Safety
/// The slices hold as many bytes as said; the three out-parameters are valid.
#[no_mangle]
pub unsafe extern "C" fn oracle_rewrite(
    records: *const u8,
    records_len: usize,
    pool: *const u8,
    pool_len: usize,
    text: *const u8,
    text_len: usize,
    root: usize,
    difference: bool,
    added: *mut u8,
    room: usize,
    added_len: *mut usize,
    new_root: *mut usize,
) -> i32 {
    let used = records_len / 16;
    let values = values(pool, pool_len);
    let pools = Pools { values: &values, text: bytes(text, text_len) };
    let (answer, at, made) = match rewrite(bytes(records, records_len), pools, root, difference) {
        Outcome::Unchanged => return 0,
        Outcome::NothingPasses => {
            let mut literal = [0; 16];
            (literal[0], literal[2]) = (2, 3);
            (1, used, vec![literal])
        }
        Outcome::Rewritten { root, added } => (2, root, added),
    };
    if made.len() * 16 > room {
        return -1;
    }
    let written = slice::from_raw_parts_mut(added, room);
    for (place, record) in written.chunks_exact_mut(16).zip(&made) {
        place.copy_from_slice(record);
    }
    *added_len = made.len() * 16;
    *new_root = at;
    answer
}

/// The rounds of `propagate_equalities`, of a checked screen that has an equality.
///
/// # Safety
/// The slices hold as many bytes as said.
#[no_mangle]
pub unsafe extern "C" fn oracle_passes(
    records: *const u8,
    records_len: usize,
    pool: *const u8,
    pool_len: usize,
    text: *const u8,
    text_len: usize,
    root: usize,
) -> u64 {
    let values = values(pool, pool_len);
    passes(bytes(records, records_len), Pools { values: &values, text: bytes(text, text_len) }, root)
}

/// A screen read into the Rust's arena once, for timing.
pub struct Prepared {
    arena: Arena<AExpr>,
    used: usize,
}

/// # Safety
/// As for `oracle_rewrite`. The answer is freed by `oracle_free`.
#[no_mangle]
pub unsafe extern "C" fn oracle_prepare(
    records: *const u8,
    records_len: usize,
    pool: *const u8,
    pool_len: usize,
    text: *const u8,
    text_len: usize,
) -> *mut Prepared {
    let values = values(pool, pool_len);
    let arena = prepare(bytes(records, records_len), Pools { values: &values, text: bytes(text, text_len) });
    Box::into_raw(Box::new(Prepared { arena, used: records_len / 16 }))
}

/// The merging alone. Answers whether the screen changed; what was added is dropped again, so that it can be repeated.
///
/// # Safety
/// `prepared` comes from `oracle_prepare` and is not freed.
#[no_mangle]
pub unsafe extern "C" fn oracle_merge(prepared: *mut Prepared, root: usize) -> bool {
    let prepared = &mut *prepared;
    let changed = merge(&mut prepared.arena, root).is_some();
    prepared.arena.0.truncate(prepared.used);
    changed
}

/// # Safety
/// `prepared` comes from `oracle_prepare` and is not used again.
#[no_mangle]
pub unsafe extern "C" fn oracle_free(prepared: *mut Prepared) {
    drop(Box::from_raw(prepared));
}
