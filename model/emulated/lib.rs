//! The model's reader for callers in C: what accepting gives, as the proved library packs it.

#[allow(dead_code)]
#[path = "../src/plan.rs"]
mod plan;
#[allow(dead_code)]
#[path = "../src/reader.rs"]
mod reader;

use reader::{Plan, read_into};
use std::cell::RefCell;

thread_local! {
    static PLAN: RefCell<Plan> = RefCell::new(Plan::default());
}

/// # Safety
/// `bytes` are `length` bytes.
#[unsafe(no_mangle)]
pub unsafe extern "C" fn model_accept(bytes: *const u8, length: usize) -> u64 {
    let bytes = unsafe { std::slice::from_raw_parts(bytes, length) };
    PLAN.with_borrow_mut(|plan| match read_into(bytes, plan) {
        Ok(()) => plan.count() as u64,
        Err(refusal) => u64::from(refusal.number) << 32 | u64::from(refusal.place),
    })
}
