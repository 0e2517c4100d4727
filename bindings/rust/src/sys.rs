//! The functions of the library, as include/moonhalyard.h declares them.

use std::os::raw::c_char;

extern "C" {
    pub fn moonhalyard_version() -> u32;
    pub fn moonhalyard_says(refusal: u32) -> *const c_char;
    pub fn moonhalyard_accept(plan: *const u8, n: usize) -> u64;
    pub fn moonhalyard_show(plan: *const u8, n: usize, k: u32) -> u64;
    pub fn moonhalyard_load(plan: *const u8, n: usize, state: *mut u8, size: usize) -> u64;
    pub fn moonhalyard_upgrade(old: *const u8, n: usize, state: *mut u8, size: usize) -> u32;
    pub fn moonhalyard_seal(bytes: *const u8, n: usize) -> u64;
    #[allow(clippy::too_many_arguments)]
    pub fn moonhalyard_post(state: *mut u8, size: usize, partner: u32, operation: u32, count: u32, v0: u32, v1: u32, v2: u32, v3: u32, reply: u32) -> u32;
    pub fn moonhalyard_collect(state: *mut u8, size: usize, message: *mut u8, room: usize) -> u32;
    pub fn moonhalyard_drop(state: *mut u8, size: usize, place: usize, message: *mut u8, room: usize) -> u32;
    pub fn moonhalyard_offer(state: *const u8, size: usize, choice: u64) -> u64;
    pub fn moonhalyard_offers(state: *const u8, size: usize) -> u64;
    pub fn moonhalyard_list(state: *const u8, size: usize, first: u32, out: *mut u64, room: usize) -> u64;
    pub fn moonhalyard_step(state: *mut u8, size: usize, choice: u64) -> u64;
    pub fn moonhalyard_run(state: *mut u8, size: usize, choices: *const u64, many: usize, budget: *mut u64) -> u32;
    pub fn moonhalyard_tell(state: *mut u8, size: usize, choices: *const u64, many: usize, budget: *mut u64, told: *mut u64, room: usize) -> u32;
    pub fn moonhalyard_text(text: *const u8, n: usize, plan: *mut u8, room: usize) -> u64;
    pub fn moonhalyard_draw(plan: *const u8, n: usize, text: *mut u8, room: usize) -> u64;
    pub fn moonhalyard_write(table: *const u32, numbers: usize, plan: *mut u8, room: usize) -> u64;
    pub fn moonhalyard_rows(plan: *const u8, n: usize, table: *mut u32, room: usize) -> u64;
    pub fn moonhalyard_mend(plan: *const u8, n: usize, out: *mut u8, room: usize) -> u64;
}
