//! The only unsafe code here: the proved library's functions, and a thread on a painted stack.

use crate::state::Message;
use std::ffi::{c_int, c_ulong, c_void};

#[allow(improper_ctypes)]
unsafe extern "C" {
    fn moonhalyard_accept(bytes: *const u8, len: usize) -> u64;
    fn moonhalyard_show(bytes: *const u8, len: usize, k: u32) -> u64;
    fn moonhalyard_load(plan: *const u8, n: usize, state: *mut u8, size: usize) -> u64;
    fn moonhalyard_post(
        state: *mut u8,
        size: usize,
        partner: u32,
        operation: u32,
        count: u32,
        v0: u32,
        v1: u32,
        v2: u32,
        v3: u32,
        reply: u32,
    ) -> u32;
    fn moonhalyard_collect(state: *mut u8, size: usize, message: *mut u8, room: usize) -> u32;
    fn moonhalyard_offer(state: *const u8, size: usize, choice: u64) -> u64;
    fn moonhalyard_offers(state: *const u8, size: usize) -> u64;
    fn moonhalyard_step(state: *mut u8, size: usize, choice: u64) -> u64;
    fn moonhalyard_run(
        state: *mut u8,
        size: usize,
        choices: *const u64,
        many: usize,
        budget: *mut u64,
    ) -> u32;

    fn pthread_attr_init(attributes: *mut Attributes) -> c_int;
    fn pthread_attr_setstack(attributes: *mut Attributes, stack: *mut c_void, size: usize)
    -> c_int;
    fn pthread_attr_destroy(attributes: *mut Attributes) -> c_int;
    fn pthread_create(
        thread: *mut c_ulong,
        attributes: *const Attributes,
        run: extern "C" fn(*mut c_void) -> *mut c_void,
        with: *mut c_void,
    ) -> c_int;
    fn pthread_join(thread: c_ulong, answer: *mut *mut c_void) -> c_int;
}

/// Accepts a plan: refusal * 2^32 + place, or the number of activities and arms.
pub fn accept(bytes: &[u8]) -> u64 {
    // The library only reads these bytes, and keeps none of them.
    unsafe { moonhalyard_accept(bytes.as_ptr(), bytes.len()) }
}

/// Shows activity k: refusal * 2^48 + start * 2^24 + length.
pub fn show(bytes: &[u8], k: u32) -> u64 {
    // As above.
    unsafe { moonhalyard_show(bytes.as_ptr(), bytes.len(), k) }
}

// The engine's calls, as `packed` has them. The library reads and writes only what it is lent here, and keeps none of it.

pub fn load(plan: &[u8], state: &mut [u8]) -> u64 {
    unsafe { moonhalyard_load(plan.as_ptr(), plan.len(), state.as_mut_ptr(), state.len()) }
}

pub fn post(state: &mut [u8], message: Message) -> u32 {
    let Message {
        partner,
        operation,
        count,
        values: [a, b, c, d],
        reply,
    } = message;
    unsafe {
        let size = state.len();
        moonhalyard_post(
            state.as_mut_ptr(),
            size,
            partner,
            operation,
            count,
            a,
            b,
            c,
            d,
            reply,
        )
    }
}

pub fn collect(state: &mut [u8], message: &mut [u8]) -> u32 {
    unsafe {
        let (size, room) = (state.len(), message.len());
        moonhalyard_collect(state.as_mut_ptr(), size, message.as_mut_ptr(), room)
    }
}

pub fn offer(state: &[u8], choice: u64) -> u64 {
    unsafe { moonhalyard_offer(state.as_ptr(), state.len(), choice) }
}

pub fn offers(state: &[u8]) -> u64 {
    unsafe { moonhalyard_offers(state.as_ptr(), state.len()) }
}

pub fn step(state: &mut [u8], choice: u64) -> u64 {
    unsafe { moonhalyard_step(state.as_mut_ptr(), state.len(), choice) }
}

pub fn run(state: &mut [u8], choices: &[u64], budget: &mut u64) -> u32 {
    unsafe {
        let size = state.len();
        moonhalyard_run(
            state.as_mut_ptr(),
            size,
            choices.as_ptr(),
            choices.len(),
            budget,
        )
    }
}

/// Room for a pthread_attr_t (64 bytes at most on 64-bit Linux).
#[repr(C, align(16))]
struct Attributes([u8; 256]);

/// One page, so that the stack begins and ends on a page.
#[repr(C, align(4096))]
#[derive(Clone, Copy)]
struct Page([u64; 512]);

/// The size of the stack that is painted.
pub const STACK: usize = 256 * 1024;
const PAINT: u64 = 0xA5C3_5A3C_A5C3_5A3C;
/// The painter's own frame; what is used less deep than this isn't told apart.
const MARGIN: usize = 256;

/// A stack to be used again.
pub struct PaintedStack {
    pages: Vec<Page>,
}

struct Job<'a> {
    bottom: *mut u64,
    work: &'a mut dyn FnMut() -> u64,
    answer: u64,
    used: usize,
}

impl PaintedStack {
    pub fn new() -> PaintedStack {
        PaintedStack {
            pages: vec![Page([0; 512]); STACK / 4096],
        }
    }

    /// Runs `work` on this stack. Answers what it gives and how many bytes of stack it wrote
    /// below its caller, to the lowest. `work` must fit: this stack has no guard.
    pub fn run(&mut self, work: &mut dyn FnMut() -> u64) -> (u64, usize) {
        let bottom = self.pages.as_mut_ptr().cast::<u64>();
        let mut job = Job {
            bottom,
            work,
            answer: 0,
            used: 0,
        };
        // The thread ends before `job` and the pages do, and nothing else uses them meanwhile.
        unsafe {
            let mut attributes = Attributes([0; 256]);
            let mut thread = 0;
            assert_eq!(pthread_attr_init(&mut attributes), 0);
            assert_eq!(
                pthread_attr_setstack(&mut attributes, bottom.cast(), STACK),
                0
            );
            assert_eq!(
                pthread_create(
                    &mut thread,
                    &attributes,
                    on_painted_stack,
                    (&raw mut job).cast()
                ),
                0
            );
            assert_eq!(pthread_join(thread, std::ptr::null_mut()), 0);
            assert_eq!(pthread_attr_destroy(&mut attributes), 0);
        }
        (job.answer, job.used)
    }
}

impl Default for PaintedStack {
    fn default() -> Self {
        PaintedStack::new()
    }
}

/// Paints all the stack below this frame, does the work, and looks for the lowest word changed.
extern "C" fn on_painted_stack(job: *mut c_void) -> *mut c_void {
    // Only words of the job's own stack are written, all of them below what is in use.
    unsafe {
        let job = &mut *job.cast::<Job>();
        let here = 0u64;
        let top = std::hint::black_box(&raw const here) as usize;
        let words = (top - MARGIN - job.bottom as usize) / 8;
        for at in 0..words {
            job.bottom.add(at).write_volatile(PAINT);
        }
        job.answer = (job.work)();
        let mut lowest = 0;
        while lowest < words && job.bottom.add(lowest).read_volatile() == PAINT {
            lowest += 1;
        }
        job.used = top - (job.bottom as usize + 8 * lowest);
    }
    std::ptr::null_mut()
}
