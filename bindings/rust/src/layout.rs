//! The bytes of a state: offsets, sizes, and how many there are at most of what there are several. All numbers have their least byte first; the
//! offsets in a message and in an order count from its first byte.
#![allow(missing_docs)]
// layout: written by tools/layout from data/layout.txt
pub const MARK: &[u8; 8] = b"MOONHAL4";
pub const TALLY_STARTED: usize = 8;
pub const TALLY_WELL: usize = 12;
pub const TALLY_HANDLED: usize = 16;
pub const TALLY_FAILED: usize = 20;
pub const TALLY_LEFT: usize = 24;
pub const PLAN_LENGTH: usize = 28;
pub const PLAN: usize = 36;
pub const WAITING: usize = 4132;
pub const MESSAGES: usize = 4140;
pub const MESSAGES_MOST: usize = 64;
pub const ORDERS: usize = 6188;
pub const ORDERS_MOST: usize = 16;
pub const STATE: usize = 12748;
pub const MESSAGE_PARTNER: usize = 0;
pub const MESSAGE_OPERATION: usize = 4;
pub const MESSAGE_COUNT: usize = 8;
pub const MESSAGE_VALUES: usize = 12;
pub const MESSAGE_VALUES_MOST: usize = 4;
pub const MESSAGE_REPLY: usize = 28;
pub const MESSAGE: usize = 32;
pub const ORDER_ROOT: usize = 0;
pub const ORDER_MARKS: usize = 1;
pub const ORDER_MARKS_MOST: usize = 256;
pub const ORDER_VALUES: usize = 257;
pub const ORDER_VALUES_MOST: usize = 16;
pub const ORDER_BOUND: usize = 321;
pub const ORDER_BOUND_MOST: usize = 16;
pub const ORDER_REMEMBERED: usize = 337;
pub const ORDER_REMEMBERED_MOST: usize = 32;
pub const ORDER_KEPT: usize = 401;
pub const ORDER_CAUSE: usize = 409;
pub const ORDER: usize = 410;
pub const CLOSING_SCOPE: usize = 0;
pub const CLOSING_PART: usize = 1;
pub const CLOSING: usize = 2;
// layout end
