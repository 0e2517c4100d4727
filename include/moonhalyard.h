/* Moonhalyard: a proved order engine, for C, C++ and whatever calls C. docs/EMBEDDING.md has a host, step by step; examples/host.c is one.

   Link with libmoonhalyard (`pkg-config --cflags --libs moonhalyard`), which is for x86-64 Linux and needs nothing but memcpy, memmove and memset.

   A plan is bytes. A state is 12,748 bytes that the caller keeps: it holds the plan, the orders, the messages that wait and the tally. No call
   keeps anything of its own, so a state may be copied, written to a file and read back, and two states have nothing to do with each other.

   Every call answers on every input; there is nothing that a caller must have checked before. What a caller must see to:
   - each pointer is valid for as many bytes (or numbers) as the length beside it says, also where that is 0, for reading and, where it is not const,
     for writing; and no other thread uses them meanwhile;
   - a call takes up to 256 KiB of the calling thread's own stack (moonhalyard_text: 512 KiB). The first thread of a program has some megabytes, and so
     have threads of glibc; those of musl have 128 KiB, and coroutines often less: there, call from a thread that was made with more.
   Buffers of one call that overlap are refused with 18 and left as they are: the header looks, before the call. Who calls past the header, by a pointer
   to a function or from another language, must keep them apart: what happens else is undefined. */
#ifndef MOONHALYARD_H
#define MOONHALYARD_H

#include <stddef.h>
#include <stdint.h>

#ifdef __cplusplus
extern "C" {
#endif

/* The version of this header: 10,000 for each first number, 100 for each second, and the third. The first changes where a host that was built before
   could no longer be linked or run, from the first release on. moonhalyard_version() is that of the library. */
#define MOONHALYARD_VERSION 10000
#define MOONHALYARD_VERSION_TEXT "1.0.0"
uint32_t moonhalyard_version(void);

/* Refusals. For each call 18 comes before 17, and 17 before the others; of the refusals of a plan, 21 comes last. */
enum moonhalyard_refusal {
    MOONHALYARD_DONE = 0,
    MOONHALYARD_PLAN_LONG = 1,     /* plan longer than 4,096 bytes */
    MOONHALYARD_PLAN_SHORT = 2,    /* bytes end before the plan does */
    MOONHALYARD_NUMBER = 3,        /* number not shortest, or too large */
    MOONHALYARD_CODE = 4,          /* unknown version or code */
    MOONHALYARD_VALUE = 5,         /* value or count outside its rule */
    MOONHALYARD_MANY = 6,          /* activity or arm 257, depth 17, or expression depth 9 */
    MOONHALYARD_START = 7,         /* body no start form */
    MOONHALYARD_SCOPE = 8,         /* scope in a fault or undo part */
    MOONHALYARD_AFTER = 9,         /* bytes after the plan */
    MOONHALYARD_NO_STEP = 10,      /* nothing offered, nothing held */
    MOONHALYARD_HELD = 11,         /* nothing offered, something held */
    MOONHALYARD_CHOICE = 12,       /* choice beyond the offer */
    MOONHALYARD_MESSAGE_RULE = 13, /* post: partner, operation, count or partner to reply to outside its rule */
    MOONHALYARD_FULL = 14,         /* post: 64 messages wait */
    MOONHALYARD_NOTHING = 15,      /* collect: no message for a partner that the plan never receives on */
    MOONHALYARD_NO_ACTIVITY = 16,  /* show: no activity k */
    MOONHALYARD_NO_STATE = 17,     /* state without an accepted plan, or with a number outside its limit; or bytes that hold no state */
    MOONHALYARD_ROOM = 18,         /* too little room, or too much (load); or buffers that overlap */
    MOONHALYARD_DISAGREE = 21,     /* receives that disagree: a count that differs from an earlier one for the same partner and operation */
    MOONHALYARD_TEXT = 32          /* moonhalyard_text: 32 and the number of a reason, 33 to 62 */
};

/* A refusal in words, without a full stop, for people to read; never NULL. */
const char *moonhalyard_says(uint32_t refusal);

/* The bytes of a state: offsets, sizes, and how many there are at most of what there are several (data/layout.txt; docs/EMBEDDING.md has them with their
   meaning). All numbers have their least byte first. The offsets in a message count from its first byte, those in an order and in a closing too.

   An order's root and each activity and arm has a mark. The root's: 0 the slot is free, 1 running, 4 faulted, 5 undoing, 6 running its fault part.
   The marks of activities: 0 not begun, or over; 1 awaits its step, but of a sequence or a flow: runs, and of a scope: its body runs; 2 a choose or a repeat
   has decided, or a pick has taken a message, and what stands within runs; and of a scope 3 its body is done and its close awaits its step, 4 faulted and
   waiting for inner scopes, 5 faulted and undoing, 6 running its fault part, 7 stopped and waiting for inner scopes, 8 stopped and undoing. Arms have 0.
   Where the root or a scope is 4, 5 or 6, its mark is that and 16 times which fault part it runs: 1 to 8 the one by number, in the order of the plan; 9 + n
   the general one for a fault n of 0 to 5, and 15 for a fault with a number of the plan's own. 0, as in states that were saved before, is the general one too.
   So ask for `mark & 15`.

   Within its limit is: a plan's length up to 4,096; up to 64 messages that wait, each with a partner, an operation and a partner to reply to up to 63, a
   count of 1 to 4, and 0 in the values beyond it; a mark of those above; bound 0 or 1; up to 32 closings; a cause that
   is the number of a fault.

   Bytes of another length or with another mark in front hold no state: every call but load and upgrade answers 17 for them and leaves them as they
   are. */
/* layout: written by tools/layout from data/layout.txt */
#define MOONHALYARD_MARK "MOONHAL4"
#define MOONHALYARD_TALLY_STARTED 8
#define MOONHALYARD_TALLY_WELL 12
#define MOONHALYARD_TALLY_HANDLED 16
#define MOONHALYARD_TALLY_FAILED 20
#define MOONHALYARD_TALLY_LEFT 24
#define MOONHALYARD_PLAN_LENGTH 28
#define MOONHALYARD_PLAN 36
#define MOONHALYARD_WAITING 4132
#define MOONHALYARD_MESSAGES 4140
#define MOONHALYARD_MESSAGES_MOST 64
#define MOONHALYARD_ORDERS 6188
#define MOONHALYARD_ORDERS_MOST 16
#define MOONHALYARD_STATE 12748
#define MOONHALYARD_MESSAGE_PARTNER 0
#define MOONHALYARD_MESSAGE_OPERATION 4
#define MOONHALYARD_MESSAGE_COUNT 8
#define MOONHALYARD_MESSAGE_VALUES 12
#define MOONHALYARD_MESSAGE_VALUES_MOST 4
#define MOONHALYARD_MESSAGE_REPLY 28
#define MOONHALYARD_MESSAGE 32
#define MOONHALYARD_ORDER_ROOT 0
#define MOONHALYARD_ORDER_MARKS 1
#define MOONHALYARD_ORDER_MARKS_MOST 256
#define MOONHALYARD_ORDER_VALUES 257
#define MOONHALYARD_ORDER_VALUES_MOST 16
#define MOONHALYARD_ORDER_BOUND 321
#define MOONHALYARD_ORDER_BOUND_MOST 16
#define MOONHALYARD_ORDER_REMEMBERED 337
#define MOONHALYARD_ORDER_REMEMBERED_MOST 32
#define MOONHALYARD_ORDER_KEPT 401
#define MOONHALYARD_ORDER_CAUSE 409
#define MOONHALYARD_ORDER 410
#define MOONHALYARD_CLOSING_SCOPE 0
#define MOONHALYARD_CLOSING_PART 1
#define MOONHALYARD_CLOSING 2
/* layout end */

/* Numbers in a state or a message, at an offset: of 4 bytes, and of 8. */
static inline uint32_t moonhalyard_number(const uint8_t *at)
{
    return at[0] | (uint32_t)at[1] << 8 | (uint32_t)at[2] << 16 | (uint32_t)at[3] << 24;
}
static inline uint64_t moonhalyard_long(const uint8_t *at)
{
    return moonhalyard_number(at) | (uint64_t)moonhalyard_number(at + 4) << 32;
}
/* The message at a place of a state, below MOONHALYARD_MESSAGES_MOST, and the order in a slot, below MOONHALYARD_ORDERS_MOST. */
static inline const uint8_t *moonhalyard_message(const uint8_t *state, uint32_t place)
{
    return state + MOONHALYARD_MESSAGES + (size_t)MOONHALYARD_MESSAGE * place;
}
static inline const uint8_t *moonhalyard_order(const uint8_t *state, uint32_t slot)
{
    return state + MOONHALYARD_ORDERS + (size_t)MOONHALYARD_ORDER * slot;
}

/* Answers are one number. post, collect, run and upgrade answer their refusal, 0 where there is none. Of the others, what a refusal leaves unsaid is 0.
   These read them, each named for the calls whose answers it reads:

     answer   accept, load, list, text, draw, write, rows, mend   the refusal; where it is 0, what the call says of itself; else the place in trouble
     step     step, offer; each number of list, tell   the refusal, the slot, the activity, the message place, the order's end, its fault
     offers   offers                                   the refusal, how many steps are offered, whether something is held
     show     show                                     the refusal, where the activity starts, how many bytes spell it */
static inline uint32_t moonhalyard_answer_refusal(uint64_t answer) { return (uint32_t)(answer >> 32); }
static inline uint32_t moonhalyard_answer_place(uint64_t answer) { return answer >> 32 ? (uint32_t)answer : 0; }
static inline uint32_t moonhalyard_answer_many(uint64_t answer) { return answer >> 32 ? 0 : (uint32_t)answer; }
static inline uint32_t moonhalyard_mend_length(uint64_t answer) { return answer >> 32 ? 0 : (uint32_t)(answer & 65535); }
static inline uint32_t moonhalyard_mend_cut(uint64_t answer) { return answer >> 32 ? 0 : (uint32_t)(answer >> 16 & 65535); }
static inline uint32_t moonhalyard_step_refusal(uint64_t answer) { return (uint32_t)(answer >> 32 & 255); }
static inline uint32_t moonhalyard_step_slot(uint64_t answer) { return (uint32_t)(answer >> 24 & 255); }
static inline uint32_t moonhalyard_step_activity(uint64_t answer) { return (uint32_t)(answer >> 16 & 255); }
static inline uint32_t moonhalyard_step_place(uint64_t answer) { return (uint32_t)(answer >> 8 & 255); }
static inline uint32_t moonhalyard_step_end(uint64_t answer) { return (uint32_t)(answer & 255); }
static inline uint32_t moonhalyard_step_fault(uint64_t answer) { return (uint32_t)(answer >> 40 & 255); }
static inline uint32_t moonhalyard_offers_refusal(uint64_t answer) { return (uint32_t)(answer >> 40); }
static inline uint32_t moonhalyard_offers_many(uint64_t answer) { return (uint32_t)answer; }
static inline int moonhalyard_offers_held(uint64_t answer) { return (int)(answer >> 32 & 1); }
static inline uint32_t moonhalyard_show_refusal(uint64_t answer) { return (uint32_t)(answer >> 48); }
static inline uint32_t moonhalyard_show_start(uint64_t answer) { return (uint32_t)(answer >> 24 & 16777215); }
static inline uint32_t moonhalyard_show_length(uint64_t answer) { return (uint32_t)(answer & 16777215); }

/* How an order ended, in a step's answer. */
enum moonhalyard_end {
    MOONHALYARD_END_NONE = 0,
    MOONHALYARD_END_WELL = 1,
    MOONHALYARD_END_HANDLED = 2,
    MOONHALYARD_END_FAILED = 3,
    MOONHALYARD_END_LEFT = 4
};

/* The number of a fault. A step's answer has it where the order ended handled (that of the fault that the root handled) or failed (that of the fault that went
   out of the root), and 0 where not. An expression has the number of what it met first, its left operand before its right. */
enum moonhalyard_fault {
    MOONHALYARD_FAULT_PLAIN = 0,      /* a raise */
    MOONHALYARD_FAULT_UNBOUND = 1,    /* a variable that is not bound */
    MOONHALYARD_FAULT_SUM = 2,        /* a sum above 4,294,967,295 */
    MOONHALYARD_FAULT_DIFFERENCE = 3, /* a difference below zero */
    MOONHALYARD_FAULT_CONFLICT = 4,   /* two receives or arms open with the same partner, operation and variables */
    MOONHALYARD_FAULT_PARTNER = 5     /* a send whose variable holds a partner above 63 */
};

/* To last. The state in memory is all there is, and it is the host's to save: written whole under a new name, brought to disk, renamed over the old, and
   the folder brought to disk. What a host that is cut off finds again is the state last saved. So:
   - post: save, and then tell the sender that it came in. Cut off before the save, the message never came, and the sender, who was told nothing, sends it
     again. Cut off between the two it was told nothing and sends it again too, and then it waits twice: who minds gives messages a number of its own.
   - step, run: nothing leaves by a step, so save when it suits. Cut off before, the orders stand where they stood at the last save, and their steps are
     offered again; other choices may be taken then, and nobody outside can tell.
   - collect: this is where something leaves. Hand the message on and then save: cut off between the two, it is handed on twice. Or save and then hand
     it on: cut off between, never. Choose the first, and let the partner know the second by what is in it, as its correlation values.
   - two hosts on one file need a lock, from before the state is read until after it is saved. examples/host.c does all of this. */

/* Whether n bytes are a plan: how many activities and arms it has; or its refusal (1 to 9, 21) times 2^32, and the refusal's place. */
uint64_t moonhalyard_accept(const uint8_t *plan, size_t n);

/* Where activity or arm k of a plan stands: its first byte's place times 2^24, and how many bytes spell it; or a refusal (1 to 9, 16, 21)
   times 2^48. */
uint64_t moonhalyard_show(const uint8_t *plan, size_t n, uint32_t k);

/* Loads a plan. The answer is 0; or its refusal (1 to 9, 21) times 2^32, and the refusal's place. The state is a fresh one with the plan, with no
   order and no message, or, where the plan is refused, one with no plan; nothing is counted. Whatever `state` held before does not matter.
   Where `size` is not 12,748 the answer is 18 times 2^32, and nothing is written. */
uint64_t moonhalyard_load(const uint8_t *plan, size_t n, uint8_t *state, size_t size);

/* Brings a state of this or an older version, as it was saved, up to date: `old` is read, `state` is written. The answer is 0 or a refusal (18 where `size`
   is not 12,748, 17 where `old` holds no state), and where it is refused nothing is written. A state of this version, MOONHAL4, comes out as it is; one of the
   third, MOONHAL3, of 12,492 bytes, of the second, MOONHAL2, of 12,476, or of the first, MOONHAL1, of 11,964, as the same state of this one. The partners to
   reply to of its messages are 0, and so are causes that are not known, in the two first. Whether its plan is accepted and its numbers are within their limits
   the other calls see. */
uint32_t moonhalyard_upgrade(const uint8_t *old, size_t n, uint8_t *state, size_t size);

/* The seal of `n` bytes, to be kept behind them: read again, they are whole where their seal is the one that was kept. Bytes that differ in one place
   alone never have the same seal. It tells what was cut or damaged, and is no signature: whoever changes the bytes can seal them anew. */
uint64_t moonhalyard_seal(const uint8_t *bytes, size_t n);

/* Posts a message: it waits after the others. The answer is 0 or a refusal (17, 13, 14), and where it is refused the state is left as it is.
   Partner and operation are 0 to 63, `count` values 1 to 4; values beyond the count are not looked at, and are kept as 0. `reply` is the partner to reply
   to, 0 to 63: a receive of code 18 stores it in a variable, and collect and drop hand it out; who has none to tell gives 0. */
uint32_t moonhalyard_post(uint8_t *state, size_t size, uint32_t partner, uint32_t operation, uint32_t count, uint32_t v0, uint32_t v1, uint32_t v2,
                          uint32_t v3, uint32_t reply);

/* Collects the oldest message for a partner that the plan never receives on: it is written into the first 32 bytes of `message`, and waits no
   longer. The answer is 0 or a refusal (18, 17, 15). Refused by 17 or 15, the 32 bytes are 0 and the state is left as it is. Where `room` is
   below 32 the answer is 18, and neither changes. Bytes of `message` after the first 32 never change. */
uint32_t moonhalyard_collect(uint8_t *state, size_t size, uint8_t *message, size_t room);

/* Drops the message that waits at a place, counted from 0, oldest first, whatever its partner: a way out for one that nothing will ever take. It is
   written into the first 32 bytes of `message`, and waits no longer. The answer is 0 or a refusal (18, 17, 15), with the same outcome as that of
   moonhalyard_collect; 15 where no message waits at that place. */
uint32_t moonhalyard_drop(uint8_t *state, size_t size, size_t place, uint8_t *message, size_t room);

/* The step that a choice would take, not taken. Choices count from 0. The answer is
     slot times 2^24 + activity times 2^16 + message place times 2^8
   or a refusal (17, 10, 11, 12) times 2^32. Where the slot is free, the step starts an order there. A step of a receive or an arm takes the message at
   the place, counted from 0, oldest first; of any other activity the place is 0 and says nothing (moonhalyard_show tells where its code stands). */
uint64_t moonhalyard_offer(const uint8_t *state, size_t size, uint64_t choice);

/* How many steps are offered, and 2^32 more where something is held for want of room; or 17 times 2^40. */
uint64_t moonhalyard_offers(const uint8_t *state, size_t size);

/* The steps that are offered from the choice `first` on, not taken, as many as there is room for: what moonhalyard_offer answers for the choice `first` is put
   into out[0], for the next into out[1], and so on, up to out[room - 1] or to the end of the offer. The answer is how many these are, or 17 times 2^32. Numbers
   behind these never change, and with 17 none does. The offer is gone through once, so this is the way to see many of them: asking moonhalyard_offer for
   each goes through it each time. */
uint64_t moonhalyard_list(const uint8_t *state, size_t size, uint32_t first, uint64_t *out, size_t room);

/* Takes the step with a choice. The answer is as for moonhalyard_offer, with the order's end added:
     0 none, 1 well, 2 handled, 3 failed, 4 left
   and, where that is handled or failed, the number of the fault times 2^40. Where the step leaves two receives or arms of its order open with the same partner, operation and variables, the one with the higher number faults with
   it, as a raise in its place would, and what is open then is judged again: the order may end by it. The tally in the state is brought up to date.
   Refused (17, 10, 11, 12, times 2^32), the state is left as it is. */
uint64_t moonhalyard_step(uint8_t *state, size_t size, uint64_t choice);

/* Takes the steps with `many` choices, one after the other, until they end, the budget is 0 or a step is refused. The answer is 0 or the
   refusal (17, 10, 11, 12). *budget is less by the steps taken, and the state is as the last of these left it: as it was, where none was taken. */
uint32_t moonhalyard_run(uint8_t *state, size_t size, const uint64_t *choices, size_t many, uint64_t *budget);

/* Takes steps as moonhalyard_run does, with the same answer, the same state and the same budget afterwards, and tells each: the answer that moonhalyard_step
   would have given for the first step taken is put into told[0], that for the second into told[1], and so on, as far as there are `room` numbers. So the first
   of them, as many as the budget is less by, and `room` at most, are told: which order, which activity, and how the order ended, if it did. Numbers behind
   these never change. */
uint32_t moonhalyard_tell(uint8_t *state, size_t size, const uint64_t *choices, size_t many, uint64_t *budget, uint64_t *told, size_t room);

/* Writes the plan that a text says (docs/DESK.md, "A plan as text") into the front of `plan`. The answer is how many bytes it has; or the refusal times
   2^32, and the line in trouble, counted from 1: 33 to 62 where the text is wrong there, or what moonhalyard_write refuses, whose row is told by its line
   (for 1 and 18 that of the first row). A refused text changes nothing in `plan`, and bytes behind the plan never change. Takes up to 512 KiB of stack. */
uint64_t moonhalyard_text(const uint8_t *text, size_t n, uint8_t *plan, size_t room);

/* Writes a plan as text into the front of `text`: what the desk's `draw` prints of a plan without names, which moonhalyard_text reads back as the same bytes.
   The answer is how long the text is, without any 0 behind it; or the refusal (1 to 9 and 21 with its place; 18 with how long the text is) times 2^32.
   Refused, nothing in `text` changes, and bytes behind the text never change. */
uint64_t moonhalyard_draw(const uint8_t *plan, size_t n, uint8_t *text, size_t room);

/* A plan as a table: a row of 20 numbers for the head, for each activity, arm and expression, and for each number between the parts of a scope, in the order
   of the plan's bytes. The first number of a row is how many numbers it has; these follow as the plan has them, and 0 in the places behind them:
     the head              1 (the version), how many variables, how many of them are for correlation, and the numbers of these
     0 empty, 4 raise, 5 leave, 11 scope                  its code (after a scope its body, its fault part and its undo part)
     12 scope with no undo part                           its code; its body and its fault part are next
     13 raise with a number                               its code and that number
     14 scope with fault parts by number                  its code; its body is next; then a row with how many there are; for each a row with its number,
                           and that part; then the general fault part and the undo part
     1 send, 2 receive     its code, partner, operation, how many variables, and their numbers
     17 send to the partner that a variable holds         its code, that variable, operation, how many variables, their numbers, and the partner to reply to
     18 receive that stores the partner to reply to       its code, partner, operation, how many variables, their numbers, and the variable that stores it
     3 set                 its code and a variable; the rows of its expression are next
     6 choose, 7 repeat    its code; the rows of its expression are next, then its activities
     8 sequence, 9 flow, 10 pick                          its code and how many activities (a pick: arms) it has
     an arm                partner, operation, how many variables, and their numbers; its activity is next
     an expression         0 and a value, or 1 and a variable, or 2 sum, 3 difference, 4 equal, 5 less alone, with the rows of both operands next */
#define MOONHALYARD_ROW 20

/* Writes the plan of a table into the front of `plan`. The answer is how many bytes it has; or its refusal (1, 2, 4 to 9, 18, 21) times 2^32, and the row
   in trouble (0 for 1 and 18; for 2 the number of rows). A refused write changes nothing in `plan`, and bytes behind the plan never change. */
uint64_t moonhalyard_write(const uint32_t *table, size_t numbers, uint8_t *plan, size_t room);

/* The table of a plan, into the front of `table`. The answer is how many numbers it has, 20 for each row; or its refusal (1 to 9 and 21 with its
   place, 18) times 2^32. Refused, nothing in `table` changes, and numbers behind the table never change. */
uint64_t moonhalyard_rows(const uint8_t *plan, size_t n, uint32_t *table, size_t room);

/* Mends a plan whose numbers are padded with zero groups, up to ten groups each: the same numbers in shortest form, into the front of `out`. The answer
   is the groups cut times 2^16 and how many bytes were written; or the refusal (1 to 9 and 21, with its place in `plan`; 18) times 2^32, and its place. A
   refused mend changes nothing in `out`, and bytes behind the plan never change. */
uint64_t moonhalyard_mend(const uint8_t *plan, size_t n, uint8_t *out, size_t room);

/* Whether two buffers have no byte in common. */
static inline int moonhalyard_apart(const void *a, size_t n, const void *b, size_t m)
{
    uintptr_t x = (uintptr_t)a, y = (uintptr_t)b;
    return n == 0 || m == 0 || (x < y ? y - x >= n : x - y >= m);
}

/* The calls with several buffers, which look at these first. (moonhalyard_load)(..), with the name in parentheses, is the library's own. */
static inline uint64_t moonhalyard_load_apart(const uint8_t *plan, size_t n, uint8_t *state, size_t size)
{
    return moonhalyard_apart(plan, n, state, size) ? moonhalyard_load(plan, n, state, size) : (uint64_t)MOONHALYARD_ROOM << 32;
}
static inline uint32_t moonhalyard_upgrade_apart(const uint8_t *old, size_t n, uint8_t *state, size_t size)
{
    return moonhalyard_apart(old, n, state, size) ? moonhalyard_upgrade(old, n, state, size) : (uint32_t)MOONHALYARD_ROOM;
}
static inline uint32_t moonhalyard_collect_apart(uint8_t *state, size_t size, uint8_t *message, size_t room)
{
    return moonhalyard_apart(state, size, message, room) ? moonhalyard_collect(state, size, message, room) : (uint32_t)MOONHALYARD_ROOM;
}
static inline uint32_t moonhalyard_drop_apart(uint8_t *state, size_t size, size_t place, uint8_t *message, size_t room)
{
    return moonhalyard_apart(state, size, message, room) ? moonhalyard_drop(state, size, place, message, room) : (uint32_t)MOONHALYARD_ROOM;
}
static inline uint32_t moonhalyard_run_apart(uint8_t *state, size_t size, const uint64_t *choices, size_t many, uint64_t *budget)
{
    return moonhalyard_apart(state, size, choices, 8 * many) && moonhalyard_apart(state, size, budget, 8) && moonhalyard_apart(choices, 8 * many, budget, 8)
               ? moonhalyard_run(state, size, choices, many, budget)
               : (uint32_t)MOONHALYARD_ROOM;
}
static inline uint32_t moonhalyard_tell_apart(uint8_t *state, size_t size, const uint64_t *choices, size_t many, uint64_t *budget, uint64_t *told, size_t room)
{
    return moonhalyard_apart(state, size, choices, 8 * many) && moonhalyard_apart(state, size, budget, 8) && moonhalyard_apart(choices, 8 * many, budget, 8)
                   && moonhalyard_apart(state, size, told, 8 * room) && moonhalyard_apart(choices, 8 * many, told, 8 * room) && moonhalyard_apart(budget, 8, told, 8 * room)
               ? moonhalyard_tell(state, size, choices, many, budget, told, room)
               : (uint32_t)MOONHALYARD_ROOM;
}
static inline uint64_t moonhalyard_list_apart(const uint8_t *state, size_t size, uint32_t first, uint64_t *out, size_t room)
{
    return moonhalyard_apart(state, size, out, 8 * room) ? moonhalyard_list(state, size, first, out, room) : (uint64_t)MOONHALYARD_ROOM << 32;
}
static inline uint64_t moonhalyard_text_apart(const uint8_t *text, size_t n, uint8_t *plan, size_t room)
{
    return moonhalyard_apart(text, n, plan, room) ? moonhalyard_text(text, n, plan, room) : (uint64_t)MOONHALYARD_ROOM << 32;
}
static inline uint64_t moonhalyard_draw_apart(const uint8_t *plan, size_t n, uint8_t *text, size_t room)
{
    return moonhalyard_apart(plan, n, text, room) ? moonhalyard_draw(plan, n, text, room) : (uint64_t)MOONHALYARD_ROOM << 32;
}
static inline uint64_t moonhalyard_write_apart(const uint32_t *table, size_t numbers, uint8_t *plan, size_t room)
{
    return moonhalyard_apart(table, 4 * numbers, plan, room) ? moonhalyard_write(table, numbers, plan, room) : (uint64_t)MOONHALYARD_ROOM << 32;
}
static inline uint64_t moonhalyard_rows_apart(const uint8_t *plan, size_t n, uint32_t *table, size_t room)
{
    return moonhalyard_apart(plan, n, table, 4 * room) ? moonhalyard_rows(plan, n, table, room) : (uint64_t)MOONHALYARD_ROOM << 32;
}
static inline uint64_t moonhalyard_mend_apart(const uint8_t *plan, size_t n, uint8_t *out, size_t room)
{
    return moonhalyard_apart(plan, n, out, room) ? moonhalyard_mend(plan, n, out, room) : (uint64_t)MOONHALYARD_ROOM << 32;
}
#define moonhalyard_load(plan, n, state, size) moonhalyard_load_apart(plan, n, state, size)
#define moonhalyard_upgrade(old, n, state, size) moonhalyard_upgrade_apart(old, n, state, size)
#define moonhalyard_collect(state, size, message, room) moonhalyard_collect_apart(state, size, message, room)
#define moonhalyard_drop(state, size, place, message, room) moonhalyard_drop_apart(state, size, place, message, room)
#define moonhalyard_run(state, size, choices, many, budget) moonhalyard_run_apart(state, size, choices, many, budget)
#define moonhalyard_list(state, size, first, out, room) moonhalyard_list_apart(state, size, first, out, room)
#define moonhalyard_tell(state, size, choices, many, budget, told, room) moonhalyard_tell_apart(state, size, choices, many, budget, told, room)
#define moonhalyard_text(text, n, plan, room) moonhalyard_text_apart(text, n, plan, room)
#define moonhalyard_draw(plan, n, text, room) moonhalyard_draw_apart(plan, n, text, room)
#define moonhalyard_write(table, numbers, plan, room) moonhalyard_write_apart(table, numbers, plan, room)
#define moonhalyard_rows(plan, n, table, room) moonhalyard_rows_apart(plan, n, table, room)
#define moonhalyard_mend(plan, n, out, room) moonhalyard_mend_apart(plan, n, out, room)

#ifdef __cplusplus
}
#endif

#endif
