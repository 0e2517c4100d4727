/* Refusals in words: the one function of the library that is not written in Rattle, which has no strings to hand out. The reasons of a text are worded as
   the desk words them (crates/papers/src/reasons.rt; tools/check-install compares). */
#include "../include/moonhalyard.h"

static const char *const refusals[] = {
    "done",
    "the plan is longer than 4,096 bytes",
    "the bytes end before the plan does",
    "a number is not in its shortest form, or too large",
    "unknown version or code",
    "a value or count is outside its rule",
    "more than 256 activities and arms, 16 levels of activities or 8 levels of an expression",
    "the root's body is no start form: a receive, a pick, a sequence whose first is one, a flow of them, or a scope whose body is one",
    "a scope stands in a fault part or an undo part",
    "bytes follow the plan",
    "no step is offered, and none is held",
    "no step is offered, and some are held for want of room",
    "the choice is beyond the offer",
    "the message's partner, operation, count or partner to reply to is outside its rule",
    "64 messages wait already",
    "no message waits for a partner that the plan never receives on",
    "the plan has no such activity",
    "no state with an accepted plan and with numbers within their limits",
    "too little room, or not the room of a state, or buffers that overlap",
    "unknown refusal",
    "unknown refusal",
    "receives that disagree: another count of values than before for the same partner and operation",
};

static const char *const reasons[] = {
    "expected 'variable NAME', 'variable NAME (correlation)', 'partner NUMBER NAME', 'operation NUMBER NAME', 'fault NUMBER NAME' or 'constant NAME NUMBER'",
    "another has this name",
    "partners and operations are 0 to 63",
    "a plan has at most 16 variables",
    "declarations stand before the first activity",
    "no such activity",
    "expected 'partner P, operation O: V, ..'",
    "no such name",
    "expected an expression: numbers, variables and constants, with + - = != < <= > >= 'and' 'or' 'not' and parentheses",
    "numbers are 0 to 4294967295",
    "more than 64 operations and parentheses within one another",
    "the text has more than a plan can hold",
    "the variable is not for correlation",
    "expected the indentation of a line before it, or two, four, .. blanks more than the activity that it stands in",
    "the activity that it stands in takes no more, or takes none",
    "arms stand in a pick, and nothing else does",
    "expected another part: root body, root fault part; of a scope body, fault part, undo part; of a choose then, else",
    "more than 63 activities within one another",
    "a part is missing: the root and a choose have 2, a scope 2 or 3, one with fault parts by number all of them, a repeat and an arm 1",
    "the text has no activity",
    "a tab stands in it, where blanks may",
    "a name has at most 32 characters",
    "this number has a name already",
    "expected 'set V to E'",
    "nothing stands behind this word",
    "expected 'arm: receive from partner P, operation O: V, ..'",
    "'and', 'or' and 'not' are words of expressions",
    "faults with a name are 16 to 255",
    "expected 'with reply to partner P' in a send to the partner in a variable, 'with reply to into V' in a receive; no other send has it, and no arm",
    "expected 'the partner in V, operation O: V, ..'",
};

const char *moonhalyard_says(uint32_t refusal)
{
    if (refusal < sizeof refusals / sizeof *refusals)
        return refusals[refusal];
    if (refusal > MOONHALYARD_TEXT && refusal - MOONHALYARD_TEXT <= sizeof reasons / sizeof *reasons)
        return reasons[refusal - MOONHALYARD_TEXT - 1];
    return "unknown refusal";
}
