/* What the header adds to the library: the readers of answers, refusals in words, the version, offsets in a state, buffers that overlap, the calling thread's
   stack, and states kept by earlier versions. Says what differs, and answers how much did. test TEXT STATE.. */
#include <moonhalyard.h>

#include <pthread.h>
#include <stdio.h>
#include <string.h>

static int wrong;
#define same(got, want) same_at(__LINE__, #got, (unsigned long long)(got), (unsigned long long)(want))
static void same_at(int line, const char *what, unsigned long long got, unsigned long long want)
{
    if (got == want)
        return;
    printf("library/test.c:%d: %s is %llu, and should be %llu\n", line, what, got, want);
    wrong++;
}

static uint8_t text[1 << 17], plan[4096], state[MOONHALYARD_STATE], before[MOONHALYARD_STATE];
static size_t text_length, plan_length;

/* A file, whole. */
static size_t contents(const char *name, uint8_t *to, size_t room)
{
    FILE *file = fopen(name, "rb");
    size_t n = file ? fread(to, 1, room, file) : 0;
    if (file)
        fclose(file);
    return n;
}

static void readers(void)
{
    uint64_t step = (uint64_t)5 << 24 | 6 << 16 | 7 << 8 | 4, refused = (uint64_t)12 << 32, failed = (uint64_t)255 << 40 | MOONHALYARD_END_FAILED;
    same(moonhalyard_step_refusal(step), 0);
    same(moonhalyard_step_slot(step), 5);
    same(moonhalyard_step_activity(step), 6);
    same(moonhalyard_step_place(step), 7);
    same(moonhalyard_step_end(step), MOONHALYARD_END_LEFT);
    same(moonhalyard_step_refusal(refused), MOONHALYARD_CHOICE);
    same(moonhalyard_step_end(refused), 0);
    same(moonhalyard_step_fault(step), 0);
    same(moonhalyard_step_fault(refused), 0);
    same(moonhalyard_step_fault(failed), 255);
    same(moonhalyard_step_refusal(failed), 0);
    same(moonhalyard_step_slot((uint64_t)255 << 24), 255);
    same(moonhalyard_offers_many((uint64_t)1 << 32 | 16384), 16384);
    same(moonhalyard_offers_held((uint64_t)1 << 32 | 16384), 1);
    same(moonhalyard_offers_refusal((uint64_t)1 << 32 | 16384), 0);
    same(moonhalyard_offers_refusal((uint64_t)17 << 40), 17);
    same(moonhalyard_offers_held((uint64_t)17 << 40), 0);
    same(moonhalyard_show_refusal((uint64_t)16 << 48), 16);
    same(moonhalyard_show_start((uint64_t)4095 << 24 | 3), 4095);
    same(moonhalyard_show_length((uint64_t)4095 << 24 | 3), 3);
    same(moonhalyard_answer_refusal((uint64_t)7 << 32 | 4), 7);
    same(moonhalyard_answer_place((uint64_t)7 << 32 | 4), 4);
    same(moonhalyard_answer_many((uint64_t)7 << 32 | 4), 0);
    same(moonhalyard_answer_many(256), 256);
    same(moonhalyard_answer_place(256), 0);
    same(moonhalyard_mend_cut((uint64_t)9 << 16 | 11), 9);
    same(moonhalyard_mend_length((uint64_t)9 << 16 | 11), 11);
}

static void words(void)
{
    same(moonhalyard_version(), MOONHALYARD_VERSION);
    same(strcmp(moonhalyard_says(MOONHALYARD_FULL), "64 messages wait already"), 0);
    for (uint32_t i = 0; i < 70; i++) {
        int known = i <= MOONHALYARD_ROOM || i == MOONHALYARD_DISAGREE || (i > MOONHALYARD_TEXT && i <= MOONHALYARD_TEXT + 30);
        same(strcmp(moonhalyard_says(i), "unknown refusal") != 0, known);
    }
    same(strcmp(moonhalyard_says(UINT32_MAX), "unknown refusal"), 0);
}

/* A text, and lines that are wrong in it. */
static void texts(void)
{
    static const char tab[] = "variable n (correlation)\n\troot body: empty\n", none[] = "# nothing\n", no_start[] = "variable n (correlation)\nroot body: empty\nroot fault part: empty\n";
    uint64_t answer;
    same(moonhalyard_text((const uint8_t *)tab, sizeof tab - 1, plan, sizeof plan), (uint64_t)(MOONHALYARD_TEXT + 21) << 32 | 2);
    same(moonhalyard_text((const uint8_t *)none, sizeof none - 1, plan, sizeof plan), (uint64_t)(MOONHALYARD_TEXT + 20) << 32 | 1);
    answer = moonhalyard_text((const uint8_t *)no_start, sizeof no_start - 1, plan, sizeof plan);
    same(moonhalyard_answer_refusal(answer), MOONHALYARD_START);
    same(moonhalyard_answer_place(answer), 2);
    answer = moonhalyard_text(text, text_length, plan, 10);
    same(moonhalyard_answer_refusal(answer), MOONHALYARD_ROOM);
    answer = moonhalyard_text(text, text_length, plan, sizeof plan);
    same(moonhalyard_answer_refusal(answer), 0);
    plan_length = moonhalyard_answer_many(answer);
    same(moonhalyard_answer_refusal(moonhalyard_accept(plan, plan_length)), 0);
}

/* A plan's text is read back as the plan; with less room it tells how much it wants, and writes nothing. */
static void draws(void)
{
    static uint8_t said[1 << 14], back[4096];
    uint64_t answer = moonhalyard_draw(plan, plan_length, said, 0);
    uint32_t length = (uint32_t)answer;
    same(answer >> 32, MOONHALYARD_ROOM);
    memset(said, 0xEE, sizeof said);
    same(moonhalyard_draw(plan, plan_length, said, length - 1), answer);
    same(said[0], 0xEE);
    same(moonhalyard_draw(plan, plan_length, said, sizeof said), length);
    same(said[length - 1], '\n');
    same(said[length], 0xEE);
    same(moonhalyard_text(said, length, back, sizeof back), plan_length);
    same(memcmp(back, plan, plan_length), 0);
    same(moonhalyard_draw(plan, plan_length - 1, said, sizeof said) >> 32 != 0, 1);
    same(said[0], 'v');
}

/* What the calls do is found at the offsets that the header tells. */
static void offsets(void)
{
    const uint8_t *order, *message;
    same(moonhalyard_load(plan, plan_length, state, sizeof state), 0);
    same(memcmp(state, MOONHALYARD_MARK, 8), 0);
    same(moonhalyard_long(state + MOONHALYARD_PLAN_LENGTH), plan_length);
    same(memcmp(state + MOONHALYARD_PLAN, plan, plan_length), 0);
    same(moonhalyard_post(state, sizeof state, 5, 0, 3, 101, 7, 40, 0, 10), 0);
    same(moonhalyard_post(state, sizeof state, 63, 62, 4, 1, 2, 3, UINT32_MAX, 61), 0);
    same(moonhalyard_post(state, sizeof state, 63, 62, 4, 1, 2, 3, UINT32_MAX, 64), MOONHALYARD_MESSAGE_RULE);
    same(moonhalyard_long(state + MOONHALYARD_WAITING), 2);
    message = moonhalyard_message(state, 1);
    same(moonhalyard_number(message + MOONHALYARD_MESSAGE_PARTNER), 63);
    same(moonhalyard_number(message + MOONHALYARD_MESSAGE_OPERATION), 62);
    same(moonhalyard_number(message + MOONHALYARD_MESSAGE_COUNT), 4);
    same(moonhalyard_number(message + MOONHALYARD_MESSAGE_VALUES), 1);
    same(moonhalyard_number(message + MOONHALYARD_MESSAGE_VALUES + 12), UINT32_MAX);
    same(moonhalyard_number(message + MOONHALYARD_MESSAGE_REPLY), 61);
    same(moonhalyard_number(moonhalyard_message(state, 0) + MOONHALYARD_MESSAGE_REPLY), 10);
    same(moonhalyard_step_refusal(moonhalyard_step(state, sizeof state, 0)), 0);
    order = moonhalyard_order(state, 0);
    same(order[MOONHALYARD_ORDER_ROOT], 1);
    same(order[MOONHALYARD_ORDER_BOUND], 1);
    same(order[MOONHALYARD_ORDER_BOUND + 1], 1);
    same(order[MOONHALYARD_ORDER_BOUND + 2], 1);
    same(order[MOONHALYARD_ORDER_BOUND + 3], 0);
    same(moonhalyard_number(order + MOONHALYARD_ORDER_VALUES), 101);
    same(moonhalyard_number(order + MOONHALYARD_ORDER_VALUES + 4), 7);
    same(moonhalyard_number(order + MOONHALYARD_ORDER_VALUES + 8), 40);
    /* The partner to reply to is stored, behind the answer and the reason. */
    same(order[MOONHALYARD_ORDER_BOUND + 5], 1);
    same(moonhalyard_number(order + MOONHALYARD_ORDER_VALUES + 20), 10);
    same(moonhalyard_number(state + MOONHALYARD_TALLY_STARTED), 1);
    same(moonhalyard_long(order + MOONHALYARD_ORDER_KEPT), 0);
    same(order[MOONHALYARD_ORDER_CAUSE], 0);
    same(MOONHALYARD_ORDERS + MOONHALYARD_ORDERS_MOST * MOONHALYARD_ORDER, MOONHALYARD_STATE);
}

/* Any waiting message is dropped by its place, whatever its partner; the others move up. */
static void drops(void)
{
    static uint8_t other[MOONHALYARD_STATE];
    uint8_t message[MOONHALYARD_MESSAGE];
    memcpy(other, state, sizeof state);
    same(moonhalyard_long(other + MOONHALYARD_WAITING), 1);
    same(moonhalyard_post(other, sizeof other, 0, 0, 1, 9, 0, 0, 0, 63), 0);
    same(moonhalyard_drop(other, sizeof other, 2, message, sizeof message), 15);
    same(moonhalyard_drop(other, sizeof other, 0, message, sizeof message - 1), 18);
    same(moonhalyard_drop(other, sizeof other, 0, other, MOONHALYARD_MESSAGE), 18);
    same(moonhalyard_drop(other, sizeof other, 1, message, sizeof message), 0);
    same(moonhalyard_number(message + MOONHALYARD_MESSAGE_VALUES), 9);
    same(moonhalyard_number(message + MOONHALYARD_MESSAGE_REPLY), 63);
    same(memcmp(other, state, sizeof state), 0);
    same(moonhalyard_drop(other, sizeof other, 0, message, sizeof message), 0);
    same(moonhalyard_number(message + MOONHALYARD_MESSAGE_PARTNER), 63);
    same(moonhalyard_number(message + MOONHALYARD_MESSAGE_REPLY), 61);
    same(moonhalyard_long(other + MOONHALYARD_WAITING), 0);
}

/* A state with orders that have begun and messages that wait. */
static void busy(uint8_t *of)
{
    memcpy(of, state, MOONHALYARD_STATE);
    for (uint32_t i = 0; i < 12; i++) {
        same(moonhalyard_post(of, MOONHALYARD_STATE, 5, 0, 3, 100 + i / 2, 7, 40, 0, i), 0);
        if (i % 3 == 0)
            same(moonhalyard_step_refusal(moonhalyard_step(of, MOONHALYARD_STATE, 0)), 0);
    }
}

/* A window of the offer is what asking for each choice gives, as far as there is room, and not a number further. */
static void lists(void)
{
    static uint8_t other[MOONHALYARD_STATE], none[MOONHALYARD_STATE];
    uint64_t out[40];
    busy(other);
    uint32_t many = moonhalyard_offers_many(moonhalyard_offers(other, sizeof other));
    same(many > 4 && many < 39, 1);
    memcpy(before, other, sizeof other);
    for (uint32_t first = 0; first <= many + 1; first++)
        for (uint32_t room = 0; room <= 40; room++) {
            uint32_t there = first < many ? many - first : 0, want = there < room ? there : room;
            memset(out, 0xEE, sizeof out);
            same(moonhalyard_list(other, sizeof other, first, out, room), want);
            for (uint32_t i = 0; i < 40; i++)
                same(out[i], i < want ? moonhalyard_offer(other, sizeof other, first + i) : 0xEEEEEEEEEEEEEEEEu);
        }
    same(moonhalyard_list(other, sizeof other, UINT32_MAX, out, 40), 0);
    same(memcmp(other, before, sizeof other), 0);
    memset(out, 0xEE, sizeof out);
    same(moonhalyard_list(none, sizeof none, 0, out, 40), (uint64_t)17 << 32);
    same(out[0], 0xEEEEEEEEEEEEEEEEu);
}

/* A run that is told is the run, step by step; as far as there is room, and not a number further. */
static void tells(void)
{
    static uint8_t first[MOONHALYARD_STATE], by_step[MOONHALYARD_STATE], by_run[MOONHALYARD_STATE], by_tell[MOONHALYARD_STATE];
    busy(first);
    for (size_t room = 0; room <= 40; room += 4) {
        uint64_t choices[64] = {0}, told[40], budget = 60, other = 60, answer, refusal = 0;
        size_t taken = 0;
        memcpy(by_step, first, sizeof first);
        memcpy(by_run, first, sizeof first);
        memcpy(by_tell, first, sizeof first);
        memset(told, 0xEE, sizeof told);
        refusal = moonhalyard_tell(by_tell, sizeof by_tell, choices, 64, &budget, told, room);
        same(moonhalyard_run(by_run, sizeof by_run, choices, 64, &other), refusal);
        same(other, budget);
        same(memcmp(by_run, by_tell, sizeof by_run), 0);
        for (; moonhalyard_step_refusal(answer = moonhalyard_step(by_step, sizeof by_step, 0)) == 0 && taken < 60; taken++)
            if (taken < room)
                same(told[taken], answer);
        same(taken, 60 - budget);
        same(taken > 2, 1);
        for (size_t i = taken < room ? taken : room; i < 40; i++)
            same(told[i], 0xEEEEEEEEEEEEEEEEu);
    }
}

/* Overlapping buffers are refused, and nothing changes. */
static void overlaps(void)
{
    static uint32_t table[4096];
    memcpy(before, state, sizeof state);
    same(moonhalyard_collect(state, sizeof state, state, MOONHALYARD_MESSAGE), 18);
    same(moonhalyard_collect(state, sizeof state, state + sizeof state - 1, MOONHALYARD_MESSAGE), 18);
    same(moonhalyard_load(state + MOONHALYARD_PLAN, plan_length, state, sizeof state), (uint64_t)18 << 32);
    same(moonhalyard_upgrade(state, sizeof state, state, sizeof state), 18);
    same(moonhalyard_run(state, sizeof state, (const uint64_t *)(const void *)(state + 4), 1, (uint64_t *)(void *)plan), 18);
    same(moonhalyard_run(state, sizeof state, (const uint64_t *)(const void *)plan, 1, (uint64_t *)(void *)(state + 4)), 18);
    same(moonhalyard_list(state, sizeof state, 0, (uint64_t *)(void *)(state + 4), 1), (uint64_t)18 << 32);
    same(moonhalyard_tell(state, sizeof state, (const uint64_t *)(const void *)plan, 1, (uint64_t *)(void *)text, (uint64_t *)(void *)plan, 1), 18);
    same(moonhalyard_tell(state, sizeof state, (const uint64_t *)(const void *)plan, 1, (uint64_t *)(void *)text, (uint64_t *)(void *)(state + 4), 1), 18);
    same(moonhalyard_tell(state, sizeof state, (const uint64_t *)(const void *)plan, 1, (uint64_t *)(void *)text, (uint64_t *)(void *)text, 1), 18);
    same(moonhalyard_mend(plan, plan_length, plan + plan_length - 1, 16), (uint64_t)18 << 32);
    same(moonhalyard_rows((const uint8_t *)table, 4096, table, 4096), (uint64_t)18 << 32);
    same(moonhalyard_write(table, 4096, (uint8_t *)table, 4096), (uint64_t)18 << 32);
    same(moonhalyard_text(text, text_length, text, 4096), (uint64_t)18 << 32);
    same(moonhalyard_draw(plan, plan_length, plan + 1, 4095), (uint64_t)18 << 32);
    same(memcmp(state, before, sizeof state), 0);
    /* Side by side is apart. */
    same(moonhalyard_apart(state, 8, state + 8, 8), 1);
    same(moonhalyard_apart(state + 8, 8, state, 8), 1);
    same(moonhalyard_apart(state + 7, 8, state, 8), 0);
    same(moonhalyard_apart(state, 0, state, 8), 1);
    same(moonhalyard_collect(state, sizeof state - 1, state, 0), 18);
}

/* Collects all that goes out, and takes the first choice, until there is none. */
static int ended(uint8_t *of)
{
    uint8_t message[MOONHALYARD_MESSAGE];
    for (int steps = 0;; steps++) {
        while (moonhalyard_collect(of, MOONHALYARD_STATE, message, sizeof message) == 0)
            ;
        if (moonhalyard_offers_many(moonhalyard_offers(of, MOONHALYARD_STATE)) == 0 || steps == 100000)
            return steps;
        same(moonhalyard_step_refusal(moonhalyard_offer(of, MOONHALYARD_STATE, 0)), 0);
        same(moonhalyard_step_refusal(moonhalyard_step(of, MOONHALYARD_STATE, 0)), 0);
    }
}

static void *texts_in(void *none)
{
    texts();
    draws();
    return none;
}

static void *calls_in(void *none)
{
    offsets();
    drops();
    lists();
    tells();
    overlaps();
    same(ended(state) > 0, 1);
    return none;
}

/* In a thread with just so much stack. */
static void in_stack(size_t kib, void *(*work)(void *))
{
    pthread_attr_t how;
    pthread_t thread;
    pthread_attr_init(&how);
    same(pthread_attr_setstacksize(&how, kib << 10), 0);
    same(pthread_create(&thread, &how, work, NULL), 0);
    pthread_join(thread, NULL);
}

/* The seal of bytes, by hand for two; a byte that is changed, or two that change places, are told. */
static void sealed(void)
{
    uint8_t kept[2] = {97, 98};
    same(moonhalyard_seal(kept, 0), 1);
    same(moonhalyard_seal(kept, 1), 98ull << 32 | 98);
    uint64_t seal = moonhalyard_seal(kept, 2);
    same(seal, (98ull + 196) << 32 | 196);
    kept[0] = 98, kept[1] = 97;
    same(moonhalyard_seal(kept, 2) == seal, 0);
    kept[0] = 97;
    same(moonhalyard_seal(kept, 2) == seal, 0);
}

/* A state that was kept is brought up to date, and goes on. */
static void kept(const char *name)
{
    static uint8_t old[1 << 16];
    size_t n = contents(name, old, sizeof old);
    same(moonhalyard_upgrade(old, n, state, sizeof state), 0);
    same(memcmp(state, MOONHALYARD_MARK, 8), 0);
    /* Its messages are those that waited; before MOONHAL4 they had 28 bytes from the same place on, and no partner to reply to. */
    if (old[7] < '4')
        for (uint32_t i = 0; i < MOONHALYARD_MESSAGES_MOST; i++) {
            same(memcmp(moonhalyard_message(state, i), old + MOONHALYARD_MESSAGES + 28 * i, 28), 0);
            same(moonhalyard_number(moonhalyard_message(state, i) + MOONHALYARD_MESSAGE_REPLY), 0);
        }
    printf("%s: %u offered,", strrchr(name, '/') ? strrchr(name, '/') + 1 : name, moonhalyard_offers_many(moonhalyard_offers(state, sizeof state)));
    printf(" %d steps,", ended(state));
    for (int at = MOONHALYARD_TALLY_STARTED; at <= MOONHALYARD_TALLY_LEFT; at += 4)
        printf(" %u", moonhalyard_number(state + at));
    printf("\n");
    memcpy(before, state, sizeof state);
    same(moonhalyard_upgrade(old, n - 1, state, sizeof state), 17);
    /* A version that is still to come. */
    old[7] = '9';
    same(moonhalyard_upgrade(old, n, state, sizeof state), 17);
    old[7] = MOONHALYARD_MARK[7];
    same(moonhalyard_upgrade(old, n, state, sizeof state - 1), 18);
    same(memcmp(state, before, sizeof state), 0);
}

int main(int argc, char **argv)
{
    text_length = argc > 1 ? contents(argv[1], text, sizeof text) : 0;
    readers();
    words();
    sealed();
    in_stack(512, texts_in);
    in_stack(256, calls_in);
    for (int i = 2; i < argc; i++)
        kept(argv[i]);
    return wrong > 0;
}
