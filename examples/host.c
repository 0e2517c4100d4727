/* A small host: it keeps a state in a file and does one thing to it each time that it is run, so that each run is a restart.

     host FILE load PLAN          a fresh state with the plan that the text file PLAN says, in place of what FILE holds
     host FILE post P O VALUE..   posts a message to partner P's operation O, with one to four values; reply R behind them is the partner to reply to
     host FILE offers             how many steps are offered, and what each would do
     host FILE step CHOICE        takes a step
     host FILE run BUDGET CHOICE..
     host FILE collect            hands out a message
     host FILE tally              how many orders started, and how they ended
     host FILE orders             the live orders, and their variables

   Its status is 0 where the command was done, 1 where it was refused or failed, 2 where it was not understood.

   Cut off at any moment it leaves the old state or the new one: what it saves is written whole under a name of its own, brought to disk, renamed over
   the old, and the folder is brought to disk. Two hosts on one file wait for each other: a lock on FILE.lock is held from before the state is read until
   after it is saved. What is handed out is handed out first and saved then, so that a host that is cut off between hands it out twice, and never not at
   all.

     cc host.c $(pkg-config --cflags --libs moonhalyard) -o host */
#define _GNU_SOURCE
#include <moonhalyard.h>

#include <errno.h>
#include <fcntl.h>
#include <limits.h>
#include <stdarg.h>
#include <stdio.h>
#include <stdlib.h>
#include <string.h>
#include <sys/file.h>
#include <unistd.h>

static uint8_t state[MOONHALYARD_STATE];

static void fail(const char *format, ...)
{
    va_list rest;
    va_start(rest, format);
    vprintf(format, rest);
    va_end(rest);
    printf("\n");
    exit(1);
}

/* The whole of a file, up to `room` bytes; -1 where it cannot be read, or has more. */
static long contents(const char *name, uint8_t *to, size_t room)
{
    uint8_t more;
    size_t have = 0;
    int file = open(name, O_RDONLY | O_CLOEXEC);
    if (file < 0)
        return -1;
    for (;;) {
        ssize_t got = have < room ? read(file, to + have, room - have) : read(file, &more, 1);
        if (got < 0 && errno == EINTR)
            continue;
        if (got < 0 || (got > 0 && have == room)) {
            close(file);
            return -1;
        }
        if (got == 0) {
            close(file);
            return (long)have;
        }
        have += (size_t)got;
    }
}

/* A lock of all hosts on this file, until this one ends. It is beside the file, which a save replaces by another. */
static int locked(const char *name)
{
    static char beside[PATH_MAX];
    int file;
    if (snprintf(beside, sizeof beside, "%s.lock", name) >= (int)sizeof beside)
        return 0;
    file = open(beside, O_RDWR | O_CREAT | O_CLOEXEC, 0600);
    if (file < 0)
        return 0;
    while (flock(file, LOCK_EX) != 0)
        if (errno != EINTR)
            return 0;
    return 1;
}

/* Whether the state that the file holds is read, of whatever version it is. */
static int restored(const char *name)
{
    static uint8_t old[1 << 20];
    long n = contents(name, old, sizeof old);
    return n >= 0 && moonhalyard_upgrade(old, (size_t)n, state, sizeof state) == 0;
}

static int written(int file)
{
    size_t done = 0;
    while (done < sizeof state) {
        ssize_t put = write(file, state + done, sizeof state - done);
        if (put < 0 && errno == EINTR)
            continue;
        if (put <= 0)
            return 0;
        done += (size_t)put;
    }
    return fsync(file) == 0;
}

/* Whether the folder in which a name stands is on the disk. */
static int folder_kept(char *name)
{
    char *slash = strrchr(name, '/');
    int file, kept;
    if (slash == name)
        slash++;
    if (slash)
        *slash = 0;
    file = open(slash ? name : ".", O_RDONLY | O_DIRECTORY | O_CLOEXEC);
    if (file < 0)
        return 0;
    kept = fsync(file) == 0;
    close(file);
    return kept;
}

/* Whether the state is in the file, on the disk. */
static int saved(const char *name)
{
    char other[PATH_MAX];
    int file, good;
    if (snprintf(other, sizeof other, "%s.XXXXXX", name) >= (int)sizeof other)
        return 0;
    file = mkstemp(other);
    if (file < 0)
        return 0;
    good = written(file);
    good = close(file) == 0 && good && rename(other, name) == 0;
    if (!good) {
        unlink(other);
        return 0;
    }
    return folder_kept(other);
}

/* A number in digits, with nothing before or behind them, up to `most`. */
static int is_number(const char *digits, uint64_t most, uint64_t *number)
{
    uint64_t n = 0;
    if (!*digits)
        return 0;
    for (; *digits; digits++) {
        uint64_t digit = (uint64_t)(*digits - '0');
        if (*digits < '0' || *digits > '9' || n > (most - digit) / 10)
            return 0;
        n = 10 * n + digit;
    }
    *number = n;
    return 1;
}

/* A step; whether it was refused. */
static int print_step(const char *word, uint64_t answer)
{
    static const char *const ends[] = {"", ", the order ended well", ", the order ended handled", ", the order failed", ", the order left"};
    uint32_t refusal = moonhalyard_step_refusal(answer), end = moonhalyard_step_end(answer);
    if (refusal) {
        printf("%s: refused, %u: %s\n", word, refusal, moonhalyard_says(refusal));
        return 1;
    }
    printf("%s: slot %u, activity %u, message place %u%s", word, moonhalyard_step_slot(answer), moonhalyard_step_activity(answer), moonhalyard_step_place(answer),
           end < 5 ? ends[end] : "");
    if (end == MOONHALYARD_END_HANDLED || end == MOONHALYARD_END_FAILED)
        printf(", fault %u", moonhalyard_step_fault(answer));
    printf("\n");
    return 0;
}

static int load(const char *plan_name)
{
    static uint8_t text[1 << 17], plan[4096];
    uint64_t answer;
    long n = contents(plan_name, text, sizeof text);
    if (n < 0)
        fail("load: cannot read %s", plan_name);
    answer = moonhalyard_text(text, (size_t)n, plan, sizeof plan);
    if (moonhalyard_answer_refusal(answer))
        fail("load: %s, line %u: %s", plan_name, moonhalyard_answer_place(answer), moonhalyard_says(moonhalyard_answer_refusal(answer)));
    n = moonhalyard_answer_many(answer);
    answer = moonhalyard_load(plan, (size_t)n, state, sizeof state);
    if (moonhalyard_answer_refusal(answer))
        fail("load: refused, %u: %s", moonhalyard_answer_refusal(answer), moonhalyard_says(moonhalyard_answer_refusal(answer)));
    printf("load: a plan of %u bytes\n", (unsigned)n);
    return 0;
}

static int post(const uint64_t *numbers, int many, uint64_t reply)
{
    uint32_t v[4] = {0, 0, 0, 0};
    uint32_t refusal;
    for (int i = 0; i < 4 && i + 2 < many; i++)
        v[i] = (uint32_t)numbers[i + 2];
    refusal = moonhalyard_post(state, sizeof state, (uint32_t)numbers[0], (uint32_t)numbers[1], (uint32_t)many - 2, v[0], v[1], v[2], v[3],
                               (uint32_t)reply);
    if (refusal)
        printf("post: refused, %u: %s\n", refusal, moonhalyard_says(refusal));
    else
        printf("post: it waits\n");
    return refusal != 0;
}

static int offers(void)
{
    uint64_t answer = moonhalyard_offers(state, sizeof state);
    uint32_t refusal = moonhalyard_offers_refusal(answer);
    if (refusal) {
        printf("offers: refused, %u: %s\n", refusal, moonhalyard_says(refusal));
        return 1;
    }
    printf("offers: %u, %s\n", moonhalyard_offers_many(answer), moonhalyard_offers_held(answer) ? "something is held" : "nothing is held");
    for (uint32_t i = 0; i < moonhalyard_offers_many(answer); i++)
        print_step("  offered", moonhalyard_offer(state, sizeof state, i));
    return 0;
}

static int run(const uint64_t *numbers, int many)
{
    uint64_t budget = numbers[0];
    uint32_t refusal = moonhalyard_run(state, sizeof state, numbers + 1, (size_t)many - 1, &budget);
    printf("run: %llu steps, refusal %u, %llu left of the budget\n", (unsigned long long)(numbers[0] - budget), refusal, (unsigned long long)budget);
    return 0;
}

static int collect(void)
{
    uint8_t message[MOONHALYARD_MESSAGE];
    uint32_t refusal = moonhalyard_collect(state, sizeof state, message, sizeof message);
    if (refusal) {
        printf("collect: refused, %u: %s\n", refusal, moonhalyard_says(refusal));
        return 1;
    }
    printf("collect: to partner %u, operation %u:", moonhalyard_number(message + MOONHALYARD_MESSAGE_PARTNER),
           moonhalyard_number(message + MOONHALYARD_MESSAGE_OPERATION));
    for (uint32_t i = 0; i < moonhalyard_number(message + MOONHALYARD_MESSAGE_COUNT) && i < MOONHALYARD_MESSAGE_VALUES_MOST; i++)
        printf(" %u", moonhalyard_number(message + MOONHALYARD_MESSAGE_VALUES + 4 * i));
    printf(", reply to partner %u\n", moonhalyard_number(message + MOONHALYARD_MESSAGE_REPLY));
    return 0;
}

static int tally(void)
{
    printf("tally: started %u, well %u, handled %u, failed %u, left %u\n", moonhalyard_number(state + MOONHALYARD_TALLY_STARTED),
           moonhalyard_number(state + MOONHALYARD_TALLY_WELL), moonhalyard_number(state + MOONHALYARD_TALLY_HANDLED),
           moonhalyard_number(state + MOONHALYARD_TALLY_FAILED), moonhalyard_number(state + MOONHALYARD_TALLY_LEFT));
    return 0;
}

/* What a state says of itself is read by the header's offsets. */
static int orders(void)
{
    printf("orders: %u messages wait\n", (unsigned)moonhalyard_long(state + MOONHALYARD_WAITING));
    for (uint32_t slot = 0; slot < MOONHALYARD_ORDERS_MOST; slot++) {
        const uint8_t *order = moonhalyard_order(state, slot);
        if (order[MOONHALYARD_ORDER_ROOT] == 0)
            continue;
        printf("  order %u:", slot);
        for (int i = 0; i < MOONHALYARD_ORDER_VALUES_MOST; i++)
            if (order[MOONHALYARD_ORDER_BOUND + i])
                printf(" v%d is %u", i, moonhalyard_number(order + MOONHALYARD_ORDER_VALUES + 4 * i));
        printf("\n");
    }
    return 0;
}

int main(int argc, char **argv)
{
    const char *word = argc > 2 ? argv[2] : "";
    uint64_t numbers[1024];
    int many = argc - 3, changes = 1, replies = 0, refused;
    if (argc < 3) {
        printf("usage: host FILE load|post|offers|step|run|collect|tally|orders ..\n");
        return 2;
    }
    /* The word before the last number is left out, and the number is the partner to reply to. */
    if (many > 1 && strcmp(word, "post") == 0 && strcmp(argv[argc - 2], "reply") == 0)
        argv[argc - 2] = argv[argc - 1], many--, replies = 1;
    if (many > 1024)
        fail("%s: too many numbers", word);
    for (int i = 0; i < many && strcmp(word, "load") != 0; i++)
        if (!is_number(argv[i + 3], strcmp(word, "post") == 0 ? UINT32_MAX : UINT64_MAX, &numbers[i])) {
            printf("%s: '%s' is no number\n", word, argv[i + 3]);
            return 2;
        }
    if (!locked(argv[1]))
        fail("%s: no lock on %s", word, argv[1]);
    if (strcmp(word, "load") != 0 && !restored(argv[1]))
        fail("%s: no state in %s", word, argv[1]);
    if (strcmp(word, "load") == 0 && many == 1)
        refused = load(argv[3]);
    else if (strcmp(word, "post") == 0 && many - replies >= 3)
        refused = post(numbers, many - replies, replies ? numbers[many - 1] : 0);
    else if (strcmp(word, "offers") == 0 && many == 0)
        refused = offers(), changes = 0;
    else if (strcmp(word, "step") == 0 && many == 1)
        refused = print_step("step", moonhalyard_step(state, sizeof state, numbers[0]));
    else if (strcmp(word, "run") == 0 && many >= 1)
        refused = run(numbers, many);
    else if (strcmp(word, "collect") == 0 && many == 0)
        refused = collect();
    else if (strcmp(word, "tally") == 0 && many == 0)
        refused = tally(), changes = 0;
    else if (strcmp(word, "orders") == 0 && many == 0)
        refused = orders(), changes = 0;
    else {
        printf("%s: no such command, or not with so many numbers\n", word);
        return 2;
    }
    /* What was answered must have gone out before what it says becomes lasting. */
    if (fflush(stdout) != 0)
        return 1;
    if (changes && !refused && !saved(argv[1]))
        fail("%s: the state could not be saved in %s", word, argv[1]);
    return refused;
}
