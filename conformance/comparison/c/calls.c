/* Makes the calls that it reads from standard input, on lent buffers with guard words on both sides, and writes each answer with the words
 * afterwards, after a LARGEST also the steps of the path that it shows: a count, and as many answers. Makes each call a second time on
 * buffers that end where memory may not be touched, so that reading too far ends the program, and expects the same. Built with the
 * sanitizers. Ends with status 0 at the end of its input, 1 where an input is broken or memory runs out, 2 where a guard word or the plan
 * was written to, or the second call differs. */
#define _DEFAULT_SOURCE
#include <stdio.h>
#include <stdlib.h>
#include <string.h>
#include <sys/mman.h>
#include <unistd.h>

#include "retraction.h"

enum { BEGIN, EVENT, SIGNAL, FIRE, READY, ENTRIES, READ, DATE_OF_DAY, DAY_OF_DATE, LARGEST, STEP };

/* Guard words on each side. */
enum { GUARDS = 64, GUARD_BYTES = 2 * GUARDS };

/* The argument is an event or a track, or of a date the year and, 16 bits up, the month; its day is the date's then. Of a step it is the
 * track and, 16 bits up, the index. Options are passed on as they are, bits that mean nothing included. */
struct request {
    uint32_t call;
    uint32_t argument;
    int32_t day;
    uint32_t society;
    uint32_t options;
    uint32_t plan_len;
    uint32_t ledger_len;
};

/* A lent buffer: guard words, perhaps a byte to start at an odd address, the bytes lent, guard words. */
struct lent {
    uint8_t *block;
    size_t skip;
    size_t len;
};

/* A guard byte; neighbours differ. */
static uint8_t guard(size_t at)
{
    return (uint8_t)(0xA5u ^ (at * 29u));
}

static uint8_t *part(struct lent lent)
{
    return lent.block + GUARD_BYTES + lent.skip;
}

static void read_exactly(void *to, size_t len)
{
    if (fread(to, 1, len, stdin) != len)
        exit(1);
}

static struct lent lend(size_t len, size_t skip)
{
    size_t whole = GUARD_BYTES + skip + len + GUARD_BYTES;
    struct lent lent = {malloc(whole), skip, len};
    if (lent.block == NULL)
        exit(1);
    for (size_t at = 0; at < whole; at++)
        lent.block[at] = guard(at);
    read_exactly(part(lent), len);
    return lent;
}

static int guards_stand(struct lent lent)
{
    size_t from = GUARD_BYTES + lent.skip, to = from + lent.len;
    for (size_t at = 0; at < from; at++)
        if (lent.block[at] != guard(at))
            return 0;
    for (size_t at = to; at < to + GUARD_BYTES; at++)
        if (lent.block[at] != guard(at))
            return 0;
    return 1;
}

static uint64_t answer(struct request r, const uint8_t *plan, uint16_t *ledger)
{
    uint16_t society = (uint16_t)r.society;
    switch (r.call) {
    case BEGIN: return retraction_begin(plan, r.plan_len, ledger, r.ledger_len, r.options);
    case EVENT: return retraction_event(plan, r.plan_len, ledger, r.ledger_len, (uint16_t)r.argument, r.day, society, r.options);
    case SIGNAL: return retraction_signal(plan, r.plan_len, ledger, r.ledger_len, society, r.options);
    case FIRE: return retraction_fire(plan, r.plan_len, ledger, r.ledger_len, (uint16_t)r.argument, society, r.options);
    case READY: return retraction_ready(plan, r.plan_len, ledger, r.ledger_len, r.options);
    case ENTRIES: return retraction_entries(plan, r.plan_len, ledger, r.ledger_len, (uint16_t)r.argument, r.options);
    case READ: return retraction_read(plan, r.plan_len);
    case DATE_OF_DAY: return retraction_date_of_day(r.day);
    case DAY_OF_DATE: return retraction_day_of_date((uint16_t)r.argument, (uint16_t)(r.argument >> 16), (uint16_t)r.day);
    case LARGEST: return retraction_largest(plan, r.plan_len, (uint16_t)r.argument);
    case STEP: return retraction_largest_step(plan, r.plan_len, (uint16_t)r.argument, (uint16_t)(r.argument >> 16));
    default: exit(1);
    }
}

static void fail(const char *what, size_t number)
{
    fflush(stdout);
    fprintf(stderr, "calls: call %zu %s\n", number, what);
    exit(2);
}

/* Bytes of the memory before an edge: room for every plan and ledger. */
enum { EDGE_BYTES = 1 << 17 };

/* The end of some memory, behind which none may be touched. */
static uint8_t *make_edge(void)
{
    size_t page = (size_t)sysconf(_SC_PAGESIZE);
    uint8_t *memory = mmap(NULL, EDGE_BYTES + page, PROT_READ | PROT_WRITE, MAP_PRIVATE | MAP_ANONYMOUS, -1, 0);
    if (memory == MAP_FAILED || mprotect(memory + EDGE_BYTES, page, PROT_NONE) != 0)
        exit(1);
    return memory + EDGE_BYTES;
}

static uint8_t *plan_edge, *ledger_edge;

/* A copy of the bytes that ends at the edge. */
static uint8_t *at_edge(uint8_t *edge, struct lent lent)
{
    if (lent.len > EDGE_BYTES)
        exit(1);
    return memcpy(edge - lent.len, part(lent), lent.len);
}

/* What a call is given: guarded, and once more at the edge. */
struct given {
    struct lent plan, ledger;
    const uint8_t *same_plan;
    uint16_t *same_ledger;
};

/* Reads the plan, then the ledger. A plan is bytes, so every second one starts at an odd address. */
static struct given give(struct request r, size_t number)
{
    struct given given;
    given.plan = lend(r.plan_len, number % 2);
    given.ledger = lend(2 * (size_t)r.ledger_len, 0);
    given.same_plan = at_edge(plan_edge, given.plan);
    given.same_ledger = (uint16_t *)(void *)at_edge(ledger_edge, given.ledger);
    return given;
}

/* Makes one call, twice. */
static uint64_t answer_twice(struct request r, struct given given, size_t number)
{
    struct lent plan = given.plan, ledger = given.ledger;
    uint64_t first = answer(r, part(plan), (uint16_t *)(void *)part(ledger));
    if (!guards_stand(plan) || !guards_stand(ledger) || memcmp(given.same_plan, part(plan), plan.len) != 0)
        fail("wrote outside the ledger", number);
    uint64_t second = answer(r, given.same_plan, given.same_ledger);
    if (first != second || memcmp(given.same_plan, part(plan), plan.len) != 0 || memcmp(given.same_ledger, part(ledger), ledger.len) != 0)
        fail("differs the second time", number);
    return first;
}

/* Indices asked for at most, which no path has, whatever length it is said to have. */
enum { MOST_STEPS = 300 };

/* The steps of a path of so many, the two indices beyond and the greatest one. */
static void write_steps(struct request r, struct given given, size_t number, uint16_t length)
{
    uint32_t track = r.argument, shown = length < MOST_STEPS ? length : MOST_STEPS, count = shown + 3;
    r.call = STEP;
    fwrite(&count, sizeof count, 1, stdout);
    for (uint32_t at = 0; at < count; at++) {
        uint32_t index = at + 1 < count ? at : 65535;
        r.argument = track | index << 16;
        uint64_t step = answer_twice(r, given, number);
        fwrite(&step, sizeof step, 1, stdout);
    }
}

static void serve(struct request r, size_t number)
{
    struct given given = give(r, number);
    uint64_t first = answer_twice(r, given, number);
    fwrite(&first, sizeof first, 1, stdout);
    fwrite(part(given.ledger), 1, given.ledger.len, stdout);
    if (r.call == LARGEST)
        write_steps(r, given, number, retraction_second(first));
    free(given.plan.block);
    free(given.ledger.block);
}

int main(void)
{
    struct request request;
    plan_edge = make_edge();
    ledger_edge = make_edge();
    for (size_t number = 0; fread(&request, sizeof request, 1, stdin) == 1; number++) {
        serve(request, number);
        if (fflush(stdout) != 0)
            return 1;
    }
    return 0;
}
