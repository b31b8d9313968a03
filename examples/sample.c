/* The paper's sample plan P and its journal, by the calls, with its events on day 0 and society 1 making them. Prints what `unwind` prints for
 * them, and then on which date the last event was, what an event the day before gets, what a society without the right gets, how many entries each
 * track can ask for, what either limit allows, and what the ledger gets under another plan. */
#include <stdio.h>

#include "retraction.h"

enum { TRACKS = 3, ROOT = RETRACTION_NONE, NONE = RETRACTION_NONE };

/* Each call on the ledger is at the main program's limit, which its begin is at. */
enum { OPTIONS = RETRACTION_LIMIT_32 };

/* The society that has every right over track 0 and what is under it, and one that has none. */
enum { SOCIETY = 1, STRANGER = 2 };

/* Records: length, kind, fields; the plan's bytes are these words, little-endian. */
static const uint16_t records[] = {
    6, 1, ROOT, 6, 1, 1, 6, 1, 1,
    10, 2, 0, 0, 0, 10, 2, 0, 0, 90, 10, 2, 0, 1, 0,
    10, 2, 1, 0, 0, 10, 2, 1, 1, 0,
    10, 2, 2, 0, 0, 10, 2, 2, 0, 0, 10, 2, 2, 1, 0,
    14, 3, 0, 10, 50, NONE, 1,
    14, 3, 1, 13, 0, NONE, 2,
    14, 3, 3, 11, 51, NONE, 4,
    14, 3, 5, 12, 52, NONE, 6,
    14, 3, 6, 14, 54, NONE, 7,
    10, 6, SOCIETY, 0, 7,
    4, 4,
};

enum { WORDS = sizeof records / sizeof records[0] };

/* Where the code of the first transition stands in the plan's bytes, after 3 tracks and 8 states. */
enum { FIRST_CODE = 3 * 6 + 8 * 10 + 8 };

static uint8_t plan[2 * WORDS];
static uint16_t ledger[RETRACTION_LEDGER_WORDS(TRACKS, OPTIONS)];
static const size_t room = sizeof ledger / sizeof ledger[0];

/* A plan of one root: event 1 leaves it in its state, with code 50 to take it back. */
static const uint16_t loop[] = { 6, 1, ROOT, 10, 2, 0, 0, 0, 14, 3, 0, 1, 50, NONE, 0, 10, 6, SOCIETY, 0, 7, 4, 4 };

/* The bytes of so many words. */
static void lay_out(const uint16_t *words, size_t count, uint8_t *bytes)
{
    for (size_t i = 0; i < count; i++) {
        bytes[2 * i] = (uint8_t)(words[i] & 255);
        bytes[2 * i + 1] = (uint8_t)(words[i] >> 8);
    }
}

static void print_event(uint16_t event, int32_t day)
{
    uint64_t answer = retraction_event(plan, sizeof plan, ledger, room, event, day, SOCIETY, OPTIONS);
    if (retraction_refusal(answer) != 0)
        printf("R %u\n", retraction_refusal(answer));
    else
        printf("E %u %u %u\n", event, retraction_first(answer), retraction_second(answer));
}

static void print_signal(void)
{
    uint64_t answer = retraction_signal(plan, sizeof plan, ledger, room, SOCIETY, OPTIONS);
    if (retraction_refusal(answer) != 0)
        printf("R %u\n", retraction_refusal(answer));
    else
        printf("S %u\n", retraction_first(answer));
}

/* The lowest track that may be fired, or one that does not exist. */
static uint16_t lowest_ready(void)
{
    uint32_t ready = retraction_tracks(retraction_ready(plan, sizeof plan, ledger, room, OPTIONS));
    uint16_t track = 0;
    while (track < 32 && (ready >> track & 1) == 0)
        track++;
    return track;
}

/* Whether a firing was done. */
static int print_firing(uint16_t track)
{
    uint64_t answer = retraction_fire(plan, sizeof plan, ledger, room, track, SOCIETY, OPTIONS);
    uint16_t deviation = retraction_second(answer);
    if (retraction_refusal(answer) != 0) {
        printf("R %u\n", retraction_refusal(answer));
        return 0;
    }
    if (deviation == NONE)
        printf("F %u %u -\n", track, retraction_first(answer));
    else
        printf("F %u %u %u\n", track, retraction_first(answer), deviation);
    return 1;
}

static unsigned entries_held(void)
{
    unsigned words = 0;
    for (uint16_t track = 0; track < TRACKS; track++)
        words += retraction_part_count(retraction_entries(plan, sizeof plan, ledger, room, track, OPTIONS));
    return words / 2;
}

/* The ledger keeps the day of the last accepted event. Days never fall: an event on the day before is refused. */
static void print_last_day(void)
{
    int32_t day = retraction_ledger_day(ledger);
    uint64_t date = retraction_date_of_day(day);
    uint64_t answer = retraction_event(plan, sizeof plan, ledger, room, 10, day - 1, SOCIETY, OPTIONS);
    uint16_t refusal = retraction_refusal(answer);
    printf("last event on %u-%02u-%02u\n", retraction_first(date), retraction_second(date), retraction_third(date));
    printf("R %u: %s\n", refusal, retraction_refusal_text(refusal));
}

/* The plan names one society. Another one has no right under it, so that its signal is refused. */
static void print_without_the_right(void)
{
    uint16_t refusal = retraction_refusal(retraction_signal(plan, sizeof plan, ledger, room, STRANGER, OPTIONS));
    printf("R %u: %s\n", refusal, retraction_refusal_text(refusal));
}

/* The most entries that each track can ask for, of the plan alone; and how track 2 comes to its own, by transition numbers. */
static void print_largest(void)
{
    uint16_t steps = retraction_second(retraction_largest(plan, sizeof plan, 2));
    printf("most entries:");
    for (uint16_t track = 0; track < TRACKS; track++)
        printf(" %u", retraction_first(retraction_largest(plan, sizeof plan, track)));
    printf("\ntrack 2 by transitions:");
    for (uint16_t index = 0; index < steps; index++)
        printf(" %u", retraction_first(retraction_largest_step(plan, sizeof plan, 2, index)));
    printf("\n");
}

/* How many entries a track takes at a limit: events that leave one each are accepted so often. */
static unsigned entries_until_full(uint32_t options)
{
    uint8_t bytes[sizeof loop];
    uint16_t lent[RETRACTION_LEDGER_WORDS(1, RETRACTION_LIMIT_32)];
    size_t words = RETRACTION_LEDGER_WORDS(1, options);
    unsigned taken = 0;
    lay_out(loop, sizeof loop / sizeof loop[0], bytes);
    retraction_begin(bytes, sizeof bytes, lent, words, options);
    while (retraction_refusal(retraction_event(bytes, sizeof bytes, lent, words, 1, 0, SOCIETY, options)) == 0)
        taken++;
    return taken;
}

/* A reading room's machine gives its own limit on each call: its ledgers have fewer words, and its tracks are full sooner. */
static void print_limits(void)
{
    static const uint32_t limits[] = { RETRACTION_LIMIT_32, RETRACTION_LIMIT_8 };
    for (size_t i = 0; i < sizeof limits / sizeof limits[0]; i++)
        printf("limit %u: a ledger of %u words, a track full with %u entries\n", (unsigned)RETRACTION_LIMIT(limits[i]),
               (unsigned)RETRACTION_LEDGER_WORDS(TRACKS, limits[i]), entries_until_full(limits[i]));
}

/* A neighbour's plan differs from this one in a single code. The ledger, lent with it by mistake, is refused. */
static void print_under_another_plan(void)
{
    plan[FIRST_CODE] = 60;
    uint16_t refusal = retraction_refusal(retraction_ready(plan, sizeof plan, ledger, room, OPTIONS));
    printf("R %u: %s\n", refusal, retraction_refusal_text(refusal));
}

int main(void)
{
    unsigned firings = 0;
    lay_out(records, WORDS, plan);
    uint64_t read = retraction_read(plan, sizeof plan);
    uint64_t begun = retraction_begin(plan, sizeof plan, ledger, room, OPTIONS);
    if (retraction_refusal(begun) != 0) {
        printf("R %u\n", retraction_refusal(begun));
        fprintf(stderr, "sample: %s\n", retraction_refusal_text(retraction_refusal(begun)));
        return 1;
    }
    printf("PLAN %u %u %u\n", retraction_first(read), retraction_second(read), retraction_third(read));
    int32_t day = retraction_day(retraction_day_of_date(1900, 1, 1));
    print_event(10, day);
    print_event(11, day);
    print_event(12, day);
    print_signal();
    /* The only root is taken back, and none has reached its end: the ledger is not over, so the fourth firing is refused as 22, not as 20. */
    for (int i = 0; i < 4; i++)
        firings += (unsigned)print_firing(lowest_ready());
    printf("H %u %u\n", entries_held(), firings);
    print_last_day();
    print_without_the_right();
    print_largest();
    print_limits();
    print_under_another_plan();
    return 0;
}
