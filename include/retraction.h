/* The retraction manager's calls. Link with libretraction.a: `pkg-config --cflags --libs retraction`.
 *
 * Every call but the two conversions is given the plan's bytes. All of these but read, largest and largest step are lent a ledger as well, and
 * are given the caller's options, which tell the limit. A ledger has four leading words, then 3 + 2 * limit words for each track of the plan;
 * words beyond are never touched. Any bytes, any words and any options may be given. A refused call changes no word.
 * docs/FORMATS.md says what the bytes and the words are, docs/REFUSALS.md what each refusal means.
 *
 * The limit is the most entries that a track holds: 32 for the main program, 8 for the reading rooms' machine. Bit 0 of the options tells it,
 * clear for 32 and set for 8; the other bits are ignored. Each call reads the ledger at the limit that it is given: how many words it needs, where
 * a track's words stand, how high the count may go, and when a track is full. No word of a ledger names its limit. A caller keeps to the limit of
 * the begin: a ledger that was begun at one limit is promised neither to be sound nor to be refused at the other.
 *
 *   word of a ledger   what it is; w is 67 at limit 32 and 19 at limit 8
 *   0                  the plan's length in bytes
 *   1                  the sum of the plan's bytes, taken as little-endian 16-bit numbers, modulo 65536
 *   2, 3               the last accepted day as a signed 32-bit number, its low word first
 *   4 + w * t          track t's mode: 0 asleep, 1 forward, 2 undoing
 *   5 + w * t          its state
 *   6 + w * t          the count of entries that it holds, 0 to the limit
 *   7 + w * t          the first of its pairs of code and deviation, as many as the limit, oldest first, unused pairs zero
 *
 * Begin writes the leading words. Event, signal, fire, ready and entries test the first two: a ledger that was begun under a plan of another
 * length or sum is refused as 24, checked between 17 and 18. So are zeros: a ledger starts with a begin.
 *
 * Each event carries a day. Day 0 is 1 January 1900 by the Gregorian calendar, the day before it is -1, and days go from -109573, 1 January
 * 1600, to 182620, 31 December 2399. A plan may restrict a transition to a window of days: on any other day the track ignores the event. Days
 * never fall from one event to the next. An accepted event leaves its day in the ledger, even where it moves no track, and an event on a day
 * before that, or out of range, is refused as 26, checked between 19 and 20. Begin writes -109573, so that the first event may have any day
 * of the range. Signals and firings carry no day and change none. A ledger whose day is out of range is not sound.
 *
 * Each event, signal and firing is a society's. A plan's rights records say which society may do what: move, signal and fire are three rights,
 * each over a root and every track under it. Without a record nobody has a right. An event moves, and a signal turns, the tracks for which the
 * society has the right and no others; the figures of the answer count those alone. Other tracks stay as they are, and that is no refusal. A
 * society that has the move right nowhere makes no event, one that has the signal right nowhere no signal, and a track is fired by a society
 * with the fire right for it: otherwise the call is refused as 28, checked between 20 and 21. A track that does not exist is 22, whoever asks.
 * Any number may be given as a society. Begin, ready and entries carry none: ready tells which tracks may be fired, not by whom. The ledger's
 * day is the same for all societies, and no word of a ledger names one.
 *
 * A ledger ends once each of its roots is either forward in a final state, or undoing with nothing held and no open scope, and at least one
 * is forward in a final state. Every track then goes to sleep, and what was still held is dropped unfired: the ledger is over. An event may
 * end it, and so may a firing and a signal. Where one root is taken back, and another deviates and reaches its end, whichever comes last ends
 * the ledger. A signal ends it only where a root has ended that the society may not turn. That call gives its answer as ever; the next event,
 * signal or firing is refused as 20, and ready gives 0. A ledger whose roots are all taken back is not over.
 *
 * How many firings are still due can be counted ahead. Where no track is forward, as after a signal that turned every forward track, and no
 * entry held has a deviation, there are exactly as many firings as entries held, in whatever order the tracks are fired, until ready gives 0;
 * and so at any later point. Entries of each track tells how many those are.
 *
 * Largest and largest step tell how much a track can ever hold, before any ledger is begun. A path is transitions of the track, from its first
 * state on, each leaving the state that the one before it leads to. It has one entry for each transition with a code and one for each hosting
 * state with a replacement, its first and last state included. Largest gives the largest number of entries along any path and the length of
 * such a path; largest step gives the transition at an index of it, from 0 on. Which of several paths with so many entries it is, is free; it
 * is the same one in every call on the same plan. No history, whatever its days and rights, makes the track hold more. The figure knows no
 * limit: one above what a track can hold is told as it is. A plan with a deviation, or with a cycle of transitions, a step from a state to
 * itself included and reached or not, is refused as 29 by these two calls and by no other, checked after 27.
 *
 * What a caller owes: a pointer is not null, even where its length is 0, and holds so many bytes or words; the ledger's is at an even
 * address; the plan and the ledger do not overlap; and nothing else writes to either during a call. Plans alike in length and sum are not
 * told apart: among those a ledger is kept with the plan that it was begun under. Limits are not told apart either: a ledger is kept at the
 * limit that it was begun at. A society is taken as it is given: whether the call is really that society's is for the caller to know.
 *
 * The calls are reentrant and thread-safe: none allocates, keeps a pointer, prints, or has any state but the ledger lent to it. A ledger's
 * words have the machine's own byte order; a plan's bytes are little-endian everywhere.
 *
 * The answer is one number. Its bits 0 to 15 are the refusal, 0 where the call was accepted; a refusal stands alone.
 *
 *   call          bits 16 to 31    bits 32 to 47    bits 48 to 63
 *   read          tracks           states           transitions
 *   begin         0                0                0
 *   event         tracks moved     scopes closed    0
 *   signal        tracks turned    0                0
 *   fire          code             deviation        0                (65535 for no deviation)
 *   ready         0                bits 32 to 63: bit n of that number is set exactly if track n may be fired
 *   date of day   year             month            day              (months and days are counted from 1)
 *   day of date   0                bits 32 to 63: the day as a signed 32-bit number
 *   largest       entries          length of path   0                (0 and 0 where the track does not exist)
 *   largest step  transition       0                0                (65535 beyond the path, or where the track does not exist)
 *
 * Entries answers otherwise: bits 0 to 15 are the count of words of the part of the ledger that holds the track's pairs of code and
 * deviation, oldest first, and bits 16 to 47 are the index of its first word. It is 0, the empty part, if the plan or the ledger is
 * refused, the track does not exist, or it holds nothing; ready tells the refusal.
 *
 * The conversions go from a day to its date and back, without loss. They refuse as 26, and as nothing else, a day out of range, a date that
 * does not exist, such as 30 February 1900, and one before 1600 or after 2399. */
#ifndef RETRACTION_H
#define RETRACTION_H

#include <stddef.h>
#include <stdint.h>

#ifdef __cplusplus
extern "C" {
#endif

/* 10000 times the major version, 100 times the minor one, and the patch. */
#define RETRACTION_VERSION 700
#define RETRACTION_VERSION_TEXT "0.7.0"

/* A call's options: the limit that the caller keeps to. It is 32 for the main program and 8 for the reading rooms. */
enum retraction_options {
    RETRACTION_LIMIT_32 = 0,
    RETRACTION_LIMIT_8 = 1
};

/* The most entries that a track holds under these options. */
#define RETRACTION_LIMIT(options) ((uint32_t)(options) & RETRACTION_LIMIT_8 ? 8u : 32u)

/* Words of a ledger under these options: the leading ones, those of each track, and all of them with so many tracks. Read tells a plan's
 * tracks. */
#define RETRACTION_LEADING_WORDS 4
#define RETRACTION_TRACK_WORDS(options) (3 + 2 * (size_t)RETRACTION_LIMIT(options))
#define RETRACTION_LEDGER_WORDS(tracks, options) (RETRACTION_LEADING_WORDS + RETRACTION_TRACK_WORDS(options) * (size_t)(tracks))

/* The most tracks that a plan has: a ledger of RETRACTION_LEDGER_WORDS(RETRACTION_MOST_TRACKS, RETRACTION_LIMIT_32) words serves every plan at
 * either limit. */
#define RETRACTION_MOST_TRACKS 32

/* The range of days: 1 January 1600 and 31 December 2399. */
#define RETRACTION_FIRST_DAY (-109573)
#define RETRACTION_LAST_DAY 182620

/* A host, a deviation or a step of a path that is none. */
#define RETRACTION_NONE 65535

/* The refusals, in checking order: 25 and then 27 come after 16, 24 between 17 and 18, 26 between 19 and 20, 28 between 20 and 21. 29, after 27,
 * is for largest and largest step alone. 1 and 23 are the program's alone. */
enum retraction_refusals {
    RETRACTION_TOO_LONG = 1,
    RETRACTION_NO_RECORD = 2,
    RETRACTION_KIND = 3,
    RETRACTION_LENGTH = 4,
    RETRACTION_CUT_SHORT = 5,
    RETRACTION_TOO_MANY = 6,
    RETRACTION_AFTER_END = 7,
    RETRACTION_NO_TRACK = 8,
    RETRACTION_STATE = 9,
    RETRACTION_HOST = 10,
    RETRACTION_FIRST_STATE = 11,
    RETRACTION_HOSTING = 12,
    RETRACTION_TRANSITION = 13,
    RETRACTION_DEVIATION = 14,
    RETRACTION_SAME_EVENT = 15,
    RETRACTION_HEIGHT = 16,
    RETRACTION_WINDOW = 25,
    RETRACTION_RIGHTS = 27,
    RETRACTION_UNBOUNDED = 29,
    RETRACTION_FEW_WORDS = 17,
    RETRACTION_OTHER_PLAN = 24,
    RETRACTION_UNSOUND = 18,
    RETRACTION_EVENT_ZERO = 19,
    RETRACTION_DAY = 26,
    RETRACTION_OVER = 20,
    RETRACTION_NO_RIGHT = 28,
    RETRACTION_FULL = 21,
    RETRACTION_NOT_READY = 22,
    RETRACTION_BROKEN_RECORD = 23
};

uint64_t retraction_read(const uint8_t *plan, size_t plan_len);
uint64_t retraction_begin(const uint8_t *plan, size_t plan_len, uint16_t *ledger, size_t ledger_len, uint32_t options);
uint64_t retraction_event(const uint8_t *plan, size_t plan_len, uint16_t *ledger, size_t ledger_len, uint16_t event, int32_t day, uint16_t society, uint32_t options);
uint64_t retraction_signal(const uint8_t *plan, size_t plan_len, uint16_t *ledger, size_t ledger_len, uint16_t society, uint32_t options);
uint64_t retraction_fire(const uint8_t *plan, size_t plan_len, uint16_t *ledger, size_t ledger_len, uint16_t track, uint16_t society, uint32_t options);
uint64_t retraction_ready(const uint8_t *plan, size_t plan_len, uint16_t *ledger, size_t ledger_len, uint32_t options);
uint64_t retraction_entries(const uint8_t *plan, size_t plan_len, const uint16_t *ledger, size_t ledger_len, uint16_t track, uint32_t options);
uint64_t retraction_date_of_day(int32_t day);
uint64_t retraction_day_of_date(uint16_t year, uint16_t month, uint16_t day);
uint64_t retraction_largest(const uint8_t *plan, size_t plan_len, uint16_t track);
uint64_t retraction_largest_step(const uint8_t *plan, size_t plan_len, uint16_t track, uint16_t index);

/* The parts of an answer. */
static inline uint16_t retraction_refusal(uint64_t answer) { return (uint16_t)answer; }
static inline uint16_t retraction_first(uint64_t answer) { return (uint16_t)(answer >> 16); }
static inline uint16_t retraction_second(uint64_t answer) { return (uint16_t)(answer >> 32); }
static inline uint16_t retraction_third(uint64_t answer) { return (uint16_t)(answer >> 48); }
static inline uint32_t retraction_tracks(uint64_t answer) { return (uint32_t)(answer >> 32); }
static inline int32_t retraction_day(uint64_t answer) { return (int32_t)(uint32_t)(answer >> 32); }
static inline uint16_t retraction_part_count(uint64_t answer) { return (uint16_t)answer; }
static inline uint32_t retraction_part_index(uint64_t answer) { return (uint32_t)(answer >> 16); }

/* The last accepted day of a ledger that was begun. */
static inline int32_t retraction_ledger_day(const uint16_t *ledger)
{
    return (int32_t)((uint32_t)ledger[3] << 16 | ledger[2]);
}

/* What a refusal means, in a few words. */
static inline const char *retraction_refusal_text(uint16_t refusal)
{
    switch (refusal) {
    case 0: return "accepted";
    case RETRACTION_TOO_LONG: return "the plan file or the journal is longer than 32768 bytes";
    case RETRACTION_NO_RECORD: return "fewer than 4 bytes remain where a record must start";
    case RETRACTION_KIND: return "a record's kind is not 1 to 6, or falls in the order 1, 2, 3, 5, 6, 4";
    case RETRACTION_LENGTH: return "a record's length is not that of its kind";
    case RETRACTION_CUT_SHORT: return "a record runs past the last byte";
    case RETRACTION_TOO_MANY: return "there is a 33rd track, a 129th state or a 257th transition";
    case RETRACTION_AFTER_END: return "bytes follow the end record";
    case RETRACTION_NO_TRACK: return "the plan has no track";
    case RETRACTION_STATE: return "a state names no track, or its final field is above 1";
    case RETRACTION_HOST: return "a host is neither 65535 nor a state of a lower-numbered track";
    case RETRACTION_FIRST_STATE: return "a track has no state, or its first state is final";
    case RETRACTION_HOSTING: return "a final state hosts a track, or a state that hosts none has a replacement";
    case RETRACTION_TRANSITION: return "a transition's source, destination or event does not fit";
    case RETRACTION_DEVIATION: return "a deviation does not fit its transition";
    case RETRACTION_SAME_EVENT: return "two transitions share source and event";
    case RETRACTION_HEIGHT: return "a track's height is above 8";
    case RETRACTION_WINDOW: return "a window names no transition, repeats one, ends before it begins or leaves the day range";
    case RETRACTION_RIGHTS: return "a rights record names no root, has a sum outside 1 to 7, repeats a pair or is the 65th";
    case RETRACTION_UNBOUNDED: return "the plan has a deviation or a cycle of transitions";
    case RETRACTION_FEW_WORDS: return "the ledger has too few words for the plan";
    case RETRACTION_OTHER_PLAN: return "the ledger's first two words are not those of this plan";
    case RETRACTION_UNSOUND: return "the ledger is not sound under this plan";
    case RETRACTION_EVENT_ZERO: return "the event is 0";
    case RETRACTION_DAY: return "the day or the date is out of range, or the event's day is before the last accepted one";
    case RETRACTION_OVER: return "the ledger is over";
    case RETRACTION_NO_RIGHT: return "the society has no fire right for the track, or no move or signal right anywhere";
    case RETRACTION_FULL: return "a track that the event gives an entry already holds as many as the limit";
    case RETRACTION_NOT_READY: return "the track may not be fired now, or does not exist";
    case RETRACTION_BROKEN_RECORD: return "a journal record is broken";
    default: return "no such refusal";
    }
}

#ifdef __cplusplus
}
#endif

#endif
