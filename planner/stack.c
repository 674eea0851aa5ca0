/*
 * How much stack the register takes.
 *
 *     stack BYTES [CABINETS]
 *
 * Forecasts the longest journals, rewrites them, runs those that make the register climb longest,
 * forecasts these to the byte, and joins them with a small one, each in a thread of its own with a stack
 * of BYTES bytes and a page below it that must not be touched. Prints the bytes that the calls took, and
 * exits with 0 if they are fewer than the header tells. With too small a stack it ends by a signal; run
 * it with falling sizes to find the least, which no thread's stack may go below.
 *
 * The stack is filled with a pattern first; what a call took is counted from the lowest byte that
 * lost the pattern up to the frame that made the call.
 */
#define _GNU_SOURCE
#include "register.h"

#include <pthread.h>
#include <stdio.h>
#include <stdlib.h>
#include <string.h>
#include <sys/mman.h>
#include <unistd.h>

enum { PATTERN = 0xA5, ANSWER_BYTES = 1 << 20, FEW = 4 };

static uint8_t journal[REGISTER_LONGEST_JOURNAL + 1];
static size_t journal_length;
static uint32_t work[REGISTER_WORK(REGISTER_MOST_CABINETS, REGISTER_MOST_SPANS)];
static uint8_t answers[ANSWER_BYTES], rewritten[REGISTER_LONGEST_JOURNAL];
static uint8_t small[REGISTER_LONGEST_JOURNAL], joined[REGISTER_LONGEST_JOURNAL];
static size_t small_length;
static uint32_t report[REGISTER_REPORT];

static unsigned cabinets = REGISTER_MOST_CABINETS;
static uint8_t *stack_low;
static size_t runs_took, forecasts_took, exact_took, rewritings_took, joinings_took;
static int failed;

/* ---- The journals ---- */

/* The duct of every span by 0B, and the metres of every record. */
enum { DUCT = 5 };

/* A command of so many bytes; where it has three operands, the third is DUCT. */
static void put(size_t length, unsigned byte, unsigned a, unsigned b)
{
    const uint8_t bytes[7] = {(uint8_t)byte, (uint8_t)(a >> 8), (uint8_t)a,
                              (uint8_t)(b >> 8), (uint8_t)b, DUCT >> 8, DUCT & 0xFF};
    memcpy(journal + journal_length, bytes, length);
    journal_length += length;
}

static void command(unsigned byte, unsigned a, unsigned b)
{
    put(5, byte, a, b);
}

static void add_in_duct(unsigned a, unsigned b)
{
    put(7, 0x0B, a, b);
}

static void add_cabinets(void)
{
    memset(journal, 0x01, cabinets);
    journal_length = cabinets;
}

/* The names and sizes of a cabinet's district and ring. */
static void ask_names(unsigned cabinet)
{
    put(3, 0x03, cabinet, 0);
    put(3, 0x04, cabinet, 0);
}

/* An exchange at one end, a record of the first span, names and sizes at both ends, both lists from end to
   end, in both directions; then the span that closes the chain, names and sizes again, the two ways round
   it, in both directions, whether the first span is sole, the questions about exchanges, and the lengths
   of a span that has a record and of one that has none. */
static void ask_and_close(unsigned first, unsigned last)
{
    put(3, 0x09, last, 0);
    put(7, 0x0D, 0, 3);
    ask_names(first);
    ask_names(last);
    command(0x06, first, last);
    command(0x06, last, first);
    command(0x07, first, last);
    command(0x07, last, first);
    command(0x05, first, last);
    command(0x02, last, first);
    ask_names(first);
    ask_names(last);
    command(0x06, first, last);
    command(0x0C, first, last);
    command(0x0C, last, first);
    put(3, 0x08, 0, 0);
    put(3, 0x0A, first, 0);
    put(1, 0x0F, 0, 0);
    put(3, 0x0E, 0, 0);
    put(3, 0x0E, 1, 0);
}

/* Each cabinet is put below the one before: the last is as deep as can be. */
static void chain_from_the_first(void)
{
    add_cabinets();
    for (unsigned i = 1; i < cabinets; i++)
        command(0x02, i - 1, i);
    ask_and_close(0, cabinets - 1);
}

/* The same from the last cabinet on. */
static void chain_from_the_last(void)
{
    add_cabinets();
    for (unsigned i = cabinets - 1; i > 0; i--)
        command(0x02, i, i - 1);
    ask_and_close(0, cabinets - 1);
}

/* Two chains of one length, joined at their deepest ends: the second is turned as a whole. */
static void two_chains(void)
{
    unsigned half = cabinets / 2;
    add_cabinets();
    for (unsigned i = 1; i < half; i++)
        command(0x02, i - 1, i);
    for (unsigned i = half + 1; i < cabinets; i++)
        command(0x02, i - 1, i);
    command(0x02, half - 1, cabinets - 1);
    ask_and_close(0, half);
}

/* A chain in ducts, then a mate beside each link. */
static void chain_of_mates(void)
{
    add_cabinets();
    for (unsigned i = 1; i < cabinets; i++)
        add_in_duct(i - 1, i);
    for (unsigned i = 1; i < cabinets; i++)
        add_in_duct(i, i - 1);
    ask_and_close(0, cabinets - 1);
}

/* The same with no duct told. */
static void chain_of_untold_mates(void)
{
    add_cabinets();
    for (unsigned i = 1; i < cabinets; i++)
        command(0x02, i - 1, i);
    for (unsigned i = 1; i < cabinets; i++)
        command(0x02, i, i - 1);
    ask_and_close(0, cabinets - 1);
}

/* Two chains beside each other with a rung between each two of their cabinets, and two routes from end
   to end, along a chain and across; then a span from end to end, and the routes again. */
static void ladder(void)
{
    unsigned half = cabinets / 2;
    add_cabinets();
    for (unsigned i = 1; i < half; i++)
        command(0x02, i - 1, i);
    for (unsigned i = 1; i < half; i++)
        command(0x02, half + i - 1, half + i);
    for (unsigned i = 0; i < half; i++)
        add_in_duct(i, half + i);
    command(0x0C, 0, half - 1);
    command(0x0C, half - 1, 0);
    command(0x0C, 0, 2 * half - 1);
    command(0x02, 0, 2 * half - 1);
    command(0x0C, 0, 2 * half - 1);
    command(0x0C, half / 2, half + half / 2);
}

/* The small journal that others are joined with: a chain of mates, so that it has each command. It is
   written on the stack of main, since the first call of a function of the C library may take a lot. */
static void write_small(void)
{
    unsigned all = cabinets;
    cabinets = FEW;
    chain_of_mates();
    cabinets = all;
    memcpy(small, journal, journal_length);
    small_length = journal_length;
}

/* ---- The calls ---- */

static size_t untouched(const uint8_t *below)
{
    size_t count = 0;
    while (stack_low + count < below && stack_low[count] == PATTERN)
        count++;
    return count;
}

/* Notes what a call from this frame took, if it is the most so far. */
static void note(const uint8_t *frame, size_t *most)
{
    size_t taken = (size_t)(frame - stack_low) - untouched(frame);
    if (taken > *most)
        *most = taken;
}

/* A journal that makes the register climb: its name, how it is written, and how many spans it enters. */
struct climb {
    const char *name;
    void (*write_journal)(void);
    unsigned spans;
};

/* Makes a call for each of them. What is called from a frame nearer the top comes before: behind these
   calls the frames between would count as taken by it. */
static void for_each(void (*call)(struct climb))
{
    call((struct climb){"chain from the first", chain_from_the_first, cabinets});
    call((struct climb){"chain from the last", chain_from_the_last, cabinets});
    call((struct climb){"two chains", two_chains, cabinets});
    call((struct climb){"chain of mates", chain_of_mates, 2 * cabinets - 1});
    call((struct climb){"chain of mates with no duct told", chain_of_untold_mates, 2 * cabinets - 1});
    call((struct climb){"ladder", ladder, 3 * (cabinets / 2) - 1});
}

static void run_one(struct climb climb)
{
    uint8_t here;
    climb.write_journal();
    uint32_t number = register_run(cabinets, REGISTER_MOST_SPANS, journal, journal_length,
                                   work, sizeof work / sizeof work[0],
                                   answers, sizeof answers,
                                   report, sizeof report / sizeof report[0]);
    note(&here, &runs_took);
    if (number != REGISTER_ACCEPTED || report[REGISTER_REPORT_SPANS] != climb.spans) {
        printf("%s: refused: %u at byte %u\n", climb.name, (unsigned)number,
               (unsigned)report[REGISTER_REPORT_PLACE]);
        failed = 1;
    }
}

/* Forecasts a journal to the byte with room for so many spans. */
static void forecast_exactly(const char *name, uint32_t most_spans, uint32_t wanted, uint32_t wanted_place)
{
    uint8_t here;
    uint32_t place, room;
    uint32_t number = register_forecast_exact(cabinets, most_spans, journal, journal_length,
                                              work, sizeof work / sizeof work[0], &place, &room);
    note(&here, &exact_took);
    if (number != wanted || place != wanted_place) {
        printf("%s: forecast to the byte: %u at byte %u\n", name, (unsigned)number, (unsigned)place);
        failed = 1;
    }
}

static void forecast_climb(struct climb climb)
{
    climb.write_journal();
    forecast_exactly(climb.name, REGISTER_MOST_SPANS, REGISTER_ACCEPTED, (uint32_t)journal_length);
}

/* A journal that is refused at its last byte, a question that is cut off; then at the start: it is too
   long, and there is room for no span. */
static void forecast_refused(void)
{
    size_t longest = REGISTER_LONGEST_JOURNAL;
    memset(journal, 0x0F, sizeof journal);
    journal[longest - 1] = 0x0C;
    journal_length = longest;
    forecast_exactly("longest", REGISTER_MOST_SPANS, REGISTER_CUT_OFF, (uint32_t)(longest - 1));
    journal_length = longest + 1;
    forecast_exactly("too long", REGISTER_MOST_SPANS, REGISTER_LONG_JOURNAL, 0);
    forecast_exactly("without spans", 0, REGISTER_BAD_CAPACITY, 0);
}

/* Forecasts a journal of one byte again and again. */
static void forecast_one(unsigned byte, size_t length, uint32_t wanted)
{
    uint8_t here;
    uint32_t place, room;
    memset(journal, (int)byte, length);
    uint32_t number = register_forecast(journal, length, &place, &room);
    note(&here, &forecasts_took);
    if (number != wanted) {
        printf("forecast of %zu bytes %02X: %u\n", length, byte, (unsigned)number);
        failed = 1;
    }
}

/* The longest journals of each command, one byte longer than whole commands, and too long. */
static void *forecast_all(void *unused)
{
    size_t longest = REGISTER_LONGEST_JOURNAL;
    forecast_one(0x01, longest, REGISTER_ACCEPTED);
    forecast_one(0x0F, longest, REGISTER_ACCEPTED);
    for (unsigned byte = 0x02; byte <= 0x0E; byte++) {
        /* Commands of 7 bytes leave two over, those of 3 and 5 one. */
        size_t over = byte == 0x0B || byte == 0x0D ? 2 : 1;
        forecast_one(byte, longest - over, REGISTER_ACCEPTED);
        forecast_one(byte, longest - over + 1, REGISTER_CUT_OFF);
    }
    forecast_one(0x10, longest, REGISTER_BAD_COMMAND);
    forecast_one(0x00, longest, REGISTER_BAD_COMMAND);
    forecast_one(0x01, longest + 1, REGISTER_LONG_JOURNAL);
    return unused;
}

/* Rewrites a journal of one byte again and again. */
static void rewrite_one(unsigned byte, size_t length, uint32_t wanted)
{
    uint8_t here;
    uint32_t place, result;
    memset(journal, (int)byte, length);
    uint32_t number = register_rewrite(journal, length, rewritten, sizeof rewritten, &place, &result);
    note(&here, &rewritings_took);
    if (number != wanted) {
        printf("rewriting of %zu bytes %02X: %u\n", length, byte, (unsigned)number);
        failed = 1;
    }
}

/* The same journals; and the most spans whose result is short enough, and one more. */
static void *rewrite_all(void *unused)
{
    size_t longest = REGISTER_LONGEST_JOURNAL, most_spans = longest / 7;
    rewrite_one(0x01, longest, REGISTER_ACCEPTED);
    rewrite_one(0x0F, longest, REGISTER_ACCEPTED);
    rewrite_one(0x02, 5 * most_spans, REGISTER_ACCEPTED);
    rewrite_one(0x02, 5 * (most_spans + 1), REGISTER_LONG_RESULT);
    rewrite_one(0x02, longest - 1, REGISTER_LONG_RESULT);
    rewrite_one(0x02, longest, REGISTER_CUT_OFF);
    for (unsigned byte = 0x03; byte <= 0x0E; byte++) {
        size_t over = byte == 0x0B || byte == 0x0D ? 2 : 1;
        rewrite_one(byte, longest - over, byte == 0x0B ? REGISTER_DUCT_TOLD : REGISTER_ACCEPTED);
        rewrite_one(byte, longest - over + 1, REGISTER_CUT_OFF);
    }
    rewrite_one(0x10, longest, REGISTER_BAD_COMMAND);
    rewrite_one(0x00, longest, REGISTER_BAD_COMMAND);
    rewrite_one(0x01, longest + 1, REGISTER_LONG_JOURNAL);
    return unused;
}

static void *run_all(void *unused)
{
    for_each(run_one);
    return unused;
}

static void *forecast_all_exactly(void *unused)
{
    forecast_refused();
    for_each(forecast_climb);
    return unused;
}

/* Joins two journals by one seam. */
static void join_one(const char *name, const uint8_t *first, size_t first_length, const uint8_t *second,
                     size_t second_length, struct register_seam seam, uint32_t wanted)
{
    uint8_t here;
    uint32_t result;
    uint32_t number = register_join(first, first_length, second, second_length, &seam, 1,
                                    work, sizeof work / sizeof work[0],
                                    joined, sizeof joined, &result);
    note(&here, &joinings_took);
    if (number != wanted) {
        printf("%s, joined: %u\n", name, (unsigned)number);
        failed = 1;
    }
}

/* Joins a journal with the small one, which comes before it. */
static void join_behind_small(struct climb climb)
{
    const struct register_seam to_the_last = {FEW - 1, (uint16_t)(cabinets - 1), DUCT};
    climb.write_journal();
    join_one(climb.name, small, small_length, journal, journal_length, to_the_last, REGISTER_ACCEPTED);
}

/* The same with the small one behind it. */
static void join_before_small(struct climb climb)
{
    const struct register_seam from_the_last = {(uint16_t)(cabinets - 1), FEW - 1, DUCT};
    climb.write_journal();
    join_one(climb.name, journal, journal_length, small, small_length, from_the_last, REGISTER_ACCEPTED);
}

/* A journal of so many questions 0F, which is too long for a result with the small one, or for a journal;
   and a seam from a cabinet that it does not have. */
static void join_refused(void)
{
    const struct register_seam good = {0, 0, DUCT}, bad = {1, 0, DUCT};
    size_t longest = REGISTER_LONGEST_JOURNAL;
    memset(journal, 0x0F, sizeof journal);
    journal[0] = 0x01;
    join_one("longest", journal, longest, small, small_length, good, REGISTER_LONG_JOIN);
    join_one("longest", journal, longest, small, small_length, bad, REGISTER_BAD_SEAM);
    join_one("too long", journal, longest + 1, small, small_length, good, REGISTER_REFUSED_JOURNAL);
    join_one("too long", small, small_length, journal, longest + 1, good, REGISTER_REFUSED_JOURNAL);
}

static void *join_all(void *unused)
{
    join_refused();
    for_each(join_behind_small);
    for_each(join_before_small);
    return unused;
}

/* A stack of so many bytes, filled with the pattern, above a page that must not be touched. */
static uint8_t *make_stack(size_t bytes)
{
    size_t page = (size_t)sysconf(_SC_PAGESIZE);
    uint8_t *low = mmap(NULL, bytes + page, PROT_READ | PROT_WRITE,
                        MAP_PRIVATE | MAP_ANONYMOUS, -1, 0);
    if (low == MAP_FAILED || mprotect(low, page, PROT_NONE) != 0)
        return NULL;
    memset(low + page, PATTERN, bytes);
    return low + page;
}

/* Makes these calls in a thread with a new stack; 0 if there is none. */
static int with_stack(size_t bytes, void *(*calls)(void *))
{
    pthread_attr_t attributes;
    pthread_t thread;
    stack_low = make_stack(bytes);
    if (stack_low == NULL || pthread_attr_init(&attributes) != 0)
        return 0;
    if (pthread_attr_setstack(&attributes, stack_low, bytes) != 0)
        return 0;
    if (pthread_create(&thread, &attributes, calls, NULL) != 0)
        return 0;
    return pthread_join(thread, NULL) == 0;
}

int main(int count, char **words)
{
    size_t page = (size_t)sysconf(_SC_PAGESIZE);
    size_t bytes = count > 1 ? strtoul(words[1], NULL, 10) : 0;
    if (count > 2)
        cabinets = (unsigned)strtoul(words[2], NULL, 10);
    if (bytes == 0 || cabinets < 4 || cabinets > REGISTER_MOST_CABINETS) {
        fprintf(stderr, "usage: stack BYTES [CABINETS from 4 to 4096]\n");
        return 2;
    }
    bytes = (bytes + page - 1) / page * page;
    write_small();
    if (!with_stack(bytes, forecast_all) || !with_stack(bytes, rewrite_all)
        || !with_stack(bytes, run_all) || !with_stack(bytes, forecast_all_exactly)
        || !with_stack(bytes, join_all)) {
        fprintf(stderr, "no thread with a stack of %zu bytes\n", bytes);
        return 2;
    }
    printf("stack of %zu bytes, %u cabinets: %s; the runs took %zu bytes, the forecasts %zu, those to the "
           "byte %zu, the rewritings %zu, the joinings %zu, of the %u told\n", bytes, cabinets,
           failed ? "refused" : "run", runs_took, forecasts_took, exact_took, rewritings_took,
           joinings_took, REGISTER_STACK);
    return failed || runs_took >= REGISTER_STACK || forecasts_took >= REGISTER_STACK
        || exact_took >= REGISTER_STACK || rewritings_took >= REGISTER_STACK
        || joinings_took >= REGISTER_STACK;
}
