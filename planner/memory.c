/*
 * The register touches nothing but its buffers, and nothing that it gives depends on what they held.
 *
 *     memory fences [JOURNALS]
 *     memory heap [JOURNALS]
 *
 * Forecasts and runs random journals, and the longest one with all cabinets and spans, each several
 * times: with the room for the answers that is forecast, with room to the byte, with one byte less,
 * refused at the start, and cut short. Every buffer has just the length that is told. With the room
 * that is forecast, for the journal or up to its damaged place, no run may return 11.
 *
 * Forecasts them to the byte too, in working tables of every length around the least, with the same
 * capacities and with fewer, and what comes before a refused command. What is told must be what the run
 * in ample room returned, reported and wrote; the working table must be cleared as far as a run takes it,
 * or as before if the start refused it, and what lies beyond must be as before.
 *
 * Rewrites them too, and such of the old reading, which have no 0B, with output buffers of every length
 * around the result's. What is returned and written must be what a rewriting by hand gives; what lies
 * behind the result, and the whole output buffer of a journal that is refused, must be as before.
 *
 * Joins some of them by two, and the longest and fullest, with seams that are good, and refused for each
 * cause, where those that come later in order apply too. What is returned and written must be what a
 * joining by hand gives; the working table must be cleared as far as a joining takes it, or as before if
 * it is too short. A run of the result must be accepted, or find no place, as the counts of both tell.
 *
 * Between fences a buffer lies against a page that must not be touched, once with its end and once
 * with its beginning; the journals and the seams can only be read. A touch beyond is told, with its
 * place. In the heap a buffer is a block of its own, and all but the journals and the seams is left
 * unset: that is for a memory checker, which sees a touch beyond a block and a decision that depends on
 * what was never set.
 *
 * However the buffers lie and whatever they hold, the returned number, the report and the answers
 * must be the same, and so must the number, place and length of a forecast of either kind, these and the
 * result of a rewriting, and the number, length and result of a joining. Exits with 0 if they are.
 */
#define _GNU_SOURCE
#include "register.h"

#include <setjmp.h>
#include <signal.h>
#include <stdio.h>
#include <stdlib.h>
#include <string.h>
#include <sys/mman.h>
#include <unistd.h>

enum { SMALL_CABINETS = 24, SMALL_COMMANDS = 80, MOST_ROOM = 1 << 21, MOST_CUT = 6 };
enum { LINKS_IN_DUCTS = 1000, AROUND = 8 };
enum { LONGEST = REGISTER_LONGEST_JOURNAL, TOO_LONG = LONGEST + 1, FAR_TOO_LONG = 2 * LONGEST };
enum { JOINED_OF = 10, SMALL_SEED = 6, FEW_SEAMS = 4 };
enum { SEAM = 7, FITTING_SEAMS = LONGEST / SEAM, MOST_SEAMS = 2 * FITTING_SEAMS };
enum { WHOLE_WORK = REGISTER_WORK(REGISTER_MOST_CABINETS, REGISTER_MOST_SPANS) };

/* ---- The journal ---- */

static uint8_t journal[FAR_TOO_LONG];
static size_t journal_length;
static unsigned cabinets, spans;
static uint8_t exchange[REGISTER_MOST_CABINETS];
static uint64_t random_state;

/* The tree that a small journal begins with: for each of its cabinets but the first a lesser one that
   it is linked to. */
static unsigned linked_to[SMALL_CABINETS + 2];
static unsigned linked;

/* Two cabinets of the tree that were joined by a span besides that is no link's mate, and so share a ring;
   equal while there are none. */
static unsigned ringed[2];

/* Whether the journal is of the old reading: every span is from 02. */
static int old_reading;

/* The journal's place among all, and whether its buffers lie between fences. */
static unsigned journal_number;
static int fences;

static unsigned below(unsigned bound)
{
    random_state = random_state * 6364136223846793005u + 1442695040888963407u;
    return (unsigned)(random_state >> 33) % bound;
}

static void put(unsigned byte)
{
    journal[journal_length++] = (uint8_t)byte;
}

static void command(unsigned byte, unsigned operands, unsigned a, unsigned b)
{
    const unsigned values[2] = {a, b};
    put(byte);
    for (unsigned i = 0; i < operands; i++) {
        put(values[i] >> 8);
        put(values[i] & 0xFF);
    }
    cabinets += byte == 0x01;
    spans += byte == 0x02 || byte == 0x0B;
}

/* A command with three operands. */
static void command_of_three(unsigned byte, unsigned a, unsigned b, unsigned third)
{
    command(byte, 2, a, b);
    put(third >> 8);
    put(third & 0xFF);
}

static void add_in_duct(unsigned a, unsigned b, unsigned duct)
{
    if (old_reading)
        command(0x02, 2, a, b);
    else
        command_of_three(0x0B, a, b, duct);
}

static void record_length(unsigned span, unsigned day, unsigned metres)
{
    command_of_three(0x0D, span, day, metres);
}

static void start_journal(unsigned seed)
{
    random_state = seed;
    journal_length = 0;
    cabinets = spans = 0;
    memset(exchange, 0, sizeof exchange);
    ringed[0] = ringed[1] = 0;
}

/* Marks a cabinet; one that is an exchange already, only now and then. */
static void mark(unsigned cabinet)
{
    if (!exchange[cabinet] || below(8) == 0)
        command(0x09, 1, cabinet, 0);
    exchange[cabinet] = 1;
}

/* A span beside a link of the tree: in duct 1, where its mates are, or now and then in another. */
static void add_beside_link(void)
{
    unsigned cabinet = 1 + below(linked - 1);
    add_in_duct(linked_to[cabinet], cabinet, below(4) == 0 ? 2 : 1);
}

/* Are they the ends of a link from 02? These are the even cabinets' links. */
static int is_untold_link(unsigned a, unsigned b)
{
    unsigned lesser = a < b ? a : b, greater = a < b ? b : a;
    return greater % 2 == 0 && linked_to[greater] == lesser;
}

/* A span from 02. Beside a link from 02 it is its mate, and makes no ring. */
static void add_any(unsigned a, unsigned b)
{
    command(0x02, 2, a, b);
    if (a < linked && b < linked && !is_untold_link(a, b)) {
        ringed[0] = a;
        ringed[1] = b;
    }
}

/* Two routes between cabinets that share a ring, either way; between any two, only now and then. */
static void ask_routes(unsigned a, unsigned b)
{
    if (ringed[0] != ringed[1] && below(20) != 0) {
        unsigned way = below(2);
        a = ringed[way];
        b = ringed[1 - way];
    }
    command(0x0C, 2, a, b);
}

/* A length of one of the newest spans or of any, on one of few days; now and then of a span that is not
   there. */
static void record_any(void)
{
    static const unsigned days[4] = {0, 1, 2, 0xFFFF};
    unsigned newest = spans < 4 ? spans : 4;
    unsigned span = below(2) == 0 ? below(spans) : spans - 1 - below(newest);
    if (below(100) == 0)
        span = spans;
    record_length(span, days[below(4)], below(4) == 0 ? 0 : 0xFFFF - below(1000));
}

/* A command whose operands are known, but for one in a hundred. */
static void any_command(void)
{
    unsigned a = below(cabinets), b = (a + 1 + below(cabinets - 1)) % cabinets;
    if (below(100) == 0)
        b = below(2) == 0 ? a : cabinets;
    switch (below(54)) {
    case 0: command(0x01, 0, 0, 0); break;
    case 1: command(0x08, 1, below(spans), 0); break;
    case 2: command(0x03, 1, a, 0); break;
    case 3: command(0x04, 1, a, 0); break;
    case 4: case 5: command(0x05, 2, a, b); break;
    case 6: case 7: command(0x06, 2, a, b); break;
    case 8: case 9: command(0x07, 2, a, b); break;
    case 10: case 11: mark(a); break;
    case 12: case 13: command(0x0A, 1, b, 0); break;
    case 14: command(0x0F, 0, 0, 0); break;
    case 15: case 16: add_in_duct(a, b, below(20) == 0 ? 0 : 0xFFFF); break;
    case 17: case 18: case 19: case 20: case 21: case 22: case 23: case 24: add_beside_link(); break;
    case 25: case 26: case 27: ask_routes(a, b); break;
    case 28: case 29: case 30: case 31: record_any(); break;
    case 32: case 33: command(0x0E, 1, below(20) == 0 ? spans : below(spans), 0); break;
    default: add_any(a, b);
    }
}

static void small_journal(unsigned seed)
{
    start_journal(seed);
    unsigned first = 2 + below(SMALL_CABINETS);
    while (cabinets < first)
        command(0x01, 0, 0, 0);
    /* A tree first, so that 06 and 07 find their two cabinets in one district; every other link of it
       is in duct 1. */
    for (linked = 1; linked < first; linked++) {
        linked_to[linked] = below(linked);
        if (linked % 2 == 0)
            command(0x02, 2, linked, linked_to[linked]);
        else
            add_in_duct(linked, linked_to[linked], 1);
    }
    for (unsigned i = below(SMALL_COMMANDS); i > 0; i--)
        any_command();
    if (below(10) == 0)
        put(below(256));
}

/* The names and sizes of the districts and rings of some cabinets, the first and the last among them. */
static void ask_names(void)
{
    for (unsigned i = 0; i < 100; i++) {
        unsigned cabinet = i % 2 == 0 ? i : cabinets - i;
        command(0x03, 1, cabinet, 0);
        command(0x04, 1, cabinet, 0);
    }
}

/* Questions about exchanges. */
static void ask_exchanges(void)
{
    for (unsigned i = 0; i < 100; i++)
        command(0x0A, 1, 4 * i, 0);
    for (unsigned i = 0; i < 20; i++)
        command(0x0F, 0, 0, 0);
}

/* Records of some spans, the first and the last among them, and as many questions about lengths. */
static void survey(void)
{
    for (unsigned i = 0; i < 100; i++)
        record_length(i % 2 == 0 ? i / 2 : spans - 1 - i / 2, i % 3, 100 + i);
    for (unsigned i = 0; i < 100; i++)
        command(0x0E, 1, i % 2 == 0 ? i : spans - 1 - i, 0);
}

/* Questions about routes, in a ring of all cabinets. */
static void ask_far_routes(void)
{
    unsigned most = REGISTER_MOST_CABINETS;
    for (unsigned i = 0; i < 5; i++)
        command(0x0C, 2, i, most / 2 + i);
}

/* All cabinets in a chain, the first links of it in ducts, measured and then with mates; exchanges in it,
   its names and its lists, the span that closes it, spans until there are no more, and questions until the
   journal is as long as it may be; routes round the loop, and in the whole network, and lengths and names
   there. */
static void large_journal(void)
{
    unsigned most = REGISTER_MOST_CABINETS;
    start_journal(1);
    while (cabinets < most)
        command(0x01, 0, 0, 0);
    for (unsigned i = 1; i <= LINKS_IN_DUCTS; i++)
        add_in_duct(i - 1, i, i);
    for (unsigned i = LINKS_IN_DUCTS + 1; i < most; i++)
        command(0x02, 2, i - 1, i);
    survey();
    for (unsigned i = 1; i <= LINKS_IN_DUCTS; i++)
        add_in_duct(i, i - 1, i);
    for (unsigned i = 0; i < 100; i++)
        command(0x09, 1, 8 * i, 0);
    ask_exchanges();
    ask_names();
    command(0x06, 2, 0, most - 1);
    command(0x07, 2, most - 1, 0);
    command(0x02, 2, most - 1, 0);
    ask_far_routes();
    while (spans < REGISTER_MOST_SPANS) {
        unsigned a = below(most);
        command(0x02, 2, a, (a + 1 + below(most - 1)) % most);
    }
    ask_exchanges();
    ask_far_routes();
    survey();
    ask_names();
    while (journal_length < LONGEST)
        command(0x05, 2, 0, 1);
}

/* ---- The buffers ---- */

/* Those that are only read come first. */
enum buffer { JOURNAL, SECOND, SEAMS, WORK, ANSWERS, REPORT, OUTPUT, PLACE, LENGTH, BUFFERS };
enum place { AT_THE_END, AT_THE_START, IN_THE_HEAP };

static const char *const names[BUFFERS] = {"journal", "second journal", "seams", "working table",
                                           "answers", "report", "output buffer", "place", "length"};

/* The pages of a buffer, between two fences. */
static struct { uint8_t *low, *high; } pages[BUFFERS];

/* What is lent in the call under way, for telling where a touch was. */
static uint8_t *lent[BUFFERS];

static int make_pages(enum buffer buffer, size_t bytes)
{
    size_t page = (size_t)sysconf(_SC_PAGESIZE);
    size_t inside = (bytes + page - 1) / page * page;
    uint8_t *low = mmap(NULL, inside + 2 * page, PROT_NONE, MAP_PRIVATE | MAP_ANONYMOUS, -1, 0);
    if (low == MAP_FAILED || mprotect(low + page, inside, PROT_READ | PROT_WRITE) != 0)
        return 0;
    pages[buffer].low = low + page;
    pages[buffer].high = low + page + inside;
    return 1;
}

static void *lend(enum buffer buffer, size_t bytes, enum place place, int held)
{
    uint8_t *first = place == AT_THE_END ? pages[buffer].high - bytes : pages[buffer].low;
    if (place == IN_THE_HEAP)
        first = malloc(bytes);
    else
        memset(first, held, bytes);
    lent[buffer] = first;
    return first;
}

static void give_back(enum place place)
{
    for (int buffer = 0; buffer < BUFFERS; buffer++) {
        if (place == IN_THE_HEAP)
            free(lent[buffer]);
        lent[buffer] = NULL;
    }
}

/* What may be done to a buffer between fences; in the heap, anything. */
static void allow(enum buffer buffer, int protection)
{
    size_t bytes = (size_t)(pages[buffer].high - pages[buffer].low);
    if (fences && mprotect(pages[buffer].low, bytes, protection) != 0)
        abort();
}

static void allow_journal(int protection)
{
    allow(JOURNAL, protection);
}

/* The same for what a joining only reads. */
static void allow_parts(int protection)
{
    for (enum buffer buffer = JOURNAL; buffer <= SEAMS; buffer++)
        allow(buffer, protection);
}

/* ---- A touch beyond the buffers ---- */

static sigjmp_buf before_touch;
static uint8_t *volatile touched;

static void on_touch(int number, siginfo_t *info, void *context)
{
    (void)number;
    (void)context;
    touched = info->si_addr;
    siglongjmp(before_touch, 1);
}

static void watch_touches(void)
{
    struct sigaction action = {.sa_sigaction = on_touch, .sa_flags = SA_SIGINFO};
    sigaction(SIGSEGV, &action, NULL);
    sigaction(SIGBUS, &action, NULL);
}

static void tell_touch(void)
{
    ptrdiff_t page = sysconf(_SC_PAGESIZE);
    printf("journal %u: a touch", journal_number);
    for (int buffer = 0; buffer < BUFFERS; buffer++)
        if (lent[buffer] != NULL && touched >= pages[buffer].low - page
            && touched < pages[buffer].high + page)
            printf(" of the %s at byte %td", names[buffer], touched - lent[buffer]);
    printf(" that is not allowed\n");
}

/* Is this byte shut? */
static int is_shut(volatile uint8_t *at, int for_writing)
{
    if (sigsetjmp(before_touch, 1) != 0)
        return 1;
    if (for_writing)
        *at = 1;
    else
        (void)*at;
    return 0;
}

/* The fences are there, and a touch of one is seen. */
static int fences_stand(void)
{
    int stand = 1;
    for (int buffer = 0; buffer < BUFFERS; buffer++) {
        stand &= is_shut(pages[buffer].low - 1, 0) && is_shut(pages[buffer].high, 0);
        stand &= !is_shut(pages[buffer].low, 1) && !is_shut(pages[buffer].high - 1, 1);
    }
    allow_parts(PROT_READ);
    for (enum buffer buffer = JOURNAL; buffer <= SEAMS; buffer++)
        stand &= is_shut(pages[buffer].low, 1) && !is_shut(pages[buffer].low, 0);
    allow_parts(PROT_READ | PROT_WRITE);
    return stand;
}

/* ---- Runs ---- */

struct call {
    uint32_t c, s;
    size_t journal, work, answers, report;
};

/* What a run gives: the returned number and, unless the start refused it, the report, the answers in
   one number, and whether the working table is 0. */
struct outcome {
    uint32_t number, report[REGISTER_REPORT];
    uint64_t answers;
    int cleared;
};

static unsigned runs_made, forecasts_made, exact_made, rewritings_made, joinings_made;

static uint64_t digest(const uint8_t *answers, size_t length)
{
    uint64_t sum = 14695981039346656037u;
    for (size_t i = 0; i < length; i++)
        sum = (sum ^ answers[i]) * 1099511628211u;
    return sum;
}

static int is_zero(const uint32_t *numbers, size_t length)
{
    for (size_t i = 0; i < length; i++)
        if (numbers[i] != 0)
            return 0;
    return 1;
}

static int all_held(const uint8_t *bytes, size_t length, int held)
{
    for (size_t i = 0; i < length; i++)
        if (bytes[i] != held)
            return 0;
    return 1;
}

/* Is a working table left with so many numbers 0, and those beyond as before? In the heap these are
   unset. */
static int is_left(const uint32_t *work, size_t length, size_t taken, enum place at, int held)
{
    return is_zero(work, taken)
        && (at == IN_THE_HEAP
            || all_held((const uint8_t *)(work + taken), (length - taken) * sizeof *work, held));
}

/* Did the start let the journal pass? */
static int is_past_start(uint32_t number)
{
    return number == REGISTER_ACCEPTED || number > REGISTER_LONG_JOURNAL;
}

static struct outcome run(const struct call *call, enum place place, int held)
{
    struct outcome outcome = {.cleared = 1};
    uint8_t *own_journal = lend(JOURNAL, call->journal, place, held);
    uint32_t *work = lend(WORK, call->work * sizeof *work, place, held);
    uint8_t *answers = lend(ANSWERS, call->answers, place, held);
    uint32_t *report = lend(REPORT, call->report * sizeof *report, place, held);
    memcpy(own_journal, journal, call->journal);
    allow_journal(PROT_READ);
    outcome.number = register_run(call->c, call->s, own_journal, call->journal, work, call->work,
                                  answers, call->answers, report, call->report);
    allow_journal(PROT_READ | PROT_WRITE);
    runs_made++;
    if (is_past_start(outcome.number)) {
        memcpy(outcome.report, report, sizeof outcome.report);
        outcome.answers = digest(answers, report[REGISTER_REPORT_ANSWERS]);
        outcome.cleared = is_zero(work, call->work);
    }
    give_back(place);
    return outcome;
}

static int same(const struct outcome *one, const struct outcome *other)
{
    for (unsigned i = 0; i < REGISTER_REPORT; i++)
        if (one->report[i] != other->report[i])
            return 0;
    return one->number == other->number && one->answers == other->answers && one->cleared
        && other->cleared;
}

/* Where the buffers lie between fences, and what they hold. */
static const struct { enum place place; int held; } ways[] = {
    {AT_THE_END, 0x00}, {AT_THE_END, 0xFF}, {AT_THE_START, 0x00}, {AT_THE_START, 0x01}};

/* Runs in every place and with several contents, or twice in the heap; the outcomes must agree. */
static int agree(const struct call *call, struct outcome *outcome)
{
    if (!fences) {
        *outcome = run(call, IN_THE_HEAP, 0);
        struct outcome again = run(call, IN_THE_HEAP, 0);
        return same(outcome, &again);
    }
    *outcome = run(call, ways[0].place, ways[0].held);
    for (size_t i = 1; i < sizeof ways / sizeof ways[0]; i++) {
        struct outcome other = run(call, ways[i].place, ways[i].held);
        if (!same(outcome, &other))
            return 0;
    }
    return 1;
}

static int returns(struct call call, uint32_t number)
{
    struct outcome outcome;
    return agree(&call, &outcome) && outcome.number == number;
}

/* ---- Forecasts ---- */

struct forecast {
    uint32_t number, place, length;
};

static struct forecast forecast(size_t journal_bytes, enum place at, int held)
{
    struct forecast outcome;
    uint8_t *own_journal = lend(JOURNAL, journal_bytes, at, held);
    uint32_t *place = lend(PLACE, sizeof *place, at, held);
    uint32_t *length = lend(LENGTH, sizeof *length, at, held);
    memcpy(own_journal, journal, journal_bytes);
    allow_journal(PROT_READ);
    outcome.number = register_forecast(own_journal, journal_bytes, place, length);
    allow_journal(PROT_READ | PROT_WRITE);
    forecasts_made++;
    outcome.place = *place;
    outcome.length = *length;
    give_back(at);
    return outcome;
}

static int same_forecast(const struct forecast *one, const struct forecast *other)
{
    return one->number == other->number && one->place == other->place
        && one->length == other->length;
}

/* Forecasts so many bytes of the journal, with the same places and contents as in runs. */
static int forecasts_agree(size_t journal_bytes, struct forecast *outcome)
{
    if (!fences) {
        *outcome = forecast(journal_bytes, IN_THE_HEAP, 0);
        struct forecast again = forecast(journal_bytes, IN_THE_HEAP, 0);
        return same_forecast(outcome, &again);
    }
    *outcome = forecast(journal_bytes, ways[0].place, ways[0].held);
    for (size_t i = 1; i < sizeof ways / sizeof ways[0]; i++) {
        struct forecast other = forecast(journal_bytes, ways[i].place, ways[i].held);
        if (!same_forecast(outcome, &other))
            return 0;
    }
    return 1;
}

static int forecasts(size_t journal_bytes, struct forecast wanted)
{
    struct forecast outcome;
    return forecasts_agree(journal_bytes, &outcome) && same_forecast(&outcome, &wanted);
}

/* The room that is forecast for so many bytes of the journal or, where these are damaged, for those
   before the damaged place. */
static int forecast_room(size_t journal_bytes, size_t *room)
{
    struct forecast whole, before;
    if (!forecasts_agree(journal_bytes, &whole))
        return 0;
    before = whole;
    if (whole.number == REGISTER_BAD_COMMAND || whole.number == REGISTER_CUT_OFF) {
        if (whole.length != 0 || whole.place >= journal_bytes)
            return 0;
        journal_bytes = whole.place;
        if (!forecasts_agree(journal_bytes, &before))
            return 0;
    }
    *room = before.length;
    return before.number == REGISTER_ACCEPTED && before.place == journal_bytes
        && *room <= MOST_ROOM;
}

/* ---- Forecasts to the byte ---- */

/* What is told, and whether the working table is as it must be. */
struct exact {
    struct forecast told;
    int left;
};

/* Forecasts what a call would run; there are neither answers nor a report. */
static struct exact forecast_exact(const struct call *call, enum place at, int held)
{
    struct exact outcome;
    uint8_t *own_journal = lend(JOURNAL, call->journal, at, held);
    uint32_t *work = lend(WORK, call->work * sizeof *work, at, held);
    uint32_t *place = lend(PLACE, sizeof *place, at, held);
    uint32_t *length = lend(LENGTH, sizeof *length, at, held);
    memcpy(own_journal, journal, call->journal);
    allow_journal(PROT_READ);
    uint32_t number = register_forecast_exact(call->c, call->s, own_journal, call->journal,
                                              work, call->work, place, length);
    allow_journal(PROT_READ | PROT_WRITE);
    exact_made++;
    outcome.told = (struct forecast){number, *place, *length};
    outcome.left = is_left(work, call->work, is_past_start(number) ? REGISTER_WORK(call->c, call->s) : 0,
                           at, held);
    give_back(at);
    return outcome;
}

/* Forecasts with the same places and contents as in runs; each time this must be told. */
static int tells(const struct call *call, struct forecast wanted)
{
    size_t times = fences ? sizeof ways / sizeof ways[0] : 2;
    for (size_t i = 0; i < times; i++) {
        struct exact outcome = forecast_exact(call, fences ? ways[i].place : IN_THE_HEAP, ways[i].held);
        if (!same_forecast(&outcome.told, &wanted) || !outcome.left)
            return 0;
    }
    return 1;
}

/* The same in no working table, and in one of every length around the least, where this is told once it
   is long enough. The capacities are good. */
static int tells_around(struct call call, struct forecast wanted)
{
    const struct forecast too_short = {REGISTER_SHORT_BUFFER, 0, 0};
    size_t least = REGISTER_WORK(call.c, call.s);
    call.work = 0;
    if (!tells(&call, too_short))
        return 0;
    for (call.work = least - AROUND; call.work <= least + AROUND; call.work++)
        if (!tells(&call, call.work < least ? too_short : wanted))
            return 0;
    return 1;
}

/* What must be told where a run in ample room gave this outcome: its number and place and, if the journal
   was accepted, how many bytes the answers have. */
static struct forecast told_by(const struct outcome *ran)
{
    uint32_t written = ran->report[REGISTER_REPORT_ANSWERS];
    return (struct forecast){ran->number, ran->report[REGISTER_REPORT_PLACE],
                             ran->number == REGISTER_ACCEPTED ? written : 0};
}

/* The bytes before the place of such a run are accepted, and as many answer bytes are told as it wrote. */
static int tells_front(struct call call, const struct outcome *ran)
{
    uint32_t place = ran->report[REGISTER_REPORT_PLACE], written = ran->report[REGISTER_REPORT_ANSWERS];
    call.journal = place;
    return tells(&call, (struct forecast){REGISTER_ACCEPTED, place, written});
}

static int tells_as_run(const struct call *call, const struct outcome *ran)
{
    return tells(call, told_by(ran)) && tells_front(*call, ran);
}

/* The same with other capacities, in the same room, which is ample for any. */
static int tells_with(struct call call, uint32_t c, uint32_t s)
{
    struct outcome outcome;
    call.c = c;
    call.s = s;
    call.work = REGISTER_WORK(c, s);
    return agree(&call, &outcome) && tells_as_run(&call, &outcome);
}

/* Refused for each cause at the start, where those that come later in order apply too. */
static int tells_at_start(struct call call)
{
    const struct forecast bad = {REGISTER_BAD_CAPACITY, 0, 0}, too_short = {REGISTER_SHORT_BUFFER, 0, 0};
    const struct forecast too_long = {REGISTER_LONG_JOURNAL, 0, 0};
    const struct call short_table = {call.c, call.s, TOO_LONG, call.work - 1, 0, 0};
    const struct call long_journal = {call.c, call.s, TOO_LONG, call.work, 0, 0};
    const uint32_t capacities[][2] = {
        {0, call.s}, {REGISTER_MOST_CABINETS + 1, call.s}, {call.c, 0}, {call.c, REGISTER_MOST_SPANS + 1},
        {UINT32_MAX, call.s}, {call.c, UINT32_MAX}};
    for (size_t i = 0; i < sizeof capacities / sizeof capacities[0]; i++) {
        struct call without = short_table;
        without.c = capacities[i][0];
        without.s = capacities[i][1];
        if (!tells(&without, bad))
            return 0;
    }
    return tells(&short_table, too_short) && tells(&long_journal, too_long);
}

/* Every forecast to the byte of a call that gave this outcome in ample room: also with a cabinet or a span
   less than the journal has. */
static int tells_all(struct call call, const struct outcome *ran)
{
    return tells_around(call, told_by(ran)) && tells_front(call, ran)
        && tells_with(call, call.c - 1, call.s)
        && tells_with(call, call.c, call.s > 1 ? call.s - 1 : 1) && tells_at_start(call);
}

/* ---- Rewritings ---- */

/* What a rewriting gives: its three numbers, the result in one number, and whether the rest of the output
   buffer is as before. */
struct rewriting {
    uint32_t number, place, length;
    uint64_t result;
    int kept;
};

/* In the heap the rest of the output buffer is unset, and not looked at. */
static struct rewriting rewrite(size_t journal_bytes, size_t room, enum place at, int held)
{
    struct rewriting outcome;
    uint8_t *own_journal = lend(JOURNAL, journal_bytes, at, held);
    uint8_t *output = lend(OUTPUT, room, at, held);
    uint32_t *place = lend(PLACE, sizeof *place, at, held);
    uint32_t *length = lend(LENGTH, sizeof *length, at, held);
    memcpy(own_journal, journal, journal_bytes);
    allow_journal(PROT_READ);
    outcome.number = register_rewrite(own_journal, journal_bytes, output, room, place, length);
    allow_journal(PROT_READ | PROT_WRITE);
    rewritings_made++;
    outcome.place = *place;
    outcome.length = *length;
    size_t written = *length <= room ? *length : 0;
    outcome.result = digest(output, written);
    outcome.kept = at == IN_THE_HEAP || all_held(output + written, room - written, held);
    give_back(at);
    return outcome;
}

static int same_rewriting(const struct rewriting *one, const struct rewriting *other)
{
    return one->number == other->number && one->place == other->place
        && one->length == other->length && one->result == other->result && one->kept && other->kept;
}

/* The bytes of each command with its operands. */
static const uint8_t widths[0x10] = {0, 1, 5, 3, 3, 5, 5, 5, 3, 3, 3, 7, 5, 7, 3, 1};

static struct rewriting not_rewritten(uint32_t number, size_t place)
{
    return (struct rewriting){number, (uint32_t)place, 0, digest(NULL, 0), 1};
}

/* The rewriting by hand of so many bytes of the journal into so much room. */
static struct rewriting rewritten_by_hand(size_t journal_bytes, size_t room)
{
    static uint8_t result[FAR_TOO_LONG];
    size_t length = 0, told = journal_bytes;
    unsigned duct = 0;
    if (journal_bytes > LONGEST)
        return not_rewritten(REGISTER_LONG_JOURNAL, 0);
    for (size_t at = 0; at < journal_bytes; at += widths[journal[at]]) {
        unsigned byte = journal[at];
        if (byte < 0x01 || byte > 0x0F)
            return not_rewritten(REGISTER_BAD_COMMAND, at);
        if (journal_bytes - at < widths[byte])
            return not_rewritten(REGISTER_CUT_OFF, at);
        if (byte == 0x0B && told == journal_bytes)
            told = at;
        memcpy(result + length, journal + at, widths[byte]);
        if (byte == 0x02) {
            duct++;
            result[length] = 0x0B;
            result[length + 5] = (uint8_t)(duct >> 8);
            result[length + 6] = (uint8_t)duct;
        }
        length += widths[byte == 0x02 ? 0x0B : byte];
    }
    if (told < journal_bytes)
        return not_rewritten(REGISTER_DUCT_TOLD, told);
    if (length > LONGEST || length > room)
        return not_rewritten(REGISTER_LONG_RESULT, 0);
    return (struct rewriting){REGISTER_ACCEPTED, (uint32_t)journal_bytes, (uint32_t)length,
                              digest(result, length), 1};
}

/* Rewrites with the same places and contents as in runs; each time as by hand. */
static int rewrites(size_t journal_bytes, size_t room)
{
    struct rewriting wanted = rewritten_by_hand(journal_bytes, room);
    size_t times = fences ? sizeof ways / sizeof ways[0] : 2;
    for (size_t i = 0; i < times; i++) {
        struct rewriting outcome = rewrite(journal_bytes, room, fences ? ways[i].place : IN_THE_HEAP,
                                           ways[i].held);
        if (!same_rewriting(&outcome, &wanted))
            return 0;
    }
    return 1;
}

/* The same, where this number must be returned. */
static int rewrites_with(size_t journal_bytes, size_t room, uint32_t number)
{
    return rewritten_by_hand(journal_bytes, room).number == number && rewrites(journal_bytes, room);
}

/* Rewrites so many bytes of the journal into no room, into ample room, and into every room around the
   length of the result, which for a journal that is refused is 0. */
static int rewrite_around(size_t journal_bytes)
{
    size_t ample = 2 * journal_bytes;
    size_t length = rewritten_by_hand(journal_bytes, ample).length;
    if (!rewrites(journal_bytes, 0) || !rewrites(journal_bytes, ample))
        return 0;
    for (size_t room = length < AROUND ? 0 : length - AROUND; room <= length + AROUND; room++)
        if (!rewrites(journal_bytes, room))
            return 0;
    return 1;
}

/* ---- Joinings ---- */

static uint8_t second[FAR_TOO_LONG];
static struct register_seam seams[MOST_SEAMS];

/* What is joined: so many bytes of the journal and of the second one, and so many of the seams; with a
   working table of so many numbers, into so much room. */
struct parts {
    size_t first, second, seams, work, room;
};

/* What a joining gives: its two numbers, the result in one number, whether the rest of the output buffer
   is as before, and whether the working table is as it must be. */
struct joining {
    uint32_t number, length;
    uint64_t result;
    int kept, left;
};

static struct joining join(const struct parts *parts, enum place at, int held)
{
    struct joining outcome;
    uint8_t *own_first = lend(JOURNAL, parts->first, at, held);
    uint8_t *own_second = lend(SECOND, parts->second, at, held);
    struct register_seam *own_seams = lend(SEAMS, parts->seams * sizeof *own_seams, at, held);
    uint32_t *work = lend(WORK, parts->work * sizeof *work, at, held);
    uint8_t *output = lend(OUTPUT, parts->room, at, held);
    uint32_t *length = lend(LENGTH, sizeof *length, at, held);
    memcpy(own_first, journal, parts->first);
    memcpy(own_second, second, parts->second);
    memcpy(own_seams, seams, parts->seams * sizeof *own_seams);
    allow_parts(PROT_READ);
    outcome.number = register_join(own_first, parts->first, own_second, parts->second, own_seams,
                                   parts->seams, work, parts->work, output, parts->room, length);
    allow_parts(PROT_READ | PROT_WRITE);
    joinings_made++;
    outcome.length = *length;
    size_t written = *length <= parts->room ? *length : 0;
    outcome.result = digest(output, written);
    outcome.kept = at == IN_THE_HEAP || all_held(output + written, parts->room - written, held);
    outcome.left = is_left(work, parts->work, parts->work < WHOLE_WORK ? 0 : WHOLE_WORK, at, held);
    give_back(at);
    return outcome;
}

static int same_joining(const struct joining *one, const struct joining *other)
{
    return one->number == other->number && one->length == other->length
        && one->result == other->result && one->kept && other->kept && one->left && other->left;
}

/* What a run with the greatest capacities tells of a journal. */
struct network {
    uint32_t number, place, cabinets, spans;
};

/* The room is ample for every journal that comes here. */
static struct network network_of(const uint8_t *bytes, size_t length)
{
    static uint32_t work[WHOLE_WORK], report[REGISTER_REPORT];
    static uint8_t answers[MOST_ROOM];
    uint32_t number = register_run(REGISTER_MOST_CABINETS, REGISTER_MOST_SPANS, bytes, length,
                                   work, WHOLE_WORK, answers, MOST_ROOM, report, REGISTER_REPORT);
    if (number == REGISTER_NO_ROOM)
        abort();
    return (struct network){number, report[REGISTER_REPORT_PLACE], report[REGISTER_REPORT_CABINETS],
                            report[REGISTER_REPORT_SPANS]};
}

/* The result of a joining by hand. */
static uint8_t joined[LONGEST];
static size_t joined_length;

/* Puts a number in two bytes behind what is joined. */
static void put_joined(unsigned value)
{
    joined[joined_length++] = (uint8_t)(value >> 8);
    joined[joined_length++] = (uint8_t)value;
}

/* What the operands of each command are: cabinets, spans, or neither. */
static const char *const operands[0x10] = {"", "", "cc", "c", "c", "cc", "cc", "cc",
                                           "s", "c", "c", "cc-", "cc", "s--", "s", ""};

/* Puts the second journal, of so many bytes, behind the first one. */
static void put_second(size_t length, struct network first)
{
    for (size_t at = 0; at < length; at += widths[second[at]]) {
        const char *kind = operands[second[at]];
        joined[joined_length++] = second[at];
        for (const uint8_t *operand = second + at + 1; *kind != '\0'; kind++, operand += 2) {
            unsigned raised = *kind == 'c' ? first.cabinets : *kind == 's' ? first.spans : 0;
            put_joined(((unsigned)operand[0] << 8 | operand[1]) + raised);
        }
    }
}

static void put_seam(struct register_seam seam, struct network first)
{
    joined[joined_length++] = 0x0B;
    put_joined(seam.first);
    put_joined(seam.second + first.cabinets);
    put_joined(seam.duct);
}

static int are_good(size_t count, struct network first, struct network other)
{
    for (size_t i = 0; i < count; i++)
        if (seams[i].first >= first.cabinets || seams[i].second >= other.cabinets || seams[i].duct == 0)
            return 0;
    return 1;
}

static struct joining not_joined(uint32_t number)
{
    return (struct joining){number, 0, digest(NULL, 0), 1, 1};
}

static struct joining joined_by_hand(const struct parts *parts)
{
    size_t length = parts->first + parts->second + SEAM * parts->seams;
    if (parts->work < WHOLE_WORK)
        return not_joined(REGISTER_SHORT_BUFFER);
    struct network first = network_of(journal, parts->first);
    struct network other = network_of(second, parts->second);
    if (first.number != REGISTER_ACCEPTED || other.number != REGISTER_ACCEPTED)
        return not_joined(REGISTER_REFUSED_JOURNAL);
    if (!are_good(parts->seams, first, other))
        return not_joined(REGISTER_BAD_SEAM);
    if (length > LONGEST || length > parts->room)
        return not_joined(REGISTER_LONG_JOIN);
    memcpy(joined, journal, parts->first);
    joined_length = parts->first;
    put_second(parts->second, first);
    for (size_t i = 0; i < parts->seams; i++)
        put_seam(seams[i], first);
    return (struct joining){REGISTER_ACCEPTED, (uint32_t)length, digest(joined, length), 1, 1};
}

/* Joins with the same places and contents as in runs; each time this must be given. */
static int joins_as(const struct parts *parts, struct joining wanted)
{
    size_t times = fences ? sizeof ways / sizeof ways[0] : 2;
    for (size_t i = 0; i < times; i++) {
        struct joining outcome = join(parts, fences ? ways[i].place : IN_THE_HEAP, ways[i].held);
        if (!same_joining(&outcome, &wanted))
            return 0;
    }
    return 1;
}

/* Joins as by hand. */
static int joins(const struct parts *parts)
{
    return joins_as(parts, joined_by_hand(parts));
}

/* The same with a working table to the number, where this must be returned. */
static int joins_with(size_t first_bytes, size_t second_bytes, size_t seam_count, size_t room,
                      uint32_t number)
{
    const struct parts parts = {first_bytes, second_bytes, seam_count, WHOLE_WORK, room};
    struct joining wanted = joined_by_hand(&parts);
    return wanted.number == number && joins_as(&parts, wanted);
}

/* A run of the result of the last joining by hand is accepted, or finds too many cabinets or spans. */
static int result_runs(struct network first, struct network other, size_t seam_count)
{
    struct network both = network_of(joined, joined_length);
    uint32_t all_cabinets = first.cabinets + other.cabinets;
    size_t all_spans = first.spans + other.spans + seam_count;
    if (all_cabinets > REGISTER_MOST_CABINETS || all_spans > REGISTER_MOST_SPANS)
        return both.number == REGISTER_FULL;
    return both.number == REGISTER_ACCEPTED && both.cabinets == all_cabinets && both.spans == all_spans;
}

/* Seams between any two cabinets, in few ducts. */
static void make_seams(size_t count, struct network first, struct network other)
{
    for (size_t i = 0; i < count; i++) {
        seams[i].first = (uint16_t)below(first.cabinets);
        seams[i].second = (uint16_t)below(other.cabinets);
        seams[i].duct = (uint16_t)(below(2) == 0 ? 1 : 0xFFFF - below(2));
    }
}

/* Spoils one seam in each way, with too little room besides. */
static int join_bad_seams(struct parts parts, struct network first, struct network other)
{
    struct register_seam *seam = &seams[below((unsigned)parts.seams)], good = *seam;
    size_t room = parts.room - 1;
    const struct register_seam bad[] = {
        {(uint16_t)first.cabinets, good.second, good.duct}, {0xFFFF, good.second, good.duct},
        {good.first, (uint16_t)other.cabinets, good.duct}, {good.first, 0xFFFF, good.duct},
        {good.first, good.second, 0}};
    int as_wanted = 1;
    for (size_t i = 0; as_wanted && i < sizeof bad / sizeof bad[0]; i++) {
        *seam = bad[i];
        as_wanted = joins_with(parts.first, parts.second, parts.seams, room, REGISTER_BAD_SEAM);
    }
    *seam = good;
    return as_wanted;
}

/* Spoils either journal by a byte at its end that is no command's, with a bad seam and too little room
   besides; and then has too short a working table. */
static int join_bad_journals(struct parts parts)
{
    uint16_t duct = seams[0].duct;
    size_t room = parts.room - 1;
    seams[0].duct = 0;
    journal[parts.first] = 0x10;
    second[parts.second] = 0x00;
    struct parts no_table = {parts.first + 1, parts.second, parts.seams, WHOLE_WORK - 1, room};
    int as_wanted = joins_with(parts.first + 1, parts.second, parts.seams, room, REGISTER_REFUSED_JOURNAL)
        && joins_with(parts.first, parts.second + 1, parts.seams, room, REGISTER_REFUSED_JOURNAL)
        && joins_with(parts.first + 1, parts.second + 1, parts.seams, 0, REGISTER_REFUSED_JOURNAL)
        && joins(&no_table);
    seams[0].duct = duct;
    return as_wanted;
}

/* Joins what a run accepts of so many bytes of both journals by a few seams: in room to the byte, in more
   with a longer working table, with a table that is too short, in too little room, and refused for each
   other cause. */
static int join_fronts(size_t first_bytes, size_t second_bytes)
{
    struct network first = network_of(journal, first_bytes), other = network_of(second, second_bytes);
    struct parts exact = {first.place, other.place, 1 + below(FEW_SEAMS), WHOLE_WORK, 0}, longer, none;
    make_seams(exact.seams, first, other);
    exact.room = exact.first + exact.second + SEAM * exact.seams;
    longer = none = exact;
    longer.room += AROUND;
    longer.work += AROUND;
    none.work = WHOLE_WORK - 1;
    return joins_with(exact.first, exact.second, exact.seams, exact.room, REGISTER_ACCEPTED)
        && result_runs(first, other, exact.seams) && joins(&longer) && joins(&none)
        && joins_with(exact.first, exact.second, exact.seams, exact.room - 1, REGISTER_LONG_JOIN)
        && joins_with(exact.first, exact.second, exact.seams, 0, REGISTER_LONG_JOIN)
        && join_bad_seams(exact, first, other) && join_bad_journals(exact);
}

/* ---- Every journal ---- */

/* Runs so many bytes of the journal with the room that is forecast, which must suffice. */
static int run_in_forecast_room(size_t journal_bytes, struct call *call, struct outcome *outcome)
{
    *call = (struct call){cabinets, spans, journal_bytes, REGISTER_WORK(cabinets, spans), 0,
                          REGISTER_REPORT};
    return forecast_room(journal_bytes, &call->answers) && agree(call, outcome)
        && outcome->number != REGISTER_NO_ROOM;
}

/* The journal with the room that is forecast, forecast to the byte, with room to the byte, with a byte
   less, and refused at the start. */
static int run_journal(void)
{
    struct call exact, no_room, no_table, no_report, no_cabinets, too_long;
    struct outcome wanted, outcome;
    if (!run_in_forecast_room(journal_length, &exact, &wanted) || !tells_all(exact, &wanted))
        return 0;
    exact.answers = wanted.report[REGISTER_REPORT_ANSWERS];
    no_room = no_table = no_report = no_cabinets = too_long = exact;
    no_room.answers--;
    no_table.work--;
    no_report.report--;
    no_cabinets.c = 0;
    too_long.journal = TOO_LONG;
    return agree(&exact, &outcome) && same(&outcome, &wanted)
        && returns(no_room, REGISTER_NO_ROOM) && returns(no_table, REGISTER_SHORT_BUFFER)
        && returns(no_report, REGISTER_SHORT_BUFFER)
        && returns(no_cabinets, REGISTER_BAD_CAPACITY) && returns(too_long, REGISTER_LONG_JOURNAL);
}

/* The journal without its last byte, or the last few: operands may be cut off. */
static int run_cut_short(void)
{
    struct call call;
    struct outcome outcome;
    return run_in_forecast_room(journal_length - 1 - journal_number % MOST_CUT, &call, &outcome)
        && tells_as_run(&call, &outcome);
}

/* The longest journals of questions about names and sizes, 5 bytes for each answer. */
static int forecast_names(void)
{
    const struct forecast five_each = {REGISTER_ACCEPTED, LONGEST - 1, 109225};
    const struct forecast cut_off = {REGISTER_CUT_OFF, LONGEST - 1, 0};
    memset(journal, 0x03, sizeof journal);
    if (!forecasts(LONGEST - 1, five_each) || !forecasts(LONGEST, cut_off))
        return 0;
    memset(journal, 0x04, sizeof journal);
    return forecasts(LONGEST - 1, five_each) && forecasts(LONGEST, cut_off);
}

/* The longest journals of one command alone, damaged in the last byte, and longer ones. */
static int forecast_longest(void)
{
    const struct forecast all = {REGISTER_ACCEPTED, LONGEST, 10682368};
    const struct forecast shares = {REGISTER_ACCEPTED, LONGEST, 196608};
    const struct forecast in_ducts = {REGISTER_ACCEPTED, LONGEST - 2, 674064};
    const struct forecast cut_by_two = {REGISTER_CUT_OFF, LONGEST - 2, 0};
    const struct forecast routes = {REGISTER_ACCEPTED, LONGEST - 1, 65535};
    const struct forecast records = {REGISTER_ACCEPTED, LONGEST - 2, 9362};
    const struct forecast lengths = {REGISTER_ACCEPTED, LONGEST - 1, 87380};
    const struct forecast cut_off = {REGISTER_CUT_OFF, LONGEST - 1, 0};
    const struct forecast unknown = {REGISTER_BAD_COMMAND, LONGEST - 1, 0};
    const struct forecast too_long = {REGISTER_LONG_JOURNAL, 0, 0};
    memset(journal, 0x0F, sizeof journal);
    if (!forecasts(LONGEST, shares) || !forecasts(TOO_LONG, too_long))
        return 0;
    memset(journal, 0x0B, sizeof journal);
    if (!forecasts(LONGEST - 2, in_ducts) || !forecasts(LONGEST, cut_by_two))
        return 0;
    memset(journal, 0x0C, sizeof journal);
    if (!forecasts(LONGEST - 1, routes) || !forecasts(LONGEST, cut_off))
        return 0;
    memset(journal, 0x0D, sizeof journal);
    if (!forecasts(LONGEST - 2, records) || !forecasts(LONGEST, cut_by_two))
        return 0;
    memset(journal, 0x0E, sizeof journal);
    if (!forecasts(LONGEST - 1, lengths) || !forecasts(LONGEST, cut_off))
        return 0;
    memset(journal, 0x01, sizeof journal);
    if (!forecasts(LONGEST, all) || !forecasts(TOO_LONG, too_long)
        || !forecasts(FAR_TOO_LONG, too_long))
        return 0;
    journal[LONGEST - 1] = 0x02;
    if (!forecasts(LONGEST, cut_off))
        return 0;
    journal[LONGEST - 1] = 0xFF;
    return forecasts(LONGEST, unknown) && forecasts(TOO_LONG, too_long);
}

/* Forecasts so many bytes of the journal to the byte, with the greatest capacities and a working table to
   the number. */
static int tells_of(size_t journal_bytes, struct forecast wanted)
{
    const struct call call = {.c = REGISTER_MOST_CABINETS, .s = REGISTER_MOST_SPANS,
                              .journal = journal_bytes, .work = WHOLE_WORK};
    return tells(&call, wanted);
}

/* The longest journals of one command alone, damaged in the last byte, and longer ones. */
static int exact_longest(void)
{
    const struct forecast shares = {REGISTER_ACCEPTED, LONGEST, 196608};
    const struct forecast cut_off = {REGISTER_CUT_OFF, LONGEST - 1, 0};
    const struct forecast unknown = {REGISTER_BAD_COMMAND, LONGEST - 1, 0};
    const struct forecast too_long = {REGISTER_LONG_JOURNAL, 0, 0};
    const struct forecast all = {REGISTER_ACCEPTED, REGISTER_MOST_CABINETS, 3 * REGISTER_MOST_CABINETS};
    const struct forecast full = {REGISTER_FULL, REGISTER_MOST_CABINETS, 0};
    memset(journal, 0x0F, sizeof journal);
    if (!tells_of(LONGEST, shares) || !tells_of(TOO_LONG, too_long) || !tells_of(FAR_TOO_LONG, too_long))
        return 0;
    journal[LONGEST - 1] = 0x0C;
    if (!tells_of(LONGEST, cut_off) || !tells_of(TOO_LONG, too_long))
        return 0;
    journal[LONGEST - 1] = 0x10;
    if (!tells_of(LONGEST, unknown))
        return 0;
    memset(journal, 0x01, sizeof journal);
    return tells_of(REGISTER_MOST_CABINETS, all) && tells_of(LONGEST, full)
        && tells_of(TOO_LONG, too_long);
}

/* Where there is nothing, null pointers will do: no journal has no answers, and no working table is too
   short a one. */
static int exact_nothing(void)
{
    enum { LEAST = REGISTER_WORK(1, 1), LONGER = LEAST + AROUND };
    uint32_t work[LONGER];
    struct forecast none = {1, 1, 1}, no_table = {1, 1, 1};
    memset(work, 0xFF, sizeof work);
    none.number = register_forecast_exact(1, 1, NULL, 0, work, LONGER, &none.place, &none.length);
    no_table.number = register_forecast_exact(1, 1, NULL, 0, NULL, 0, &no_table.place, &no_table.length);
    return same_forecast(&none, &(struct forecast){REGISTER_ACCEPTED, 0, 0})
        && same_forecast(&no_table, &(struct forecast){REGISTER_SHORT_BUFFER, 0, 0})
        && is_left(work, LONGER, LEAST, AT_THE_START, 0xFF);
}

/* Results as long as a journal may be, of cabinets alone and of spans; and one byte longer. */
static int rewrite_longest(void)
{
    size_t spans_bytes = LONGEST / 7 * 5;
    memset(journal, 0x01, sizeof journal);
    if (!rewrites_with(LONGEST, LONGEST, REGISTER_ACCEPTED)
        || !rewrites_with(LONGEST, LONGEST - 1, REGISTER_LONG_RESULT)
        || !rewrites_with(LONGEST, FAR_TOO_LONG, REGISTER_ACCEPTED)
        || !rewrites_with(TOO_LONG, FAR_TOO_LONG, REGISTER_LONG_JOURNAL)
        || !rewrites_with(FAR_TOO_LONG, FAR_TOO_LONG, REGISTER_LONG_JOURNAL))
        return 0;
    memset(journal, 0x02, spans_bytes);
    return rewrites_with(spans_bytes + 2, LONGEST, REGISTER_ACCEPTED)
        && rewrites_with(spans_bytes + 2, LONGEST - 1, REGISTER_LONG_RESULT)
        && rewrites_with(spans_bytes + 2, FAR_TOO_LONG, REGISTER_ACCEPTED)
        && rewrites_with(spans_bytes + 3, LONGEST, REGISTER_LONG_RESULT)
        && rewrites_with(spans_bytes + 3, FAR_TOO_LONG, REGISTER_LONG_RESULT);
}

/* A 0B, then as many 02 as there can be: the duct that is told is met before the length of the result,
   and behind what cannot be read. */
static int rewrite_told(void)
{
    memset(journal, 0x02, sizeof journal);
    if (!rewrites_with(LONGEST - 1, FAR_TOO_LONG, REGISTER_LONG_RESULT)
        || !rewrites_with(0, 0, REGISTER_ACCEPTED) || !rewrites_with(0, 1, REGISTER_ACCEPTED))
        return 0;
    journal[0] = 0x0B;
    size_t whole = 7 + (LONGEST - 7) / 5 * 5;
    if (!rewrites_with(whole, FAR_TOO_LONG, REGISTER_DUCT_TOLD)
        || !rewrites_with(whole, 0, REGISTER_DUCT_TOLD)
        || !rewrites_with(whole - 1, FAR_TOO_LONG, REGISTER_CUT_OFF))
        return 0;
    journal[whole] = 0x10;
    return rewrites_with(whole + 1, FAR_TOO_LONG, REGISTER_BAD_COMMAND);
}

/* The journal and one of the old reading with the same cabinets and spans, whole and cut short. */
static int rewrite_both(void)
{
    size_t cut = 1 + journal_number % MOST_CUT;
    if (!rewrite_around(journal_length))
        return 0;
    old_reading = 1;
    small_journal(journal_number);
    old_reading = 0;
    return rewrite_around(journal_length) && rewrite_around(journal_length - cut);
}

/* Makes the journal the second one; gives its length. */
static size_t make_second(void)
{
    memcpy(second, journal, journal_length);
    return journal_length;
}

/* The journal and the next one: whole, where a run may refuse one, and what a run accepts of them. */
static int join_small(void)
{
    small_journal(journal_number + 1);
    size_t second_length = make_second();
    small_journal(journal_number);
    const struct parts whole = {journal_length, second_length, 0, WHOLE_WORK + AROUND,
                                journal_length + second_length};
    return joins(&whole) && join_fronts(journal_length, second_length);
}

/* As many bytes of the largest journal as leave room for a small one and for the seams: with it behind
   them, and before them. Together they have more cabinets than a run takes. */
static int join_large(void)
{
    small_journal(SMALL_SEED);
    size_t small = make_second(), large = LONGEST - small - SEAM * FEW_SEAMS;
    large_journal();
    if (!join_fronts(large, small))
        return 0;
    make_second();
    small_journal(SMALL_SEED);
    return join_fronts(small, large);
}

/* Results as long as a journal may be, and one byte longer; and journals that are longer. */
static int join_longest(void)
{
    size_t half = LONGEST / 2;
    memset(journal, 0x0F, sizeof journal);
    memset(second, 0x0F, sizeof second);
    journal[0] = second[0] = 0x01;
    seams[0] = (struct register_seam){0, 0, 1};
    return joins_with(LONGEST, 0, 0, LONGEST, REGISTER_ACCEPTED)
        && joins_with(0, LONGEST, 0, FAR_TOO_LONG, REGISTER_ACCEPTED)
        && joins_with(half, half, 0, LONGEST, REGISTER_ACCEPTED)
        && joins_with(half, half, 0, LONGEST - 1, REGISTER_LONG_JOIN)
        && joins_with(half, half - SEAM, 1, FAR_TOO_LONG, REGISTER_ACCEPTED)
        && joins_with(half, half - SEAM + 1, 1, FAR_TOO_LONG, REGISTER_LONG_JOIN)
        && joins_with(LONGEST, 1, 0, FAR_TOO_LONG, REGISTER_LONG_JOIN)
        && joins_with(LONGEST, LONGEST, 1, FAR_TOO_LONG, REGISTER_LONG_JOIN)
        && joins_with(LONGEST, 0, 1, FAR_TOO_LONG, REGISTER_BAD_SEAM)
        && joins_with(0, LONGEST, 1, FAR_TOO_LONG, REGISTER_BAD_SEAM)
        && joins_with(TOO_LONG, 1, 1, FAR_TOO_LONG, REGISTER_REFUSED_JOURNAL)
        && joins_with(1, TOO_LONG, 1, FAR_TOO_LONG, REGISTER_REFUSED_JOURNAL)
        && joins_with(FAR_TOO_LONG, FAR_TOO_LONG, 1, 0, REGISTER_REFUSED_JOURNAL);
}

/* As many seams between two cabinets as a result has room for, which are more than a run takes; one more,
   and far more; and the last of these without a duct. */
static int join_by_many_seams(void)
{
    const struct network one = {REGISTER_ACCEPTED, 1, 1, 0};
    journal[0] = second[0] = 0x01;
    make_seams(MOST_SEAMS, one, one);
    if (!joins_with(1, 1, FITTING_SEAMS, LONGEST, REGISTER_ACCEPTED)
        || !result_runs(one, one, FITTING_SEAMS)
        || !joins_with(1, 1, FITTING_SEAMS + 1, FAR_TOO_LONG, REGISTER_LONG_JOIN)
        || !joins_with(1, 1, MOST_SEAMS, FAR_TOO_LONG, REGISTER_LONG_JOIN))
        return 0;
    seams[MOST_SEAMS - 1].duct = 0;
    return joins_with(1, 1, MOST_SEAMS, FAR_TOO_LONG, REGISTER_BAD_SEAM);
}

/* Half of all cabinets in a chain, with names, exchanges, records and lists. */
static void half_journal(void)
{
    unsigned half = REGISTER_MOST_CABINETS / 2;
    start_journal(1);
    while (cabinets < half)
        command(0x01, 0, 0, 0);
    for (unsigned i = 1; i < half; i++)
        command(0x02, 2, i - 1, i);
    command(0x09, 1, half - 1, 0);
    survey();
    ask_names();
    ask_exchanges();
    command(0x06, 2, 0, half - 1);
    command(0x07, 2, half - 1, 0);
    command(0x08, 1, spans - 1, 0);
}

/* Two halves with as many seams as a run takes; and one more. */
static int join_fullest(void)
{
    half_journal();
    size_t bytes = make_second();
    struct network half = network_of(journal, bytes);
    size_t most = REGISTER_MOST_SPANS - 2 * (size_t)half.spans;
    make_seams(most + 1, half, half);
    return joins_with(bytes, bytes, most, LONGEST, REGISTER_ACCEPTED) && result_runs(half, half, most)
        && joins_with(bytes, bytes, most + 1, LONGEST, REGISTER_ACCEPTED)
        && result_runs(half, half, most + 1);
}

/* Where there is nothing, null pointers will do: nothing joined is nothing, and no working table is too
   short a one. */
static int join_nothing(void)
{
    static uint32_t work[WHOLE_WORK];
    uint32_t length = 1, no_length = 1;
    memset(work, 0xFF, sizeof work);
    uint32_t number = register_join(NULL, 0, NULL, 0, NULL, 0, work, WHOLE_WORK, NULL, 0, &length);
    uint32_t no_table = register_join(NULL, 0, NULL, 0, NULL, 0, NULL, 0, NULL, 0, &no_length);
    return number == REGISTER_ACCEPTED && length == 0 && is_zero(work, WHOLE_WORK)
        && no_table == REGISTER_SHORT_BUFFER && no_length == 0;
}

static int join_largest(void)
{
    return join_large() && join_longest() && join_by_many_seams() && join_fullest() && join_nothing();
}

static int run_all(unsigned journals)
{
    for (journal_number = 0; journal_number < journals; journal_number++) {
        small_journal(journal_number);
        if (!run_journal() || !run_cut_short() || !rewrite_both()
            || (journal_number % JOINED_OF == 0 && !join_small()))
            return 0;
    }
    large_journal();
    return run_journal() && run_cut_short() && rewrite_around(journal_length) && forecast_names()
        && forecast_longest() && exact_longest() && exact_nothing() && rewrite_longest() && rewrite_told()
        && join_largest();
}

static int make_all_pages(void)
{
    return make_pages(JOURNAL, sizeof journal) && make_pages(SECOND, sizeof second)
        && make_pages(SEAMS, sizeof seams)
        && make_pages(WORK, (WHOLE_WORK + AROUND) * sizeof(uint32_t))
        && make_pages(ANSWERS, MOST_ROOM) && make_pages(REPORT, REGISTER_REPORT * sizeof(uint32_t))
        && make_pages(OUTPUT, FAR_TOO_LONG) && make_pages(PLACE, sizeof(uint32_t))
        && make_pages(LENGTH, sizeof(uint32_t));
}

int main(int count, char **words)
{
    unsigned journals = count > 2 ? (unsigned)strtoul(words[2], NULL, 10) : 1000;
    fences = count > 1 && strcmp(words[1], "fences") == 0;
    if (!fences && (count < 2 || strcmp(words[1], "heap") != 0)) {
        fprintf(stderr, "usage: memory fences|heap [JOURNALS]\n");
        return 2;
    }
    if (!make_all_pages()) {
        fprintf(stderr, "no memory\n");
        return 2;
    }
    if (fences) {
        watch_touches();
        if (!fences_stand()) {
            printf("the fences do not stand\n");
            return 1;
        }
    }
    if (sigsetjmp(before_touch, 1) != 0) {
        tell_touch();
        return 1;
    }
    if (!run_all(journals)) {
        printf("journal %u: the outcomes differ, or are not what they must be\n", journal_number);
        return 1;
    }
    printf("%u journals, %u runs, %u forecasts, %u to the byte, %u rewritings and %u joinings %s: "
           "no touch beyond the buffers, all outcomes agree\n", journals + 1, runs_made, forecasts_made,
           exact_made, rewritings_made, joinings_made, fences ? "between fences" : "in the heap");
    return 0;
}
