/*
 * A small shift planner. It writes a journal, sets aside just as much room for the answers as the
 * register forecasts to the byte, has the journal run by the register in one call with its own buffers,
 * and reads the answers. Each run must take all of the room, end where it was forecast, and find no room
 * in a byte less. Where a journal is refused, the room is that for the answers before the refused
 * command. It keeps a name for each cabinet and span from the notices alone, a mark for each exchange
 * that it entered (09), the spans that it entered (02 and 0B), and the lengths that were measured (0D).
 * It holds each name that it asked for (03, 04 and 05) against its own, each size (03 and 04) against
 * how many cabinets bear the name in its own list, the sizes of the rings of each district against the
 * district's, each new number against the next one, what is answered about exchanges (0A and 0F) against
 * its own marks and ring names, what is answered about sole spans (06 and 08) against its own spans and
 * ring names, and the length of each span (0E) against its own records, and follows each two routes that
 * it asked for (0C) over its own spans. It prints the names, the sizes, the lengths and the last two
 * routes, with how long these are.
 *
 * It queues splicing orders, one for each ring without an exchange, by the size of the ring: the largest
 * first, among equals the least name. It prints the queue whenever it is another than before.
 *
 * Then it takes a small journal of a branch on the old reading, by which spans from 02 have no mates. It
 * runs it as it stands, where it is refused in the end, has it rewritten, runs the result, and then the
 * result without its last byte, and prints what each of the three runs tells.
 *
 * Last it takes the journals of two cooperatives that unite. It runs each, has them joined by two seams,
 * and runs the result. Before the seams it holds its name list against the lists of both, the second's
 * raised by the first's counts of cabinets and spans. It prints the names of each alone, of the second
 * raised, and of all behind the seams; there it goes on with the result as with any journal, and asks
 * about all of it.
 *
 * It exits with 1 if any two differ, a route does not serve, or a forecast, a run, a rewriting or a
 * joining does not return what it must.
 */
#include "register.h"

#include <stdio.h>
#include <stdlib.h>
#include <string.h>

enum { CABINETS = 64, SPANS = 128, NO_NAME = 0xFFFF, NO_LENGTH = 0x10000 };

/* The planner's own buffers. */
static uint8_t journal[REGISTER_LONGEST_JOURNAL];
static size_t journal_length;
static uint32_t work[REGISTER_WORK(REGISTER_MOST_CABINETS, REGISTER_MOST_SPANS)];
static uint8_t *answers;
static uint32_t answers_length;
static uint32_t report[REGISTER_REPORT];

/* The ends of the spans as entered, for reading the answers to 05, 06, 08 and 0C. */
static unsigned ends[SPANS][2];
static size_t spans_entered;

/* ---- Writing the journal ---- */

static void put_byte(unsigned byte)
{
    journal[journal_length++] = (uint8_t)byte;
}

static void put_operand(unsigned value)
{
    put_byte(value >> 8);
    put_byte(value & 0xFF);
}

static void add_cabinet(void)
{
    put_byte(0x01);
}

static void enter_span(unsigned a, unsigned b)
{
    ends[spans_entered][0] = a;
    ends[spans_entered][1] = b;
    spans_entered++;
}

static void add_span(unsigned a, unsigned b)
{
    put_byte(0x02);
    put_operand(a);
    put_operand(b);
    enter_span(a, b);
}

static void add_in_duct(unsigned a, unsigned b, unsigned d)
{
    put_byte(0x0B);
    put_operand(a);
    put_operand(b);
    put_operand(d);
    enter_span(a, b);
}

static void ask_names(unsigned cabinet)
{
    put_byte(0x03);
    put_operand(cabinet);
    put_byte(0x04);
    put_operand(cabinet);
}

static void ask_mesh(size_t span)
{
    put_byte(0x05);
    put_operand(ends[span][0]);
    put_operand(ends[span][1]);
}

static void ask_sole(size_t span)
{
    put_byte(0x08);
    put_operand((unsigned)span);
}

static void ask_sole_list(size_t span)
{
    put_byte(0x06);
    put_operand(ends[span][0]);
    put_operand(ends[span][1]);
}

static void mark_exchange(unsigned cabinet)
{
    put_byte(0x09);
    put_operand(cabinet);
}

static void ask_exchange(unsigned cabinet)
{
    put_byte(0x0A);
    put_operand(cabinet);
}

static void ask_routes(unsigned a, unsigned b)
{
    put_byte(0x0C);
    put_operand(a);
    put_operand(b);
}

static void record_length(size_t span, unsigned day, unsigned metres)
{
    put_byte(0x0D);
    put_operand((unsigned)span);
    put_operand(day);
    put_operand(metres);
}

static void ask_length(size_t span)
{
    put_byte(0x0E);
    put_operand((unsigned)span);
}

static void ask_share(void)
{
    put_byte(0x0F);
}

/* Asks for two routes between every two of some cabinets, which share a ring. */
static void ask_all_routes(unsigned first, unsigned count)
{
    for (unsigned a = first; a < first + count; a++)
        for (unsigned b = first; b < first + count; b++)
            if (a != b)
                ask_routes(a, b);
}

/* A round of questions: for every name there is, and the sizes of districts and rings, which spans are
   sole and how long, which rings hold an exchange, and last the share. */
static void ask_all(unsigned cabinets)
{
    for (unsigned cabinet = 0; cabinet < cabinets; cabinet++) {
        ask_names(cabinet);
        ask_exchange(cabinet);
    }
    for (size_t span = 0; span < spans_entered; span++) {
        ask_mesh(span);
        ask_sole(span);
        ask_sole_list(span);
        ask_length(span);
    }
    ask_share();
}

/* Measures the newest spans, so many of them, on one day. */
static void measure_newest(size_t count, unsigned day)
{
    for (size_t span = spans_entered - count; span < spans_entered; span++)
        record_length(span, day, 100 + 10 * (unsigned)span + day);
}

/* A span of a link of the great loop: in duct 5, or for every other village with no duct told. */
static void add_to_link(unsigned village, unsigned a, unsigned b)
{
    if (village % 2 == 0)
        add_in_duct(a, b, 5);
    else
        add_span(a, b);
}

/* Two cabinets with two spans from 02, which are mates and leave them two rings; then one in a duct, which
   is no mate of these and makes them one, with two routes. */
static void write_pair(unsigned first, unsigned cabinets)
{
    add_span(first, first + 1);
    add_span(first + 1, first);
    ask_all(cabinets);
    add_in_duct(first, first + 1, 5);
    ask_all(cabinets);
    ask_all_routes(first, 2);
}

/* The sheets that were late, for both spans of each link, the first of which is this: one of the earlier
   of the two days, and another one of the later day. They change no length. */
static void write_late_sheets(size_t first)
{
    for (size_t span = first; span < spans_entered; span++) {
        unsigned village = (unsigned)(span - first) / 2;
        record_length(span, 2 * village + 1, 1);
        record_length(span, 2 * village + 2, 2);
    }
}

/* Villages of three cabinets, each closed to a ring, every other one with an exchange; then the
   villages one after the other in a great loop. Each link of it is two spans that are mates, which
   protect nothing; the last makes all the rings one: a join of equal sizes. The first question is about
   an empty network. Two routes are asked for in each village once it is a ring, and between all of the
   villages in the end.

   The last two cabinets stay by themselves, and the very last is entered behind the villages. So with five
   villages there are 16 cabinets at first, of which one is 62.5 thousandths and three are 187.5, two exact
   halves: the one goes down to 62, the other up to 188. Of 17 six are 352.9, up to 353, and 15 are 882.4,
   down to 882.

   The spans of a village are measured when it is closed, on day 0; but for the last village entered, so
   that some spans have no length. The first span of a link is measured before the second is laid, and
   again with it, a day after. In the end come the late sheets. */
static void write_journal(unsigned villages)
{
    unsigned cabinets = 3 * villages + 1;
    ask_share();
    for (unsigned cabinet = 0; cabinet < cabinets; cabinet++)
        add_cabinet();
    for (unsigned village = villages; village-- > 0;) {
        unsigned first = 3 * village;
        if (village % 2 == 1) {
            mark_exchange(first + 2);
            ask_all(cabinets);
        }
        add_span(first, first + 1);
        add_span(first + 1, first + 2);
        add_span(first + 2, first);
        if (village > 0)
            measure_newest(3, 0);
        ask_all(cabinets);
        ask_all_routes(first, 3);
    }
    add_cabinet();
    cabinets++;
    write_pair(3 * villages, cabinets);
    size_t first_link = spans_entered;
    for (unsigned village = 0; village < villages; village++) {
        unsigned here = 3 * village + 1, there = 3 * ((village + 1) % villages);
        add_to_link(village, here, there);
        measure_newest(1, 2 * village + 1);
        ask_all(cabinets);
        add_to_link(village, there, here);
        measure_newest(2, 2 * village + 2);
        ask_all(cabinets);
    }
    write_late_sheets(first_link);
    ask_all(cabinets);
    ask_all_routes(0, 3 * villages);
}

/* ---- Having it run ---- */

/* A length that suffices whatever the capacities; and where the forecast to the byte ends: at the
   journal's end, or at the refused command. */
static uint32_t sufficient_length, forecast_place;

/* The first forecast: of the journal or, where it is damaged, of what comes before; 0 if there is none. */
static int forecast_sufficient(void)
{
    uint32_t place;
    uint32_t number = register_forecast(journal, journal_length, &place, &sufficient_length);
    if (number == REGISTER_BAD_COMMAND || number == REGISTER_CUT_OFF)
        number = register_forecast(journal, place, &place, &sufficient_length);
    if (number != REGISTER_ACCEPTED)
        printf("no forecast: %u at byte %u\n", (unsigned)number, (unsigned)place);
    return number == REGISTER_ACCEPTED;
}

/* Forecasts so many bytes of the journal to the byte; 0 if another number than this is returned, or place
   and length are not those of it. */
static int forecast_bytes(uint32_t c, uint32_t s, size_t bytes, uint32_t *place, uint32_t wanted)
{
    uint32_t number = register_forecast_exact(c, s, journal, bytes, work, sizeof work / sizeof work[0],
                                              place, &answers_length);
    int good = number == wanted && (number == REGISTER_ACCEPTED ? *place == bytes : answers_length == 0);
    if (!good)
        printf("%zu bytes forecast to the byte: %u at byte %u with length %u, wanted %u\n", bytes,
               (unsigned)number, (unsigned)*place, (unsigned)answers_length, (unsigned)wanted);
    return good;
}

/* Forecasts to the byte what a run takes that returns this number. Of a journal that is refused, the bytes
   before the refused command are forecast once more, and are accepted. */
static int forecast_exact(uint32_t c, uint32_t s, uint32_t wanted)
{
    uint32_t end;
    return forecast_bytes(c, s, journal_length, &forecast_place, wanted)
        && (wanted == REGISTER_ACCEPTED
            || forecast_bytes(c, s, forecast_place, &end, REGISTER_ACCEPTED));
}

/* Sets aside the answer buffer with the length that is forecast to the byte, which is never more than the
   sufficient one; 0 if it cannot, or another number than this is forecast. */
static int make_room(uint32_t c, uint32_t s, uint32_t wanted)
{
    if (!forecast_sufficient() || !forecast_exact(c, s, wanted))
        return 0;
    if (answers_length > sufficient_length) {
        printf("%u bytes are forecast, and to the byte %u\n", (unsigned)sufficient_length,
               (unsigned)answers_length);
        return 0;
    }
    /* For length 0 a null pointer may come, and will do. */
    answers = malloc(answers_length);
    if (answers == NULL && answers_length > 0) {
        printf("no memory for %u bytes of answers\n", (unsigned)answers_length);
        return 0;
    }
    return 1;
}

/* Runs the journal in so many bytes of the answer buffer. */
static uint32_t run_in(uint32_t c, uint32_t s, uint32_t room)
{
    return register_run(c, s, journal, journal_length, work, sizeof work / sizeof work[0],
                        answers, room, report, sizeof report / sizeof report[0]);
}

/* Did the last run end where it was forecast, and take all of the room? */
static int ends_as_forecast(void)
{
    uint32_t place = report[REGISTER_REPORT_PLACE], taken = report[REGISTER_REPORT_ANSWERS];
    if (place != forecast_place || taken != answers_length)
        printf("ended at byte %u with %u bytes of answers, forecast were byte %u and %u\n",
               (unsigned)place, (unsigned)taken, (unsigned)forecast_place, (unsigned)answers_length);
    return place == forecast_place && taken == answers_length;
}

/* Sets aside the room and runs the journal with these capacities, first in a byte less, where it finds no
   room; 0 if another number than this is returned, or anything is not as it was forecast. */
static int run_journal(uint32_t c, uint32_t s, uint32_t wanted)
{
    if (!make_room(c, s, wanted))
        return 0;
    if (answers_length > 0 && run_in(c, s, answers_length - 1) != REGISTER_NO_ROOM) {
        printf("%u bytes were forecast, and one less suffices\n", (unsigned)answers_length);
        return 0;
    }
    uint32_t number = run_in(c, s, answers_length);
    if (number == REGISTER_NO_ROOM)
        printf("%u bytes were forecast, and do not suffice\n", (unsigned)answers_length);
    else if (number != wanted)
        printf("returned %u at byte %u, wanted %u\n", (unsigned)number,
               (unsigned)report[REGISTER_REPORT_PLACE], (unsigned)wanted);
    return number == wanted && ends_as_forecast();
}

/* ---- Reading the answers ---- */

/* The planner's name list, the ducts, its marks, and its records of lengths: for each span whether it was
   measured, the latest day, and the metres of the first record of that day. A span has the duct that was
   told, or 0 if none was. */
static unsigned district[CABINETS], ring[CABINETS], mesh[SPANS], duct[SPANS];
static int exchange[CABINETS], measured[SPANS];
static unsigned latest_day[SPANS], metres[SPANS];
static size_t cabinets_known, spans_known;

/* The place reached in the journal and in the answers. */
static size_t asked_at, answered_at;

/* What was asked for and what the list had, for the last answer about each item. */
static unsigned asked_district[CABINETS], asked_ring[CABINETS], asked_mesh[SPANS];
static unsigned asked_district_size[CABINETS], asked_ring_size[CABINETS];
static unsigned asked_length[SPANS], asked_sole[SPANS];
static unsigned asked_share, notices_read, routes_read, lengths_read, compared, differences;

/* Where the answer about the last two routes begins. */
static const uint8_t *last_routes;

static unsigned two_bytes(const uint8_t *at)
{
    return (unsigned)at[0] << 8 | at[1];
}

/* What was answered about an item against what the planner has for it. */
static void hold(const char *kind, size_t item, unsigned answered, unsigned known)
{
    compared++;
    if (answered == known)
        return;
    differences++;
    printf("%s %zu: answered %u, known %u\n", kind, item, answered, known);
}

static void read_cabinet(void)
{
    unsigned number = two_bytes(answers + answered_at + 1);
    hold("cabinet", cabinets_known, number, (unsigned)cabinets_known);
    district[number] = number;
    ring[number] = number;
    cabinets_known = number + 1;
    asked_at += 1;
    answered_at += 3;
}

static void read_notice(const uint8_t *at)
{
    unsigned item = two_bytes(at + 1), name = two_bytes(at + 3);
    if (at[0] == 1)
        district[item] = name;
    else if (at[0] == 2)
        ring[item] = name;
    else
        mesh[item] = name;
    notices_read++;
}

/* Do two spans join the same two cabinets, in either direction? */
static int beside(size_t one, size_t other)
{
    return (ends[one][0] == ends[other][0] && ends[one][1] == ends[other][1])
        || (ends[one][0] == ends[other][1] && ends[one][1] == ends[other][0]);
}

/* The least of a span and its mates. Spans with no duct told lie in one, which is no other span's. */
static size_t least_mate(size_t span)
{
    for (size_t other = 0; other < span; other++)
        if (duct[other] == duct[span] && beside(other, span))
            return other;
    return span;
}

/* The answer to 02, of 5 bytes, and to 0B, of 7. Mates share a mesh, and protect nothing: a span with
   a lesser mate changes no name. */
static void read_span(size_t command_length)
{
    const uint8_t *answer = answers + answered_at;
    unsigned number = two_bytes(answer + 1), count = two_bytes(answer + 5);
    hold("span", spans_known, number, (unsigned)spans_known);
    mesh[number] = two_bytes(answer + 3);
    duct[number] = command_length == 7 ? two_bytes(journal + asked_at + 5) : 0;
    spans_known = number + 1;
    for (unsigned i = 0; i < count; i++)
        read_notice(answer + 7 + 5 * i);
    hold("mesh of the mates of", number, mesh[number], mesh[least_mate(number)]);
    if (least_mate(number) != number)
        hold("notices for a mate", number, count, 0);
    asked_at += command_length;
    answered_at += 7 + 5 * (size_t)count;
}

/* How many cabinets bear this name in a list. */
static unsigned bearers(const unsigned names[], unsigned name)
{
    unsigned count = 0;
    for (size_t item = 0; item < cabinets_known; item++)
        count += names[item] == name;
    return count;
}

/* A kind of group that 03 or 04 asks for: what its name and size are called, the names learnt, and what
   was answered last. */
struct kind {
    const char *name, *size;
    const unsigned *learnt;
    unsigned *asked, *asked_size;
};

static const struct kind of_district = {"district", "size of the district of", district,
                                        asked_district, asked_district_size};
static const struct kind of_ring = {"ring", "size of the ring of", ring, asked_ring, asked_ring_size};

/* The answer to 03 or 04: a cabinet's name of one kind, and how many cabinets bear it. */
static void read_name(const struct kind *kind)
{
    const uint8_t *answer = answers + answered_at;
    unsigned item = two_bytes(journal + asked_at + 1), learnt = kind->learnt[item];
    kind->asked[item] = two_bytes(answer + 1);
    kind->asked_size[item] = two_bytes(answer + 3);
    hold(kind->name, item, kind->asked[item], learnt);
    hold(kind->size, item, kind->asked_size[item], bearers(kind->learnt, learnt));
    asked_at += 3;
    answered_at += 5;
}

/* Both ends of a span share its mesh. */
static void read_mesh(void)
{
    const uint8_t *answer = answers + answered_at;
    unsigned a = two_bytes(journal + asked_at + 1), b = two_bytes(journal + asked_at + 3);
    unsigned name = answer[1] == 1 ? two_bytes(answer + 2) : NO_NAME;
    for (size_t span = 0; span < spans_known; span++) {
        if (ends[span][0] == a && ends[span][1] == b) {
            asked_mesh[span] = name;
            hold("mesh", span, name, mesh[span]);
        }
    }
    asked_at += 5;
    answered_at += 4;
}

/* A span is sole between its ends exactly if they are in two rings. */
static unsigned is_sole(size_t span)
{
    return ring[ends[span][0]] != ring[ends[span][1]];
}

static void read_sole(void)
{
    unsigned span = two_bytes(journal + asked_at + 1);
    asked_sole[span] = answers[answered_at + 1];
    hold("sole span", span, asked_sole[span], is_sole(span));
    asked_at += 3;
    answered_at += 2;
}

/* Between the two ends of a span its mates are listed by the least, or nothing. */
static void read_sole_list(void)
{
    const uint8_t *answer = answers + answered_at;
    unsigned a = two_bytes(journal + asked_at + 1), b = two_bytes(journal + asked_at + 3);
    unsigned count = two_bytes(answer + 1);
    for (size_t span = 0; span < spans_known; span++) {
        if (ends[span][0] == a && ends[span][1] == b) {
            hold("sole spans at the ends of", span, count, is_sole(span));
            if (count == 1)
                hold("least mate of", span, two_bytes(answer + 3), (unsigned)least_mate(span));
        }
    }
    asked_at += 5;
    answered_at += 3 + 2 * (size_t)count;
}

static void read_mark(void)
{
    exchange[two_bytes(journal + asked_at + 1)] = 1;
    asked_at += 3;
    answered_at += 1;
}

/* Does the ring of this name hold an exchange? */
static int holds_exchange(unsigned name)
{
    for (size_t item = 0; item < cabinets_known; item++)
        if (exchange[item] && ring[item] == name)
            return 1;
    return 0;
}

static void read_exchange(void)
{
    unsigned item = two_bytes(journal + asked_at + 1);
    hold("exchange in the ring of", item, answers[answered_at + 1],
         (unsigned)holds_exchange(ring[item]));
    asked_at += 3;
    answered_at += 2;
}

/* Follows a route of so many spans from a. Gives the cabinet where it ends, or NO_NAME if it leaves
   the spans that are known, does not go on from where it is, or comes to a cabinet twice. */
static unsigned follow(const uint8_t *route, unsigned count, unsigned a)
{
    int met[CABINETS] = {0};
    unsigned here = a;
    met[a] = 1;
    for (unsigned i = 0; i < count; i++) {
        size_t span = two_bytes(route + 2 * i);
        if (span >= spans_known || (ends[span][0] != here && ends[span][1] != here))
            return NO_NAME;
        here = ends[span][0] == here ? ends[span][1] : ends[span][0];
        if (met[here])
            return NO_NAME;
        met[here] = 1;
    }
    return here;
}

/* How many spans of a route are spans of another, or mates of such. */
static unsigned shared(const uint8_t *one, unsigned one_count, const uint8_t *other,
                       unsigned other_count)
{
    unsigned count = 0;
    for (unsigned i = 0; i < one_count; i++)
        for (unsigned j = 0; j < other_count; j++)
            count += least_mate(two_bytes(one + 2 * i)) == least_mate(two_bytes(other + 2 * j));
    return count;
}

/* The answer to 0C: whatever pair is given, it must serve. */
static void read_routes(void)
{
    unsigned a = two_bytes(journal + asked_at + 1), b = two_bytes(journal + asked_at + 3);
    const uint8_t *one = answers + answered_at + 3;
    unsigned one_count = two_bytes(one - 2);
    const uint8_t *other = one + 2 * one_count + 2;
    unsigned other_count = two_bytes(other - 2);
    last_routes = answers + answered_at;
    hold("rings at the ends of the routes from", a, ring[a], ring[b]);
    unsigned one_end = follow(one, one_count, a), other_end = follow(other, other_count, a);
    hold("end of a route from", a, one_end, b);
    hold("end of the other route from", a, other_end, b);
    if (one_end == b && other_end == b)
        hold("spans shared by the routes from", a,
             shared(one, one_count, other, other_count), 0);
    routes_read++;
    asked_at += 5;
    answered_at += 5 + 2 * ((size_t)one_count + other_count);
}

static void read_record(void)
{
    unsigned span = two_bytes(journal + asked_at + 1), day = two_bytes(journal + asked_at + 3);
    if (!measured[span] || day > latest_day[span]) {
        measured[span] = 1;
        latest_day[span] = day;
        metres[span] = two_bytes(journal + asked_at + 5);
    }
    asked_at += 7;
    answered_at += 1;
}

/* The answer to 0E: a length exactly if there is a record, else two bytes 0. */
static void read_length(void)
{
    const uint8_t *answer = answers + answered_at;
    unsigned span = two_bytes(journal + asked_at + 1);
    hold("whether there is a length of span", span, answer[1], (unsigned)measured[span]);
    hold("length of span", span, two_bytes(answer + 2), measured[span] ? metres[span] : 0);
    asked_length[span] = answer[1] == 1 ? two_bytes(answer + 2) : NO_LENGTH;
    lengths_read += answer[1] == 1;
    asked_at += 3;
    answered_at += 4;
}

/* So many of so many in thousandths, rounded to the nearest, an exact half to the even one; 0 of none. It
   goes up from 0 as long as the share lies beyond the middle between a thousandth and the next; just in
   the middle an odd one goes up, an even one stays. */
static unsigned thousandths(size_t part, size_t whole)
{
    unsigned share = 0;
    for (; whole > 0; share++) {
        size_t middle = (2 * (size_t)share + 1) * whole;
        if (2000 * part < middle || (2000 * part == middle && share % 2 == 0))
            break;
    }
    return share;
}

static void read_share(void)
{
    size_t fed = 0;
    for (size_t item = 0; item < cabinets_known; item++)
        fed += (size_t)holds_exchange(ring[item]);
    asked_share = two_bytes(answers + answered_at + 1);
    hold("share of cabinets", cabinets_known, asked_share, thousandths(fed, cabinets_known));
    asked_at += 1;
    answered_at += 3;
}

/* Is this the first cabinet with its name in a list? */
static int is_first(const unsigned names[], size_t item)
{
    for (size_t other = 0; other < item; other++)
        if (names[other] == names[item])
            return 0;
    return 1;
}

/* What the sizes of the rings of a district add up to, each ring counted once. */
static unsigned sum_of_rings(unsigned name)
{
    unsigned sum = 0;
    for (size_t item = 0; item < cabinets_known; item++)
        if (asked_district[item] == name && is_first(asked_ring, item))
            sum += asked_ring_size[item];
    return sum;
}

static void hold_sums(void)
{
    for (size_t item = 0; item < cabinets_known; item++)
        if (is_first(asked_district, item))
            hold("sum of the sizes of the rings of district", asked_district[item],
                 sum_of_rings(asked_district[item]), asked_district_size[item]);
}

/* A splicing order, for the ring of this name. Its weight is the size of the ring. */
struct order {
    unsigned ring, size;
};

static struct order queue[CABINETS];
static size_t queued;

/* The larger ring comes first; among equals, the least name. */
static int comes_before(struct order one, struct order other)
{
    return one.size > other.size || (one.size == other.size && one.ring < other.ring);
}

static void enqueue(struct order order)
{
    size_t at = queued++;
    for (; at > 0 && comes_before(order, queue[at - 1]); at--)
        queue[at] = queue[at - 1];
    queue[at] = order;
}

/* Makes the queue anew, with an order for each ring that no exchange feeds; 0 if it is as before. */
static int make_queue(void)
{
    struct order before[CABINETS];
    size_t queued_before = queued;
    memcpy(before, queue, sizeof queue);
    queued = 0;
    for (size_t item = 0; item < cabinets_known; item++)
        if (is_first(asked_ring, item) && !holds_exchange(asked_ring[item]))
            enqueue((struct order){asked_ring[item], asked_ring_size[item]});
    return queued != queued_before || memcmp(queue, before, queued * sizeof queue[0]) != 0;
}

static void print_queue(void)
{
    printf("queue, rings with their sizes:");
    for (size_t i = 0; i < queued; i++)
        printf(" %u (%u)", queue[i].ring, queue[i].size);
    printf("\n");
}

/* With the share a round of questions ends: each name and size was told, and no span came in between. */
static void end_round(void)
{
    hold_sums();
    if (make_queue())
        print_queue();
}

/* The byte that answers a command: 0B as 02, every other one by its own plus 80. */
static unsigned answering(unsigned byte)
{
    return (byte == 0x0B ? 0x02 : byte) + 0x80;
}

/* Reads one answer; 0 if its first byte is not the one that answers the command. */
static int read_answer(void)
{
    if (answers[answered_at] != answering(journal[asked_at]))
        return 0;
    switch (answers[answered_at]) {
    case 0x81: read_cabinet(); return 1;
    case 0x82: read_span(journal[asked_at] == 0x0B ? 7 : 5); return 1;
    case 0x83: read_name(&of_district); return 1;
    case 0x84: read_name(&of_ring); return 1;
    case 0x85: read_mesh(); return 1;
    case 0x86: read_sole_list(); return 1;
    case 0x88: read_sole(); return 1;
    case 0x89: read_mark(); return 1;
    case 0x8A: read_exchange(); return 1;
    case 0x8C: read_routes(); return 1;
    case 0x8D: read_record(); return 1;
    case 0x8E: read_length(); return 1;
    case 0x8F: read_share(); end_round(); return 1;
    default: return 0;
    }
}

/* Reads the answers to the commands before this place; 0 if one does not answer its command, or they end
   before. */
static int read_answers_before(size_t place)
{
    while (asked_at < place && answered_at < report[REGISTER_REPORT_ANSWERS]) {
        if (!read_answer()) {
            printf("no answer at byte %zu\n", answered_at);
            return 0;
        }
    }
    return asked_at == place;
}

/* Reads all answers; 0 if one does not answer its command, or they do not end with the last command
   that was accepted. */
static int read_answers(void)
{
    return read_answers_before(report[REGISTER_REPORT_PLACE])
        && answered_at == report[REGISTER_REPORT_ANSWERS];
}

static void print_names(void)
{
    printf("cabinet  district learnt asked size  ring learnt asked size\n");
    for (size_t item = 0; item < cabinets_known; item++)
        printf("%7zu  %15u %5u %4u  %11u %5u %4u\n", item, district[item], asked_district[item],
               asked_district_size[item], ring[item], asked_ring[item], asked_ring_size[item]);
    printf("span  mesh learnt asked  metres\n");
    for (size_t item = 0; item < spans_known; item++) {
        printf("%4zu  %11u %5u", item, mesh[item], asked_mesh[item]);
        if (asked_length[item] == NO_LENGTH)
            printf("    none\n");
        else
            printf("  %6u\n", asked_length[item]);
    }
    printf("share of cabinets whose ring holds an exchange: %u thousandths\n", asked_share);
}

/* Prints the spans of a route, from its count on; gives where the next one begins. */
static const uint8_t *print_route(const uint8_t *list)
{
    unsigned count = two_bytes(list);
    for (unsigned i = 0; i < count; i++)
        printf(" %u", two_bytes(list + 2 + 2 * i));
    return list + 2 + 2 * count;
}

/* Prints how long a route is, as far as its spans were measured. */
static void print_metres(const uint8_t *list)
{
    unsigned count = two_bytes(list), length = 0, without = 0;
    for (unsigned i = 0; i < count; i++) {
        unsigned span = two_bytes(list + 2 + 2 * i);
        if (asked_length[span] == NO_LENGTH)
            without++;
        else
            length += asked_length[span];
    }
    printf(", %u metres, %u spans not measured\n", length, without);
}

/* The last two routes, of which it is known that they serve. */
static void print_routes(void)
{
    const uint8_t *working = last_routes + 1;
    printf("working route:");
    const uint8_t *standby = print_route(working);
    print_metres(working);
    printf("standby route:");
    print_route(standby);
    print_metres(standby);
}

/* ---- The villages ---- */

/* Writes their journal, has it run and prints what it tells; 0 if anything is not as it must be. */
static int plan_villages(void)
{
    write_journal(5);
    if (!run_journal(CABINETS, SPANS, REGISTER_ACCEPTED) || !read_answers())
        return 0;
    print_names();
    if (differences == 0)
        print_routes();
    printf("%u bytes of room for the answers suffice by the first forecast, %u are forecast to the byte; "
           "%u were taken, and one less is refused with %d\n", (unsigned)sufficient_length,
           (unsigned)answers_length, (unsigned)report[REGISTER_REPORT_ANSWERS], REGISTER_NO_ROOM);
    printf("%u commands, %u notices, %u pairs of routes and %u lengths read, %u names, sizes, numbers, "
           "exchanges, sole spans, routes and lengths compared, %u differ\n",
           (unsigned)report[REGISTER_REPORT_COMMANDS], notices_read, routes_read, lengths_read,
           compared, differences);
    return differences == 0;
}

/* ---- A branch on the old reading ---- */

/* Where the result of a rewriting is written: as long as a journal may be, so that it serves wherever
   any buffer does. */
static uint8_t rewritten[REGISTER_LONGEST_JOURNAL];

/* Three cabinets in a row, with two spans from 02 between the first two and one behind them: by the old
   reading the two protect each other. The last question is for two routes between the first two. */
static void write_old_journal(void)
{
    journal_length = spans_entered = 0;
    for (unsigned cabinet = 0; cabinet < 3; cabinet++)
        add_cabinet();
    add_span(0, 1);
    add_span(1, 0);
    add_span(1, 2);
    ask_all(3);
    ask_routes(0, 1);
}

/* Forgets what was read of another run. */
static void forget_answers(void)
{
    free(answers);
    answers = NULL;
    asked_at = answered_at = 0;
    cabinets_known = spans_known = queued = 0;
    memset(exchange, 0, sizeof exchange);
    memset(measured, 0, sizeof measured);
}

/* Runs the journal, which must return this number, and reads its answers as all others. */
static int run_branch(uint32_t wanted)
{
    forget_answers();
    return run_journal(CABINETS, SPANS, wanted) && read_answers();
}

/* Where the journal is refused and why, and how much is answered before. */
static void print_refusal(void)
{
    printf("refused with %u at byte %u behind %u bytes of answers\n",
           (unsigned)report[REGISTER_REPORT_REFUSAL], (unsigned)report[REGISTER_REPORT_PLACE],
           (unsigned)report[REGISTER_REPORT_ANSWERS]);
}

/* The ring of each cabinet, and the sole spans. */
static void print_branch(void)
{
    printf("rings");
    for (size_t item = 0; item < cabinets_known; item++)
        printf(" %u", asked_ring[item]);
    printf(", sole spans");
    for (size_t span = 0; span < spans_known; span++)
        if (asked_sole[span])
            printf(" %zu", span);
}

/* Holds them, and the sizes of the rings, against those that the branch must have. */
static void hold_branch(const unsigned rings[3], const unsigned sizes[3], const unsigned sole[3])
{
    for (size_t item = 0; item < 3; item++) {
        hold("ring, in the branch, of cabinet", item, asked_ring[item], rings[item]);
        hold("size, in the branch, of the ring of cabinet", item, asked_ring_size[item], sizes[item]);
        hold("sole, in the branch, is span", item, asked_sole[item], sole[item]);
    }
}

/* Has the journal rewritten, and puts the result in its place; 0 if it is refused, or its length is not
   2 bytes more for each 02. */
static int rewrite_journal(void)
{
    uint32_t place, length;
    uint32_t number = register_rewrite(journal, journal_length, rewritten, sizeof rewritten,
                                       &place, &length);
    if (number != REGISTER_ACCEPTED) {
        printf("not rewritten: %u at byte %u\n", (unsigned)number, (unsigned)place);
        return 0;
    }
    hold("place, rewriting bytes", journal_length, place, (unsigned)journal_length);
    hold("length, rewriting bytes", journal_length, length,
         (unsigned)(journal_length + 2 * spans_entered));
    memcpy(journal, rewritten, length);
    journal_length = length;
    return differences == 0;
}

/* A result is not rewritten again: its first 0B, behind the three cabinets, is refused. */
static int refuse_again(void)
{
    uint32_t place, length;
    uint32_t number = register_rewrite(journal, journal_length, rewritten, sizeof rewritten,
                                       &place, &length);
    printf("rewritten again: refused with %u at byte %u\n", (unsigned)number, (unsigned)place);
    return number == REGISTER_DUCT_TOLD && place == 3 && length == 0;
}

/* As it stands, the two spans are mates: each cabinet is a ring, every span is sole, and there are no two
   routes. */
static int plan_as_it_stands(void)
{
    static const unsigned rings[3] = {0, 1, 2}, sizes[3] = {1, 1, 1}, sole[3] = {1, 1, 1};
    if (!run_branch(REGISTER_NO_SHARED_RING))
        return 0;
    printf("a journal of the old reading, as it stands: ");
    print_branch();
    printf(", no two routes from 0 to 1: ");
    print_refusal();
    hold_branch(rings, sizes, sole);
    return differences == 0;
}

/* What the branch must have by the old reading, where the two spans protect each other. */
static void hold_old_reading(void)
{
    static const unsigned rings[3] = {0, 0, 2}, sizes[3] = {2, 2, 1}, sole[3] = {0, 0, 1};
    hold_branch(rings, sizes, sole);
}

/* Rewritten, each span has a duct of its own, and the two protect each other, as by the old reading. The
   first forecast, which suffices for both, is the same. */
static int plan_rewritten(void)
{
    size_t old_length = journal_length;
    uint32_t room = sufficient_length;
    if (!rewrite_journal() || !run_branch(REGISTER_ACCEPTED))
        return 0;
    printf("rewritten, %zu bytes in place of %zu: ", journal_length, old_length);
    print_branch();
    printf(", routes from 0 to 1:");
    const uint8_t *other = print_route(last_routes + 1);
    printf(" and");
    print_route(other);
    printf("\n");
    hold_old_reading();
    for (size_t span = 0; span < spans_known; span++)
        hold("duct of span", span, duct[span], (unsigned)span + 1);
    hold("room forecast for bytes", journal_length, sufficient_length, room);
    return differences == 0;
}

/* Without its last byte the question for two routes is cut off; all before it is answered. */
static int plan_damaged(void)
{
    journal_length--;
    if (!run_branch(REGISTER_CUT_OFF))
        return 0;
    printf("without its last byte: ");
    print_branch();
    printf(": ");
    print_refusal();
    hold_old_reading();
    return differences == 0;
}

static int plan_branch(void)
{
    write_old_journal();
    return plan_as_it_stands() && plan_rewritten() && refuse_again() && plan_damaged();
}

/* ---- Two cooperatives that unite ---- */

/* A cooperative's network: its journal, its spans with their ends, ducts and metres, and the names that
   its run ends with. */
struct network {
    uint8_t journal[REGISTER_LONGEST_JOURNAL];
    size_t length;
    unsigned cabinets, spans, ends[SPANS][2], duct[SPANS], metres[SPANS];
    unsigned district[CABINETS], ring[CABINETS], mesh[SPANS];
};

static struct network first_network, second_network;

/* The seams, from a cabinet of the first to one of the second, by the numbers of their own journals. */
enum { SEAMS = 2, SEAM_BYTES = 7 };
static const struct register_seam seams[SEAMS] = {{3, 0, 1}, {0, 3, 1}};

/* A ring of three cabinets with an exchange, and a fourth one behind it, by two spans that are mates. */
static void write_first(void)
{
    journal_length = spans_entered = 0;
    for (unsigned cabinet = 0; cabinet < 4; cabinet++)
        add_cabinet();
    add_span(0, 1);
    add_span(1, 2);
    add_span(2, 0);
    add_span(2, 3);
    add_span(3, 2);
    mark_exchange(1);
    measure_newest(2, 0);
    ask_all(4);
    ask_all_routes(0, 3);
}

/* A ring of four cabinets without an exchange, one of its spans in a duct, and a fifth one before it, by
   two spans that are mates. */
static void write_second(void)
{
    journal_length = spans_entered = 0;
    for (unsigned cabinet = 0; cabinet < 5; cabinet++)
        add_cabinet();
    add_span(1, 2);
    add_span(2, 3);
    add_in_duct(3, 4, 1);
    add_span(4, 1);
    add_span(0, 1);
    add_span(1, 0);
    measure_newest(2, 1);
    ask_all(5);
    ask_all_routes(1, 4);
}

/* Runs the journal with the greatest capacities, as a joining does. Its answers are yet to be read. */
static int run_greatest(void)
{
    forget_answers();
    return run_journal(REGISTER_MOST_CABINETS, REGISTER_MOST_SPANS, REGISTER_ACCEPTED);
}

static void print_list(const char *kind, const unsigned names[], size_t first, size_t count)
{
    printf("%s", kind);
    for (size_t item = first; item < first + count; item++)
        printf(" %u", names[item]);
}

/* Prints the share, and the names of all from this cabinet and this span on. */
static void print_network(size_t cabinet, size_t span)
{
    printf(" share %u", asked_share);
    print_list(", districts", district, cabinet, cabinets_known - cabinet);
    print_list(", rings", ring, cabinet, cabinets_known - cabinet);
    print_list(", meshes", mesh, span, spans_known - span);
    printf("\n");
}

/* Keeps the journal, and what its run has told. */
static void keep(struct network *own)
{
    memcpy(own->journal, journal, journal_length);
    memcpy(own->ends, ends, sizeof ends);
    memcpy(own->duct, duct, sizeof duct);
    memcpy(own->metres, asked_length, sizeof asked_length);
    memcpy(own->district, district, sizeof district);
    memcpy(own->ring, ring, sizeof ring);
    memcpy(own->mesh, mesh, sizeof mesh);
    own->length = journal_length;
    own->cabinets = (unsigned)cabinets_known;
    own->spans = (unsigned)spans_known;
}

/* Runs a cooperative's own journal. */
static int plan_alone(const char *name, struct network *own)
{
    if (!run_greatest() || !read_answers())
        return 0;
    printf("%s cooperative:", name);
    print_network(0, 0);
    keep(own);
    return differences == 0;
}

/* Has the two journals joined by these seams. The result comes in the journal's place. */
static uint32_t join(const struct register_seam by[], size_t count, uint32_t *length)
{
    return register_join(first_network.journal, first_network.length,
                         second_network.journal, second_network.length, by, count,
                         work, sizeof work / sizeof work[0], journal, sizeof journal, length);
}

/* Enters the spans of a network, their ends raised by so many cabinets. */
static void enter_spans(const struct network *own, unsigned raised)
{
    for (size_t span = 0; span < own->spans; span++)
        enter_span(own->ends[span][0] + raised, own->ends[span][1] + raised);
}

static int plan_join(void)
{
    uint32_t length, number = join(seams, SEAMS, &length);
    if (number != REGISTER_ACCEPTED) {
        printf("not joined: %u\n", (unsigned)number);
        return 0;
    }
    hold("length, joining by seams", SEAMS, length,
         (unsigned)(first_network.length + second_network.length + SEAM_BYTES * SEAMS));
    printf("joined: %zu bytes and %zu by %d seams, %u in all\n", first_network.length,
           second_network.length, SEAMS, (unsigned)length);
    journal_length = length;
    spans_entered = 0;
    enter_spans(&first_network, 0);
    enter_spans(&second_network, first_network.cabinets);
    for (size_t i = 0; i < SEAMS; i++)
        enter_span(seams[i].first, seams[i].second + first_network.cabinets);
    return differences == 0;
}

/* Holds the name list against the names of a network alone, raised by so many cabinets and spans. Ducts
   and metres are as they were. */
static void hold_raised(const struct network *own, unsigned cabinets, unsigned spans)
{
    for (size_t item = 0; item < own->cabinets; item++) {
        size_t raised = cabinets + item;
        hold("district, joined, of", raised, district[raised], own->district[item] + cabinets);
        hold("ring, joined, of", raised, ring[raised], own->ring[item] + cabinets);
    }
    for (size_t item = 0; item < own->spans; item++) {
        size_t raised = spans + item;
        hold("mesh, joined, of", raised, mesh[raised], own->mesh[item] + spans);
        hold("duct, joined, of", raised, duct[raised], own->duct[item]);
        hold("metres, joined, of", raised, asked_length[raised], own->metres[item]);
    }
}

/* Before the seams there are the names of both alone, the second's raised. Its share is over both. */
static int plan_before_seams(void)
{
    unsigned cabinets = first_network.cabinets, spans = first_network.spans;
    if (!run_greatest() || !read_answers_before(journal_length - SEAM_BYTES * SEAMS))
        return 0;
    hold("cabinets, joined with", cabinets, (unsigned)cabinets_known, cabinets + second_network.cabinets);
    hold("spans, joined with", spans, (unsigned)spans_known, spans + second_network.spans);
    hold_raised(&first_network, 0, 0);
    hold_raised(&second_network, cabinets, spans);
    printf("the second, raised:");
    print_network(cabinets, spans);
    return differences == 0;
}

/* The seams close a loop through both, so that all rings become one, named as the largest was. Then
   questions are put behind the result: a round about all, and for two routes between the cooperatives. */
static int plan_behind_seams(void)
{
    unsigned cabinets = first_network.cabinets, largest = second_network.ring[1] + cabinets;
    if (!read_answers())
        return 0;
    for (size_t item = 0; item < cabinets_known; item++)
        hold("ring, behind the seams, of", item, ring[item], largest);
    ask_all((unsigned)cabinets_known);
    ask_routes(1, 2 + cabinets);
    if (!run_greatest() || !read_answers())
        return 0;
    hold("share of all cabinets", cabinets_known, asked_share, 1000);
    printf("all, behind the seams:");
    print_network(0, 0);
    if (differences == 0)
        print_routes();
    return differences == 0;
}

/* A seam goes by the numbers of each journal alone: behind the first's last cabinet there is none. */
static int refuse_seam(void)
{
    const struct register_seam bad = {(uint16_t)first_network.cabinets, 0, 1};
    uint32_t length, number = join(&bad, 1, &length);
    printf("joined at cabinet %u of the first: refused with %u\n", first_network.cabinets,
           (unsigned)number);
    return number == REGISTER_BAD_SEAM && length == 0;
}

static int plan_union(void)
{
    write_first();
    if (!plan_alone("first", &first_network))
        return 0;
    write_second();
    return plan_alone("second", &second_network) && plan_join() && plan_before_seams()
        && plan_behind_seams() && refuse_seam();
}

int main(void)
{
    for (size_t item = 0; item < SPANS; item++)
        asked_length[item] = NO_LENGTH;
    int good = plan_villages() && plan_branch() && plan_union();
    free(answers);
    return !good;
}
