/*
 * The plant register: districts, rings and meshes from a journal of spans.
 *
 * Link with libjournal.a. One call of register_run runs one journal from an empty network, with
 * buffers that the caller lends for the time of the call. A call of register_forecast before it gives
 * a length of the answer buffer that suffices, from the journal alone. A call of register_forecast_exact
 * gives the length that is taken, to the byte, by a run without answers. A call of register_rewrite turns
 * a journal of the old reading, by which spans from 02 have no mates, into one that a run answers as that
 * reading does. A call of register_join makes one journal of two, with spans between their networks.
 * Nothing is kept between calls. Wherever a journal or an answer has a number in two bytes, the high byte
 * comes first. The header is for C from C11 and for C++ from C++11 on.
 */
#ifndef REGISTER_H
#define REGISTER_H

#include <stddef.h>
#include <stdint.h>

#ifdef __cplusplus
extern "C" {
#endif

/* The greatest capacities and the longest journal. */
#define REGISTER_MOST_CABINETS 4096u
#define REGISTER_MOST_SPANS 8192u
#define REGISTER_LONGEST_JOURNAL 65536u

/* The least length of the working table, in numbers of 32 bits, for capacities c and s. A joining takes
   the one for the greatest capacities. */
#define REGISTER_WORK(c, s) (24u * (size_t)(c) + 8u * (size_t)(s) + 64u)

/* The bytes of stack that a call of any of the functions takes are fewer than this, whatever the
   capacities. A program that is linked dynamically and bound lazily pays besides, at the first call,
   what its linker takes to find memset. */
#define REGISTER_STACK 4096u

/* The least length of the report, and the place of each of its numbers. */
#define REGISTER_REPORT 6u
enum {
    REGISTER_REPORT_REFUSAL = 0,  /* 0 if the whole journal was accepted */
    REGISTER_REPORT_PLACE = 1,    /* the journal's length, or the refused command's first byte */
    REGISTER_REPORT_COMMANDS = 2, /* commands accepted */
    REGISTER_REPORT_ANSWERS = 3,  /* answer bytes written */
    REGISTER_REPORT_CABINETS = 4, /* cabinets present */
    REGISTER_REPORT_SPANS = 5     /* spans present */
};

/* The returned numbers. A run knows those up to 14, a forecast 0, 3, 4 and 5, a forecast to the byte
   those up to 14 but for 11, a rewriting 0, 3, 4, 5, 15 and 16, and a joining 0, 2, 17, 18 and 19. The
   causes are tested in the order in which they stand here: first those at the start, then for each
   command those at a command, and once all commands are read those of a rewriting or of a joining. The
   first that applies is returned. A joining has the one number 17 for every cause for which a run refuses
   one of its journals. */
enum {
    REGISTER_ACCEPTED = 0,
    /* Refused at the start. From a run: only the number is returned, all buffers are as before. From a
       forecast of either kind: place and length are 0, and a working table is as before. */
    REGISTER_BAD_CAPACITY = 1, /* c not from 1 to 4,096, or s not from 1 to 8,192 */
    REGISTER_SHORT_BUFFER = 2, /* working table too short, or report of a run too short */
    REGISTER_LONG_JOURNAL = 3, /* journal longer than 65,536 bytes */
    /* Stopped at a command. From a run: the report is filled, the answers before it stand. From a
       forecast of either kind: the place is the command's, and the length is 0. */
    REGISTER_BAD_COMMAND = 4,       /* a byte that is no command's: not 01 to 0F */
    REGISTER_CUT_OFF = 5,           /* operands cut off by the journal's end */
    REGISTER_UNKNOWN_CABINET = 6,   /* a cabinet number not yet given */
    REGISTER_UNKNOWN_SPAN = 7,      /* a span number not yet given */
    REGISTER_EQUAL_CABINETS = 8,    /* 02, 05, 0B or 0C with equal cabinets */
    REGISTER_ALREADY_EXCHANGE = 12, /* 09 with a cabinet that is already an exchange */
    REGISTER_NO_DUCT = 13,          /* 0B with duct 0 */
    REGISTER_FULL = 9,              /* 01 with c cabinets present, or 02 or 0B with s spans */
    REGISTER_ACROSS_DISTRICTS = 10, /* 06 or 07 across districts */
    REGISTER_NO_SHARED_RING = 14,   /* 0C with cabinets that share no ring, in one district or two */
    REGISTER_NO_ROOM = 11,          /* the answer is longer than what is left of the answers */
    /* From a rewriting alone. */
    REGISTER_DUCT_TOLD = 15,   /* the journal has a 0B */
    REGISTER_LONG_RESULT = 16, /* the result is longer than 65,536 bytes or than the output buffer */
    /* From a joining alone. */
    REGISTER_REFUSED_JOURNAL = 17, /* a run refuses the first journal or the second */
    REGISTER_BAD_SEAM = 18,        /* a seam with a cabinet that its journal lacks, or with duct 0 */
    REGISTER_LONG_JOIN = 19        /* the result is longer than 65,536 bytes or than the output buffer */
};

/*
 * Spans in ducts. Command 0B a b d, with operands of two bytes each, adds a span between a and b in
 * duct d. It is answered by 82, as 02 is; no answer begins with 8B. Command 02 a b adds a span with no
 * duct told.
 *
 * Spans of one duct between the same two cabinets, in either direction, are mates. All 02 spans
 * between the same two cabinets count as lying in one duct, which is never the duct of a 0B span: they
 * are mates of each other, and of no 0B span. The same duct between other cabinets means nothing. To
 * lose a span is to lose its mates with it, so mates do not protect each other:
 *
 * rings     Two cabinets share a ring exactly if they share a district, and no loss of one span with
 *           its mates parts them. So a network of two cabinets and two 02 spans has two rings, and
 *           both spans are sole; with two 0B spans in two ducts it has one, and neither is.
 * meshes    Two spans share a mesh exactly if they are mates, or some simple cycle holds both. Such a
 *           cycle uses at most one of a set of mates: two spans between one pair are a cycle unless
 *           they are mates. The size of a mesh counts single spans.
 * 06 a b    lists every set of mates whose loss parts a and b, once and by its least number, in the
 *           order in which they are met from a to b. A span without mates is a set by itself.
 * 08 s      answers 1 exactly if the loss of s with its mates parts its two ends, else 0.
 */

/*
 * Exchanges. Command 09 a, with an operand of two bytes, marks cabinet a as an exchange. It is answered
 * by 89 alone. Command 0A a asks whether the ring of cabinet a holds an exchange. It is answered by 8A
 * and one byte, 1 exactly if it does, else 0. A cabinet that is not there is refused with
 * REGISTER_UNKNOWN_CABINET by both, one that is already an exchange with REGISTER_ALREADY_EXCHANGE by
 * 09.
 *
 * Command 0F, without operands, asks for the share of all cabinets whose ring holds an exchange. It is
 * answered by 8F and a number of thousandths in two bytes, from 0 to 1000: the one nearest to the share,
 * and of two equally near the even one. 1 of 16 gives 62, 3 of 16 give 188, 5 of 16 give 312. An empty
 * network gives 0. Because of the rounding 1000 does not say that every cabinet's ring holds an
 * exchange, nor 0 that none does: 4,095 of 4,096 give 1000, and 1 of 2,000 gives 0. 0A tells it for each
 * cabinet.
 */

/*
 * Two routes. Command 0C a b, with operands of two bytes each, asks for a working route and a standby
 * route from a to b, which must share a ring. It is answered by 8C, a count and the spans of one
 * route, a second count and the spans of the other; each count and each span has two bytes.
 *
 * Both routes lead from a to b, in travelling order and without a repeated cabinet. No span of one is
 * a span or a mate of a span of the other. They may pass through the same cabinets.
 *
 * That much may be relied on, whatever pair is given. Which of the pairs it is, is not settled, and
 * neither is which of its routes comes first, nor how long they are: another version of the register
 * may give another pair, and a span or a cabinet more may change it. It never depends on the room:
 * the same journal gives the same pair whatever the length of the answer buffer, and a 0C is refused
 * with REGISTER_NO_ROOM exactly if this pair does not fit, though a shorter one might. All else that a
 * run returns and leaves in its buffers is settled by its input and by these pairs: their lengths
 * decide where later answers stand, what the report counts, what is forecast to the byte, and whether
 * there is room.
 */

/*
 * Survey lengths. Command 0D s day metres, with operands of two bytes each, records a length of span
 * s. It is answered by 8D alone. Command 0E s asks for the length of span s. It is answered by 8E, one
 * byte 1 and the metres in two bytes; or by 8E, one byte 0 and 0000, exactly while there is no record
 * of s. A span that is not there is refused with REGISTER_UNKNOWN_SPAN by both.
 *
 * Of the records of a span, the one of the latest day holds; of those with one day, the one entered
 * first. So records of different days give the same length however they are arranged. Any numbers will
 * do for day and metres: day 0 comes before day 1 and is a day like any other, and a length of 0
 * metres is one. Every span has its own records, mates too, and they change no other answer.
 */

/*
 * Sizes. Command 03 a, with an operand of two bytes, asks for the district of cabinet a, and command
 * 04 a for its ring. They are answered by 83 and by 84, followed by the name and then the size, in two
 * bytes each, high byte first: 5 bytes in all. The size is the number of cabinets of the district or
 * ring that a has when the question is answered, a itself among them, so it is at least 1 and at most
 * the capacity c. A cabinet that is not there is refused with REGISTER_UNKNOWN_CABINET by both.
 *
 * Asked at one time, 03 gives the same two fields for all cabinets of one district, and 04 for all of
 * one ring. The size is how many cabinets bear the name by then, as that of their district or of their
 * ring, so a planner that keeps each cabinet's names, from 81 and the notices, can count it too. The
 * sizes of the rings of a district, each ring counted once, add up to the district's. The size of a mesh
 * is not told.
 */

/*
 * Runs a journal.
 *
 * c, s      The capacities: at most c cabinets and s spans. Any numbers may be given; those outside
 *           1 to 4,096 and 1 to 8,192 are refused.
 * journal   The commands, journal_len bytes. It is only read.
 * work      The working table, work_len numbers of 32 bits, at least REGISTER_WORK(c, s). It may
 *           hold anything before the call. Unless refused at the start, its first
 *           REGISTER_WORK(c, s) numbers are 0 on return; those beyond never change.
 * answers   The answer buffer, answers_len bytes. The answers are written one behind the other from
 *           its first byte on; the rest of it is as before.
 * report    The report, report_len numbers of 32 bits, at least REGISTER_REPORT. Unless refused at
 *           the start its first six are filled; those beyond never change.
 *
 * Lengths count numbers for work and report, bytes for journal and answers. Each pointer must be
 * good for its length; work and report must be aligned for uint32_t. The four buffers must not
 * overlap. A null pointer is allowed where the length is 0.
 *
 * REGISTER_STACK bytes of stack must be there.
 *
 * Returns 0 if the whole journal was accepted, else the number of the refusal, 1 to 14.
 */
uint32_t register_run(uint32_t c, uint32_t s,
                      const uint8_t *journal, size_t journal_len,
                      uint32_t *work, size_t work_len,
                      uint8_t *answers, size_t answers_len,
                      uint32_t *report, size_t report_len);

/*
 * Forecasts a sufficient length of the answer buffer, from the journal alone, without running it.
 *
 * journal   The commands, journal_len bytes. It is only read.
 * place     Filled on every return: the journal's length if it is accepted, the refused command's
 *           first byte for 4 and 5, and 0 for 3.
 * length    Filled on every return: a sufficient length if the journal is accepted, and 0 if it is
 *           refused.
 *
 * The journal's pointer must be good for its length; a null pointer is allowed where that is 0. place
 * and length may hold anything before the call. They must be good, aligned for uint32_t, and overlap
 * neither each other nor the journal. Nothing else is written.
 *
 * With an answer buffer of this length or more, a run of an accepted journal never returns
 * REGISTER_NO_ROOM, whatever the capacities:
 *
 *     uint32_t place, length;
 *     if (register_forecast(journal, journal_len, &place, &length) == REGISTER_ACCEPTED) {
 *         uint8_t *answers = malloc(length);
 *         if (answers != NULL || length == 0)
 *             number = register_run(c, s, journal, journal_len, work, work_len, answers, length,
 *                                   report, report_len);
 *     }
 *
 * The length is generous: it goes by how many commands there are of each kind, and a run mostly takes
 * far less. It always fits 32 bits; for a long journal with many questions 07 it can be more than four
 * hundred million bytes, with many 06 or 0C nearly ninety million. Where that is too much,
 * register_forecast_exact tells what is taken, at the cost of a run.
 *
 * The journal is read and not run. The first command with an unknown byte or with cut-off operands is
 * refused, even where a run would stop earlier for another cause. A journal that is accepted here may
 * be refused by a run for another cause.
 *
 * Where 4 or 5 is returned, the journal's first *place bytes are accepted by a second call. With the
 * length that it gives, a run of the WHOLE journal never returns REGISTER_NO_ROOM either. So for the
 * answers before the damaged place:
 *
 *     number = register_forecast(journal, journal_len, &place, &length);
 *     if (number == REGISTER_BAD_COMMAND || number == REGISTER_CUT_OFF)
 *         register_forecast(journal, place, &place, &length);
 *
 * REGISTER_STACK bytes of stack must be there.
 *
 * Returns 0 if the journal is accepted, else the number of the refusal, 3, 4 or 5.
 */
uint32_t register_forecast(const uint8_t *journal, size_t journal_len,
                           uint32_t *place, uint32_t *length);

/*
 * Forecasts the length of the answers to the byte: runs the journal with these capacities as if the
 * answer buffer were ample, and writes no answer.
 *
 * c, s      The capacities, as for a run.
 * journal   The commands, journal_len bytes. It is only read.
 * work      The working table, work_len numbers of 32 bits, at least REGISTER_WORK(c, s). It may
 *           hold anything before the call. If refused at the start, all of it is as before; on every
 *           other return, accepted or refused, its first REGISTER_WORK(c, s) numbers are 0. Those
 *           beyond never change.
 * place     Filled on every return: the journal's length if it is accepted, 0 for 1, 2 and 3, and the
 *           refused command's first byte for every other number.
 * length    Filled on every return: how many bytes the answers have if the journal is accepted, and 0 if
 *           it is refused.
 *
 * journal_len counts bytes, work_len numbers. The pointers of journal and work must be good for their
 * lengths; a null pointer is allowed where that is 0. place and length must be good. work, place and
 * length must be aligned for uint32_t. No two of the four may overlap. All but the journal may hold
 * anything before the call. Nothing else is written.
 *
 * Where 0 is returned, *length is just what a run takes with the same c, s and journal, with any working
 * table of at least REGISTER_WORK(c, s) numbers and any report of at least REGISTER_REPORT: with an answer
 * buffer of *length bytes or more it is accepted, and writes *length of them; with fewer it returns
 * REGISTER_NO_ROOM. The table that was lent here can be lent there:
 *
 *     uint32_t place, length;
 *     if (register_forecast_exact(c, s, journal, journal_len, work, work_len, &place, &length)
 *         == REGISTER_ACCEPTED) {
 *         uint8_t *answers = malloc(length);
 *         if (answers != NULL || length == 0)
 *             number = register_run(c, s, journal, journal_len, work, work_len, answers, length,
 *                                   report, report_len);
 *     }
 *
 * The length is at most the one that register_forecast gives, which accepts the journal too. The call runs
 * the journal, all but the writing of the answers, and costs as much: register_forecast is for when it is
 * not to be run, or the capacities are not known.
 *
 * For 0C the routes are counted that a run gives. As another version of the library may give others, the
 * length is good for runs of this version and not of another: forecast it anew, and do not store it.
 *
 * Where another number is returned, a run with the same c, s and journal, with such a table and report and
 * with ample answer room, returns the same number, and from 4 on reports the same place; but 2 says only
 * that this table is too short. REGISTER_NO_ROOM is never returned.
 *
 * From 4 on, the journal's first *place bytes are the commands that such a run accepts, and a second call
 * with the same c, s and table accepts them. With the length that it gives, such a run of the WHOLE journal
 * returns the number of the first call, and all answers before the refused command are written. So for
 * these:
 *
 *     number = register_forecast_exact(c, s, journal, journal_len, work, work_len, &place, &length);
 *     if (number > REGISTER_LONG_JOURNAL)
 *         register_forecast_exact(c, s, journal, place, work, work_len, &place, &length);
 *
 * REGISTER_STACK bytes of stack must be there.
 *
 * Returns 0 if the journal is accepted, else the number of the refusal, 1 to 10 or 12 to 14.
 */
uint32_t register_forecast_exact(uint32_t c, uint32_t s,
                                 const uint8_t *journal, size_t journal_len,
                                 uint32_t *work, size_t work_len,
                                 uint32_t *place, uint32_t *length);

/*
 * Rewrites a journal of the old reading, by which a span from 02 has no mate. Each 02 a b becomes
 * 0B a b d, d being its span number plus 1; every other command stays as it is. So each span has a
 * duct of its own, and no mate. A branch that has journals of the old reading rewrites them once.
 *
 * journal   The commands, journal_len bytes. It is only read.
 * out       The output buffer, out_len bytes. If the journal is accepted, the result is written from
 *           its first byte on, and the rest is as before. If it is refused, all of it is as before.
 * place     Filled on every return: the journal's length if it is accepted, the refused command's
 *           first byte for 4 and 5, that of the first 0B for 15, and 0 for 3 and 16.
 * length    Filled on every return: the result's length if the journal is accepted, and 0 if it is
 *           refused.
 *
 * The pointers of journal and out must be good for their lengths; a null pointer is allowed where that
 * is 0. place and length must be good and aligned for uint32_t. No two of the four may overlap: a
 * journal cannot be rewritten where it stands. All but the journal may hold anything before the call.
 * Nothing else is written.
 *
 * With ample answer room, and with any capacities, a run of the result answers as the old reading answers
 * the journal: command by command the answers are the same, byte for byte, but for 0C, where any pair of
 * routes that serves in the one serves in the other; and the same refusal comes, if any, at the command
 * that corresponds. In the result this command stands two bytes later for each 02 before it. The length
 * that register_forecast gives for the journal is the one that it gives for the result, and it is ample
 * room for both. register_forecast_exact knows nothing of the old reading: for what is taken, forecast the
 * result by it and not the journal.
 *
 * The journal is read as by register_forecast, and not run: a span's number is the count of 02 before
 * it, also where a run would stop earlier. The first command with an unknown byte or with cut-off operands
 * is refused with 4 or 5, also behind a 0B. Where all can be read, a journal with a 0B is refused with 15:
 * it tells ducts itself. So a result with a span in it is never rewritten a second time. Where there is
 * no 0B, 16 is returned if the result is longer than REGISTER_LONGEST_JOURNAL or than out_len.
 *
 * A 02 has five bytes and becomes seven, so the result has at most 7/5 of the journal's length, and a
 * journal without spans is its own result. A buffer of REGISTER_LONGEST_JOURNAL bytes serves wherever
 * any does:
 *
 *     static uint8_t out[REGISTER_LONGEST_JOURNAL];
 *     uint32_t place, length;
 *     if (register_rewrite(journal, journal_len, out, sizeof out, &place, &length)
 *         == REGISTER_ACCEPTED)
 *         number = register_run(c, s, out, length, work, work_len, answers, answers_len,
 *                               report, report_len);
 *
 * With such a buffer 16 means that the result is too long for a journal, and a journal of at most 46,812
 * bytes never meets it.
 *
 * REGISTER_STACK bytes of stack must be there.
 *
 * Returns 0 if the journal is accepted, else the number of the refusal, 3, 4, 5, 15 or 16.
 */
uint32_t register_rewrite(const uint8_t *journal, size_t journal_len,
                          uint8_t *out, size_t out_len,
                          uint32_t *place, uint32_t *length);

/*
 * A seam: a span that is to join two networks, from a cabinet of the first to a cabinet of the second, in
 * a duct. Each cabinet goes by the number that it has in its OWN journal, from 0 on; the second's is not
 * raised by the caller. The duct is 1 to 65,535. Unlike the numbers in a journal, these three are in the
 * machine's own order of bytes.
 */
struct register_seam {
    uint16_t first, second, duct;
};

#ifdef __cplusplus
static_assert(sizeof(struct register_seam) == 6 && alignof(struct register_seam) == 2,
              "a seam is three numbers of 16 bits and nothing else");
#else
_Static_assert(sizeof(struct register_seam) == 6 && _Alignof(struct register_seam) == 2,
               "a seam is three numbers of 16 bits and nothing else");
#endif

/*
 * Joins two networks: makes one journal of the journals of both. The result is the first journal, then
 * the second with its cabinet numbers raised by the first's count of cabinets and its span numbers by the
 * first's count of spans, then for each seam, in their order, a 0B from its cabinet of the first to its
 * cabinet of the second, raised too, in its duct. Ducts, days and metres stay as they are. A run of the
 * first tells both counts in its report.
 *
 * first     The commands of the first journal, first_len bytes. It is only read.
 * second    The commands of the second journal, second_len bytes. It is only read.
 * seams     The seams, seams_len records. They are only read. There may be none, and then the two networks
 *           stay apart.
 * work      The working table, work_len numbers of 32 bits, at least REGISTER_WORK(4096, 8192), which is
 *           163,904, however small the journals are. If it is shorter, all of it is as before; on every
 *           other return, accepted or refused, its first 163,904 numbers are 0. Those beyond never change.
 * out       The output buffer, out_len bytes. If the journals are joined, the result is written from its
 *           first byte on, and the rest is as before. If that is refused, all of it is as before.
 * length    Filled on every return: the result's length if the journals are joined, and 0 if that is
 *           refused.
 *
 * Lengths count bytes for first, second and out, numbers for work, and records for seams. Each pointer
 * must be good for its length; a null pointer is allowed where that is 0. seams must be aligned for
 * struct register_seam and work for uint32_t. length must be good and aligned for uint32_t. No two of the
 * six may overlap, not even the two journals: to join a network with its like, give a copy. work, out and
 * length may hold anything before the call. Nothing else is written.
 *
 * The causes of a refusal, in this order:
 *
 * 2         The working table is too short.
 * 17        A run with capacities 4,096 and 8,192 and ample answer room refuses the first journal or the
 *           second, for whatever cause; so also where one is longer than REGISTER_LONGEST_JOURNAL. A call
 *           of register_forecast_exact for each, with these capacities and the same table, tells which one
 *           it is and why, and where, unless it is too long.
 * 18        Some seam names a cabinet that its journal does not have, or duct 0. A journal with n cabinets
 *           has those from 0 to n - 1. All seams are looked at.
 * 19        The result is longer than REGISTER_LONGEST_JOURNAL or than out_len.
 *
 * The result is first_len + second_len + 7 x seams_len bytes long, so an output buffer of this length
 * suffices wherever any does; and so does one of REGISTER_LONGEST_JOURNAL bytes, and with it 19 means
 * that the result is too long for a journal:
 *
 *     static uint32_t work[REGISTER_WORK(REGISTER_MOST_CABINETS, REGISTER_MOST_SPANS)];
 *     static uint8_t out[REGISTER_LONGEST_JOURNAL];
 *     const struct register_seam seams[] = {{3, 0, 1}, {0, 2, 1}};
 *     size_t work_len = sizeof work / sizeof work[0], seams_len = sizeof seams / sizeof seams[0];
 *     uint32_t length;
 *     if (register_join(first, first_len, second, second_len, seams, seams_len, work, work_len,
 *                       out, sizeof out, &length) == REGISTER_ACCEPTED)
 *         number = register_run(REGISTER_MOST_CABINETS, REGISTER_MOST_SPANS, out, length,
 *                               work, work_len, answers, answers_len, report, report_len);
 *
 * Two journals that exceed the capacities only together are joined all the same. With capacities 4,096
 * and 8,192 and ample answer room, which register_forecast tells for it, a run of the result accepts it
 * exactly if the cabinets of both together are at most 4,096 and the spans of both with the seams at most
 * 8,192; else it returns REGISTER_FULL. Where a run with these capacities accepts the result, its answers
 * are, one behind the other:
 *
 * first     To the first's commands the answers of its own run, byte for byte.
 * second    To the second's commands the answers of its own run, with the numbers of cabinets and the
 *           names of districts and rings raised by the first's count of cabinets, and the numbers of spans
 *           and the names of meshes by the first's count of spans, in notices too. Nothing else is raised:
 *           no count, no size, no metres, no byte that is 1 or 0, nor the 0000 of "no shared mesh" and of
 *           "no length". But 0F is answered for both networks, the first whole and the second as far as it
 *           is entered by then; and 0C with two routes that serve there, which may be others than those of
 *           the second's own run raised.
 * seams     To each seam an 82 with its notices, as to any 0B.
 *
 * So a name list that is kept for the first needs no change until the seams, and one that is kept for the
 * second is put behind it with its items and names raised; the notices of the seams do the rest. In the
 * result the only mates of a seam are seams in the same duct between the same two cabinets.
 *
 * The result is a journal like any other: commands can be put behind it, and where a run with capacities
 * 4,096 and 8,192 accepts it, it can be joined again. But a journal with a 0B, and so a result with a
 * seam, is not rewritten: rewrite a journal of the old reading before it is joined.
 *
 * REGISTER_STACK bytes of stack must be there.
 *
 * Returns 0 if the journals are joined, else the number of the refusal, 2, 17, 18 or 19.
 */
uint32_t register_join(const uint8_t *first, size_t first_len,
                       const uint8_t *second, size_t second_len,
                       const struct register_seam *seams, size_t seams_len,
                       uint32_t *work, size_t work_len,
                       uint8_t *out, size_t out_len,
                       uint32_t *length);

#ifdef __cplusplus
}
#endif

#endif
