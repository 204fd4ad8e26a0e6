/*
 * Airpistil: the calls of the bench tool, for C and C++. Words, bytes and numbers are those of docs/FORMAT.md.
 *
 * Every call takes any bytes, sound or spoiled, and answers with one number.
 *
 * Memory. Nothing is allocated and nothing is kept between calls. The caller owns all that it lends; a call reads it
 * while it runs, and writes only to `room` and `out`. A pointer points to as many bytes (`room`: to as many 32-bit
 * numbers) as the length behind it says, at most PTRDIFF_MAX bytes. With length 0 it may be null: (NULL, 0) is the
 * empty log. `room` and `out` overlap nothing else that is lent to the same call.
 *
 * Threads. Calls may run at the same time, each with a room or an output of its own; they may share cards and logs.
 *
 * Stack. A call takes at most AIRPISTIL_STACK_BYTES, whatever its input: 64,304 bytes were measured for
 * airpistil_judge, 4,608 for airpistil_cut, less for the others ("The stack" in docs/PROMISES.md).
 *
 * Machine. x86-64 with the System V calling convention (Linux). The library imports nothing but memset.
 *
 * Link with -lairpistil (`./install PREFIX` installs the library and a pkg-config file) or with libairpistil.a.
 */
#ifndef AIRPISTIL_H
#define AIRPISTIL_H

#include <stddef.h>
#include <stdint.h>

#define AIRPISTIL_VERSION_MAJOR 1
#define AIRPISTIL_VERSION_MINOR 0
#define AIRPISTIL_VERSION_PATCH 0
#define AIRPISTIL_VERSION \
    (AIRPISTIL_VERSION_MAJOR * 10000 + AIRPISTIL_VERSION_MINOR * 100 + AIRPISTIL_VERSION_PATCH)

/* Numbers of the answers. Each call gives the first one that applies, in the order told at the call. */
#define AIRPISTIL_OK 0                  /* the card is sound; the cut is written */
#define AIRPISTIL_CARD_FRAME 1          /* card: under 6 or over 4,096 bytes, or the last two are not 57 4C hex */
#define AIRPISTIL_BACK_DISTANCE 2       /* card: back distance not a multiple of 4 from 4 to 1,020, or longer than the
                                           bytes before the trailer */
#define AIRPISTIL_COUNTS 3              /* card: not 1 to 16 lifelines, or not 1 to 64 messages */
#define AIRPISTIL_FAULTY_NODE 4         /* card: a node has an unknown kind, a non-zero unused field, a lifeline or
                                           message that is not declared, or a child that is not lower than itself */
#define AIRPISTIL_MISUSED_NODE 5        /* card: a node other than the root is a child zero times or more than once */
#define AIRPISTIL_TOO_DEEP 6            /* card: depth over 16 */
#define AIRPISTIL_LOG_LENGTH 7          /* log: odd length, or over 256 bytes */
#define AIRPISTIL_UNDECLARED_ACTION 8   /* log: an action has a lifeline or message that the card does not declare */
#define AIRPISTIL_ALLOWANCE_SPENT 9     /* a follow-up is wanted, and the allowance is spent */
#define AIRPISTIL_ROOM_EXCEEDED 10      /* the chart, or the next whole follow-up, exceeds the usable room */
#define AIRPISTIL_UNDECLARED_LIFELINE 11 /* cut: the card does not declare the lifeline */
#define AIRPISTIL_NO_LOG_LEFT 12        /* cut: every log of the chart has an action of the lifeline */
#define AIRPISTIL_OUTPUT_TOO_SHORT 13   /* cut: the output is shorter than the card to be written */
#define AIRPISTIL_ACCEPTED 20           /* the log is a log of the chart */
#define AIRPISTIL_SHORT 21              /* it is not, but a longer log of the chart begins with it */
#define AIRPISTIL_DEVIATES 22           /* no log of the chart begins with it */

/* Sizes. */
#define AIRPISTIL_CARD_BYTES 4096       /* the most bytes of a card */
#define AIRPISTIL_LOG_BYTES 256         /* the most bytes of a log: 128 actions */
#define AIRPISTIL_ROOM 16384            /* the most numbers of a room that are used */
#define AIRPISTIL_CUT_BYTES 1026        /* an output of so many bytes is never too short for a cut */
#define AIRPISTIL_STACK_BYTES 131072    /* the stack that a call needs */

#ifdef __cplusplus
extern "C" {
#endif

/* The version of the library: AIRPISTIL_VERSION of the header that it was built with. */
uint32_t airpistil_version(void);

/* The answer to a chart card. */
struct airpistil_checked {
    uint32_t number;    /* 0 for a sound card; else the lowest of 1 to 6 that applies */
    uint32_t place;     /* with 4 and 5 the lowest such node, counted from 0; else 0 */
    uint32_t nodes;     /* of a sound card its number of nodes; else 0 */
    uint32_t depth;     /* of a sound card its depth, 1 for a lone root; else 0 */
    uint32_t lifelines; /* of a sound card the number of different lifelines that act in it; else 0 */
};

/* Checks the card of len bytes. */
struct airpistil_checked airpistil_check(const uint8_t *card, size_t len);

/* How many of the card's leading bytes are its note; 0 for a refused card. The note is card[0] to card[n - 1], in the
 * caller's own bytes. */
size_t airpistil_note(const uint8_t *card, size_t len);

/* The judgment of a log. */
struct airpistil_judged {
    uint32_t number; /* 20, 21 or 22 as a verdict; else 1 to 10 */
    uint32_t place;  /* with 20 and 21 the number of the log's actions; with 22 how many of its first actions begin some
                        log of the chart, so that the action with this number, counted from 0, is the first that does
                        not fit; with 4 and 5 the lowest such node and with 8 the lowest such action, counted from 0;
                        else 0 */
    uint32_t steps;  /* follow-ups made; with 1 to 8 none are */
    uint32_t places; /* the most places in use at one moment; 0 with 1 to 8, and 0 with 10 if the chart itself exceeds
                        the room */
};

/*
 * Judges the log of log_len bytes by the card of card_len bytes, with at most `allowance` follow-ups, in a room of
 * room_len numbers.
 *
 * Of 1 to 8 the lowest that applies is given; then 10 if the chart exceeds the room; then, before each follow-up, 9 if
 * the allowance is spent, and 10 if the follow-up exceeds the room.
 *
 * The room. What it holds on entry does not matter. Its first AIRPISTIL_ROOM numbers, or all if there are fewer, are
 * usable. With 1 to 8 the room is left as found; otherwise its usable numbers are zero afterwards. Numbers beyond them
 * are never touched.
 *
 * How large a room: AIRPISTIL_ROOM numbers are as good as more. Card and log alone decide how many steps and places a
 * verdict takes: `steps` and `places` of a verdict are exactly enough, and with more it is the same.
 */
struct airpistil_judged airpistil_judge(const uint8_t *card, size_t card_len, const uint8_t *log, size_t log_len,
                                        uint32_t allowance, uint32_t *room, size_t room_len);

/* The answer to a cut. */
struct airpistil_cut_answer {
    uint32_t number; /* 0 for a cut that is written; else the lowest of 1 to 6 and 11 to 13 that applies */
    uint32_t place;  /* with 4 and 5 the lowest such node, counted from 0; else 0 */
    uint32_t length; /* with 0 how many bytes were written; else 0 */
};

/*
 * Cuts the device with that lifeline out of the card of card_len bytes. It writes a sound card to the first bytes of
 * `out`, whose chart has exactly the logs of the original in which the device never acts. The card has no note, the
 * same numbers of lifelines and messages, and its nodes in the order left part, right part, parent.
 *
 * The card is never longer than the original, and never longer than AIRPISTIL_CUT_BYTES. The other bytes of `out` are
 * left as found; with any number but 0 all of them are.
 */
struct airpistil_cut_answer airpistil_cut(const uint8_t *card, size_t card_len, uint32_t lifeline, uint8_t *out,
                                          size_t out_len);

#ifdef __cplusplus
}
#endif

#endif
