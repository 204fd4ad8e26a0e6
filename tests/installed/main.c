/*
 * Calls each function of the installed library. It is C99 and C++ alike. It returns 0 if each call answers as it must;
 * else it prints which does not and returns 1.
 */
#include <airpistil.h>

#include <stdio.h>

/* Document 01's example, as in examples/judge.c: strict(0!0, 1?0) and the log 0!0 1?0. */
static const uint8_t card[] = {1, 0, 0, 0, 2, 1, 0, 0, 3, 0, 1, 0, 0x0C, 0, 2, 1, 0x57, 0x4C};
static const uint8_t log_bytes[] = {0, 0, 3, 0};

static uint32_t room[AIRPISTIL_ROOM];
static int wrong = 0;

static void expect(const char *what, int holds)
{
    if (!holds) {
        printf("wrong: %s\n", what);
        wrong = 1;
    }
}

static struct airpistil_judged judge(const uint8_t *log, size_t len)
{
    return airpistil_judge(card, sizeof card, log, len, 1000000, room, AIRPISTIL_ROOM);
}

int main(void)
{
    struct airpistil_checked checked = airpistil_check(card, sizeof card);
    struct airpistil_judged judged = judge(log_bytes, sizeof log_bytes);

    expect("version", airpistil_version() == AIRPISTIL_VERSION);
    expect("check", checked.number == AIRPISTIL_OK && checked.place == 0);
    expect("figures of a card", checked.nodes == 3 && checked.depth == 2 && checked.lifelines == 2);
    expect("judge", judged.number == AIRPISTIL_ACCEPTED && judged.place == 2);
    expect("figures of a judgment", judged.steps == 2 && judged.places == 6);

    /* Null pointers with length 0. */
    judged = judge(NULL, 0);
    expect("the empty log", judged.number == AIRPISTIL_SHORT && judged.place == 0 && judged.places == 3);
    judged = airpistil_judge(card, sizeof card, log_bytes, sizeof log_bytes, 1000000, NULL, 0);
    expect("no room", judged.number == AIRPISTIL_ROOM_EXCEEDED && judged.steps == 0 && judged.places == 0);
    expect("check, no card", airpistil_check(NULL, 0).number == AIRPISTIL_CARD_FRAME);
    expect("note, no card", airpistil_note(NULL, 0) == 0);
    expect("cut, no card", airpistil_cut(NULL, 0, 0, NULL, 0).number == AIRPISTIL_CARD_FRAME);
    expect("cut, no output", airpistil_cut(card, sizeof card, 5, NULL, 0).number == AIRPISTIL_UNDECLARED_LIFELINE);
    return wrong;
}
