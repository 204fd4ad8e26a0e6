/* Judges one log by one chart card: the example of document 01. Prints word, place, steps, places. */
#include <airpistil.h>

#include <stdio.h>

/* strict(0!0, 1?0): lifeline 0 sends message 0, then lifeline 1 receives it. */
static const uint8_t card[] = {
    0x01, 0x00, 0x00, 0x00, /* node 0: 0!0 */
    0x02, 0x01, 0x00, 0x00, /* node 1: 1?0 */
    0x03, 0x00, 0x01, 0x00, /* node 2: strict(node 0, node 1) */
    0x0C, 0x00, 0x02, 0x01, 0x57, 0x4C, /* 12 bytes of nodes, 2 lifelines, 1 message */
};
static const uint8_t log_bytes[] = {0x00, 0x00, 0x03, 0x00}; /* 0!0 1?0 */

static uint32_t room[AIRPISTIL_ROOM];

int main(void)
{
    struct airpistil_judged judged =
        airpistil_judge(card, sizeof card, log_bytes, sizeof log_bytes, 1000000, room, AIRPISTIL_ROOM);

    switch (judged.number) {
    case AIRPISTIL_ACCEPTED:
        printf("accepted");
        break;
    case AIRPISTIL_SHORT:
        printf("short");
        break;
    case AIRPISTIL_DEVIATES:
        printf("deviates");
        break;
    default:
        printf("refused-%u", (unsigned)judged.number);
    }
    printf(" %u %u %u\n", (unsigned)judged.place, (unsigned)judged.steps, (unsigned)judged.places);
    return judged.number == AIRPISTIL_ACCEPTED ? 0 : 1;
}
