/* Cuts lifeline 0 out of alt(0!0, 1!0), document 01's example. Prints number, place, length and the bytes written. */
#include <airpistil.h>

#include <stdio.h>

/* alt(0!0, 1!0): either lifeline 0 or lifeline 1 sends message 0. */
static const uint8_t card[] = {
    0x01, 0x00, 0x00, 0x00, /* node 0: 0!0 */
    0x01, 0x01, 0x00, 0x00, /* node 1: 1!0 */
    0x06, 0x00, 0x01, 0x00, /* node 2: alt(node 0, node 1) */
    0x0C, 0x00, 0x02, 0x01, 0x57, 0x4C, /* 12 bytes of nodes, 2 lifelines, 1 message */
};

static uint8_t out[AIRPISTIL_CUT_BYTES];

int main(void)
{
    struct airpistil_cut_answer answer = airpistil_cut(card, sizeof card, 0, out, sizeof out);

    printf("%u %u %u", (unsigned)answer.number, (unsigned)answer.place, (unsigned)answer.length);
    for (uint32_t i = 0; i < answer.length; i++)
        printf(" %02x", out[i]);
    printf("\n");
    return answer.number == AIRPISTIL_OK ? 0 : 1;
}
