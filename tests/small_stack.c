/*
 * small_stack DIR judges the log DIR/log by the card DIR/chart in a thread that has just the stack that airpistil.h
 * asks for, and prints number, place, steps and places. Allowance and room are the program's.
 */
#include <airpistil.h>

#include <pthread.h>
#include <stdio.h>

static uint8_t card[AIRPISTIL_CARD_BYTES + 1], log_bytes[AIRPISTIL_LOG_BYTES + 1];
static size_t card_len, log_len;
static uint32_t room[AIRPISTIL_ROOM];
static struct airpistil_judged judged;

static size_t read_file(const char *dir, const char *name, uint8_t *bytes, size_t most)
{
    char path[4096];
    snprintf(path, sizeof path, "%s/%s", dir, name);
    FILE *file = fopen(path, "rb");
    if (file == NULL) {
        perror(path);
        return 0;
    }
    size_t len = fread(bytes, 1, most, file);
    fclose(file);
    return len;
}

static void *judge(void *unused)
{
    judged = airpistil_judge(card, card_len, log_bytes, log_len, 1000000, room, AIRPISTIL_ROOM);
    return unused;
}

int main(int argc, char **argv)
{
    pthread_attr_t small;
    pthread_t thread;
    if (argc != 2)
        return 2;
    card_len = read_file(argv[1], "chart", card, sizeof card);
    log_len = read_file(argv[1], "log", log_bytes, sizeof log_bytes);
    if (pthread_attr_init(&small) != 0 || pthread_attr_setstacksize(&small, AIRPISTIL_STACK_BYTES) != 0)
        return 1;
    if (pthread_create(&thread, &small, judge, NULL) != 0 || pthread_join(thread, NULL) != 0)
        return 1;
    printf("%u %u %u %u\n", (unsigned)judged.number, (unsigned)judged.place, (unsigned)judged.steps,
           (unsigned)judged.places);
    return 0;
}
