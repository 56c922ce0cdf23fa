/* Builds a nub, submits calls, gives turns and prints what each of them answered. */
#include "lishabon.h"

#include <inttypes.h>
#include <stdio.h>
#include <string.h>

#define LENGTH(a) (sizeof(a) / sizeof((a)[0]))

/* The codes of the calls that are used here (docs/RULES.md, section 4). */
enum { ACQUIRE = 1, RELEASE = 2, WAIT = 3, SIGNAL = 4 };

static struct lishabon_entry submit(uint32_t thread, uint32_t code, uint32_t first, uint32_t second)
{
    return (struct lishabon_entry){.turn = 0, .thread = thread, .code = code, .first = first, .second = second};
}

static struct lishabon_entry turn(uint32_t thread)
{
    return (struct lishabon_entry){.turn = 1, .thread = thread};
}

static void print(const struct lishabon_entry *e, const struct lishabon_answer *a)
{
    if (e->turn)
        printf("turn of %" PRIu32 ":", e->thread);
    else
        printf("thread %" PRIu32 " submits %" PRIu32 "(%" PRIu32 ", %" PRIu32 "):", e->thread, e->code, e->first, e->second);
    if (a->row)
        printf(" declined by %" PRIu32 "\n", a->row);
    else if (e->turn)
        printf(" status %" PRIu32 ", value %" PRIu32 ", action %" PRIu32 ", mask %" PRIu64 "\n", a->status, a->value, a->action, a->mask);
    else
        printf(" granted\n");
}

/* Thread 0 waits on a condition; before it stands in the line, thread 1 signals. The signal is not lost: its mask names
 * thread 0, which finds another count and comes back without parking. */
static int lost_signal(void)
{
    const struct lishabon_asked asked = {.threads = 2, .mutexes = 1, .conditions = 1};
    const struct lishabon_entry entries[] = {
        submit(0, ACQUIRE, 0, 0), turn(0),
        submit(0, WAIT, 0, 0), turn(0), turn(0), turn(0),
        submit(1, SIGNAL, 0, 0), turn(1), turn(1), turn(1),
        turn(0), turn(0), turn(0), turn(0),
        submit(1, RELEASE, 0, 0), turn(1),
    };
    struct lishabon_answer answers[LENGTH(entries)];
    uint32_t row = lishabon_play_first_come(&asked, entries, LENGTH(entries), answers, LENGTH(answers));
    if (row)
        return 1;
    for (size_t i = 0; i < LENGTH(entries); i++)
        print(&entries[i], &answers[i]);
    return 0;
}

/* The same library runs whole scripts. */
static int script(void)
{
    static const char text[] = "N 1 0 0 1 0\nS 0 6 0 0\nT 0\nT 0\n";
    uint8_t out[256];
    size_t n = lishabon_script((const uint8_t *)text, strlen(text), out, sizeof out);
    if (n > sizeof out)
        return 1;
    fwrite(out, 1, n, stdout);
    return 0;
}

int main(void)
{
    const struct lishabon_asked too_many = {.threads = 33};
    const uint8_t ranks[32] = {0};
    const struct lishabon_entry entry = turn(0);
    struct lishabon_answer answer;
    uint32_t row = lishabon_play_ranked(&too_many, ranks, sizeof ranks, &entry, 1, &answer, 1);
    printf("33 threads on ranked lines: declined by %" PRIu32 "\n", row);
    return lost_signal() || script();
}
