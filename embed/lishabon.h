/* The nub for programs in C and C++: whole runs and whole scripts, over plain numbers and bytes.
 *
 * Link crates/embed/out/libembed.a (made by `rt lib` in crates/embed) and the toolchain's liblibc_c.a, in this order.
 * docs/EMBEDDING.md says what the caller owes; docs/RULES.md has the calls, the reports and the numbers of the declines.
 */
#ifndef LISHABON_H
#define LISHABON_H

#include <stddef.h>
#include <stdint.h>

#ifdef __cplusplus
extern "C" {
#endif

/* How many there are of each kind, and the count that every condition begins at. */
struct lishabon_asked {
    uint32_t threads;
    uint32_t mutexes;
    uint32_t conditions;
    uint32_t semaphores;
    uint32_t start;
};

/* One entry of a run. Where `turn` is 0 it is a submission of `thread`: the code of its call and two objects. Any other
 * `turn` makes it a turn of `thread`, and the other three numbers are ignored. */
struct lishabon_entry {
    uint32_t turn;
    uint32_t thread;
    uint32_t code;
    uint32_t first;
    uint32_t second;
};

/* The answer to an entry. `row` is 0 where it was granted, else the number of the decline. The other four are the report
 * of a granted turn, and 0 for everything else. Bit n of `mask` is for thread n. */
struct lishabon_answer {
    uint32_t row;
    uint32_t status;
    uint32_t value;
    uint32_t action;
    uint64_t mask;
};

/* Builds a nub with first-come lines and performs the entries in order, as many as there are places for their answers.
 * Gives 0, or 8 where the build is declined; then nothing is performed and no answer is written. */
uint32_t lishabon_play_first_come(const struct lishabon_asked *asked,
                                  const struct lishabon_entry *entries, size_t entries_len,
                                  struct lishabon_answer *answers, size_t answers_len);

/* The same with ranked lines. Thread n has the rank ranks[n], and 0 where there is no such place. */
uint32_t lishabon_play_ranked(const struct lishabon_asked *asked,
                              const uint8_t *ranks, size_t ranks_len,
                              const struct lishabon_entry *entries, size_t entries_len,
                              struct lishabon_answer *answers, size_t answers_len);

/* Runs a script. What is written of it goes to `output`, as far as there are places. Gives the length of all that is
 * written. Where there is no memory it gives SIZE_MAX and leaves `output` as it was. */
size_t lishabon_script(const uint8_t *input, size_t input_len, uint8_t *output, size_t output_len);

#ifdef __cplusplus
}
#endif

#endif
