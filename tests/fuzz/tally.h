/* What the jobs answered: told to the fuzzer as it goes, and in one line at the end. */
#ifndef TALLY_H
#define TALLY_H

#include <stdbool.h>
#include <stdint.h>

enum job { CHECK, RENAME, LAND, REPAIR, JOBS };

/* What a 0 was for. */
enum deed { RENAMED, EXCHANGED, ONE_FILE, NOTHING_TO_REPAIR, TAKEN_BACK, FINISHED, EXCHANGE_FINISHED, DEEDS };

/* Counts an answer of the job, which has to be a number of its table with no other part than it may have. */
void count_answer(enum job job, uint64_t result);

void count_deed(enum deed deed);

/* Ends the program with that sentence where a property does not hold. */
void must(bool holds, enum job job, const char *property);

/* One line with every count, to standard error. */
void print_tally(void);

#endif
