/* The parts of the benchmark. Each prints its tables. */
#ifndef PARTS_H
#define PARTS_H

/* The part of a call that does not grow with the history: each kind of call at H 8. */
void run_fixed(void);

/* Mixed traffic of a controller. */
void run_workloads(void);

/* Each kind of call with longer histories, other numbers of banks and of threads. */
void run_growth(void);

/* The test of the history alone, in C, beside a loop that only reads the cells. */
void run_history(void);

/* Index readings with large ticks and large gaps in the history. */
void run_gaps(void);

/* An epoch's turn and a set-up. */
void run_turns(void);

/* Each kind of call under the house seeds and under others. */
void run_seeds(void);

/* Hashing alone. */
void run_hashing(void);

#endif
