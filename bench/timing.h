/* Times of two programs that do the same, taken in turns. */
#ifndef TIMING_H
#define TIMING_H

/* Does the work of a case once by one of the programs. */
typedef void work(int program, void *given);

/* Runs both programs in turns, in rounds of about the same short time, and prints a line: the name, of each program the
   median and the quartiles of its rounds in nanoseconds a turn, and the ratio of the medians. */
void compare(const char *name, work *once, void *given, int rounds);

#endif
