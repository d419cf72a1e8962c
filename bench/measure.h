/* What the programs that measure share. */
#ifndef MEASURE_H
#define MEASURE_H

/* Processor time of this program, so that others on the machine count less. */
double seconds(void);

/* Ends the program where this does not hold. */
void expect(int holds, const char *what);

#endif
