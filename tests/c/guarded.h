/* Lent memory between two pages that may be neither read nor written, so that a byte too far ends the run; and what is held. */
#ifndef GUARDED_H
#define GUARDED_H

#include <stddef.h>
#include <stdint.h>

/* The longest piece that is short. */
#define LONGEST 40

/* The statuses of a call whose piece is not of the length asked for: 8, of a record and of a note. */
enum { PIECES = 1 << 8 };

/* The length of a page, which may be that of several. */
extern size_t page;

/* A page between two that may not be touched. */
uint8_t *guarded(void);

/* Lets a page be read only (PROT_READ), or written again (PROT_READ | PROT_WRITE). */
void protect(uint8_t *guard, int how);

/* A piece of a guarded page that begins where it begins, or ends where it ends. */
void *lend(uint8_t *guard, size_t length);

/* Mostly the right length, and else a short one, or anything up to a page. */
size_t some_length(size_t right);

/* Ends the run, with a line that says what is not so, unless it is a fact. */
void hold(int fact, const char *what);

/* Holds a status to those that a call may have, a bit for each. */
void hold_status(uint8_t status, int allowed);

/* Holds that of a page, as it was before a call, nothing changed but a piece. */
void hold_rest(const uint8_t *guard, const uint8_t *before, const void *piece, size_t length);

/* The unsigned number that four bytes stand for, the least of them first. */
uint64_t number_at(const uint8_t *bytes);

/* Calls on places (places.c), on texts (texts.c) and on notes (notes.c), so many of each function. Every status is to be seen. */
void call_places(long rounds, uint8_t *out);
void call_texts(long rounds, uint8_t *in, uint8_t *out);
void call_notes(long rounds, uint8_t *in, uint8_t *out);

#endif
