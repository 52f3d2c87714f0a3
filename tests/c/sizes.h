/* What the files share that try structs which begin with their size: sizes.c, and sized_configs.c. */
#ifndef SIZES_H
#define SIZES_H

#include "checks.h"

/* How many octets a later header has behind a struct, each in its turn. Of the sizes that are too short 0, half a struct and
 * one less are tried. */
enum { BEHINDS = 3, SHORTS = 3 };
extern const size_t BEHIND[BEHINDS];
size_t short_size(size_t size, int which);

/* Checks of a row of a table: what does not hold is told with the row's name. */
void holds(const char *name, bool held, const char *what, const char *file, int line);
#define HOLDS(row, c) holds((row)->name, (c), #c, __FILE__, __LINE__)
#define GIVES(row, number, call) check_answer((number), (call), (row)->name, __FILE__, __LINE__)

/* A block of just so many octets with the pattern, which the caller frees: valgrind sees a step behind it. */
uint8_t *patterned(size_t length);
bool is_zero(const uint8_t *from, size_t length);

/* The size that a struct in a block says, and how many octets the block has at least, since a call looks at the size. */
void set_size(uint8_t *lent, size_t size);
size_t size_of(const uint8_t *lent);
size_t at_least_size(size_t length);

/* Two ends. */
typedef struct ends {
    gozdrit_sender sender;
    gozdrit_receiver receiver;
} ends;
bool is_same_handles(const ends *a, const ends *b);
/* Those of configurations of a later header with so many octets behind, which say nothing. */
ends ends_of(size_t behind);
void drop(ends *e);

void test_sized_configs(void);

#endif
