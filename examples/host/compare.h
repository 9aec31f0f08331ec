/* compare.h: two receivers over one table, compared. */
#ifndef COMPARE_H
#define COMPARE_H

/* Shows where the recordings of two receivers differ: chips, and octets of the captions that are read from them. The
 * second caption is that of another table. Each has at most 64 octets. */
void compare_receivers(const char *caption, const char *other);

/* Whether the octets around all that was lent are as they were. */
int compare_guards_stand(void);

#endif
