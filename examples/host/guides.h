/* guides.h: what the guides of 1997 make of a table's captions. */
#ifndef GUIDES_H
#define GUIDES_H

/* Sends three captions, each of 1 to 64 octets, and shows what a guide of 1997 makes of them. Whether every answer is
 * the one expected; if one is not, a sentence says so. */
int hear_as_1997(const char *const captions[3]);

/* Whether the octets around all that was lent are as they were. */
int guides_guards_stand(void);

#endif
