/* receive.h: a caption read as its chips arrive. */
#ifndef RECEIVE_H
#define RECEIVE_H

/* Reads a caption of 1 to 64 octets, none of which is 0, as its chips arrive: whole, then with an unusable chip, then
 * cut short. Shows after each batch how far it has come. Whether every answer is the one expected; if one is not, a
 * sentence says so. */
int receive_in_batches(const char *caption);

/* Whether the octets around all that was lent are as they were. */
int receive_guards_stand(void);

#endif
