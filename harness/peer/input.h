/* What the programs over the plain C controller read: a settings record, and then records, on standard input. */
#ifndef INPUT_H
#define INPUT_H

#include "ring.h"

enum reading { END, WHOLE, CUT };

/* The record that was read last, with its two bytes of length, and how long it is with them. */
extern uint8_t record[RECORD_BYTES];
extern size_t length;

enum reading read_record(void);
int record_kind(void);

/* Starts a ring from the first record. False if it was refused, which is then told. */
bool begin(struct ring *r);

#endif
