/* The record calls on guarded slices, for guard. */
#ifndef RECORDS_H
#define RECORDS_H

#include "images/image.h"
#include "rooms.h"
#include "vuzgari.h"

/* Records at the limits of the rule and beyond, slices of every length about theirs, the orders, null pointers. */
void records(void);

/* The record of what the noise call wrote on an image, from its own bytes: it is taken, and read back it has the fields
   of the stored answer. */
void measured_record(const struct image *image, const struct room *answer, const struct vuzgari_answer *stored);

#endif
