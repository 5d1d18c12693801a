/* Measuring a lid through libvuzgari.a. */
#ifndef MEASURING_H
#define MEASURING_H

#include "lid.h"

/* Reads the lid that is named, in the format that is asked for, and measures it: sets every other field. The number is
   the first that applies: of a lid 15, of a PGM file 20, 21, 22, then the noise call's. Where memory runs out, error is
   ENOMEM. */
void measure_lid(struct lid *lid);

#endif
