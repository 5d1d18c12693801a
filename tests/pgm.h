/* The calls on grey files on guarded slices, for guard. */
#ifndef PGM_H
#define PGM_H

#include "images/image.h"
#include "vuzgari.h"

/* Headers at the edges of the subset and beyond, fronts and fields of every length about theirs, the orders, null
   pointers. */
void grey_files(void);

/* An image of the list as a grey file, which has the noise call's stored answer; a side of 0 has none. */
void measured_file(const struct image *image, const struct vuzgari_answer *stored);

#endif
