/* What the parts of the program lids know of one lid. */
#ifndef LID_H
#define LID_H

#include "vuzgari.h"

#include <stdbool.h>

/* The formats of files: lidnoise's, and a subset of binary PGM. Asked for, EITHER leaves it to the file. */
enum format { EITHER, LID, PGM };

/* A file read in one format: what its first bytes say. What is not known is zero. */
struct reading {
    enum format format;
    size_t w, h;
    uint64_t maximum; /* of a PGM file */
    size_t start;     /* where the pixels start; 0 where there is no header */
    uint64_t asks;    /* how many bytes the file is to have, its header among them; 0 where no length would do */
};

/* Why a lid could not be read, where the system has no word for it. */
enum { NOBODY_WRITES = -1 };

/* What is not known is zero. */
struct lid {
    const char *name;       /* `-` is standard input */
    enum format asked;      /* the format that it is to be read in */
    int error;              /* 0, or why it could not be read: errno's number or NOBODY_WRITES */
    uint64_t length;        /* its bytes, as far as they decide */
    bool more;              /* whether a stream was left there, and may go on */
    struct reading reading; /* in its format */
    struct vuzgari_answer answer;
};

static inline bool was_read(const struct lid *lid)
{
    return lid->error == 0;
}

static inline bool has_figure(const struct lid *lid)
{
    return was_read(lid) && lid->answer.number == VUZGARI_GIVEN;
}

static inline bool has_header(const struct lid *lid)
{
    return was_read(lid) && lid->reading.start > 0;
}

#endif
