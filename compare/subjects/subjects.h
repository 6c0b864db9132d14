/* The subjects that are compared, in their order, a file each: it makes inputs and calls both
 * implementations. None uses another. */
#ifndef SUBJECTS_H
#define SUBJECTS_H

#include "driver/drive.h"

#define SUBJECTS(SUBJECT) \
    SUBJECT(words)        \
    SUBJECT(record)       \
    SUBJECT(mag)          \
    SUBJECT(cells)        \
    SUBJECT(counts)       \
    SUBJECT(questions)    \
    SUBJECT(snapshot)     \
    SUBJECT(reader)       \
    SUBJECT(bursts)       \
    SUBJECT(turns)        \
    SUBJECT(feed)         \
    SUBJECT(sent)         \
    SUBJECT(states)       \
    SUBJECT(structs)      \
    SUBJECT(refusals)     \
    SUBJECT(major)        \
    SUBJECT(layer)

#define DECLARED(subject) void drive_##subject(struct drive *drive);
SUBJECTS(DECLARED)

#endif
