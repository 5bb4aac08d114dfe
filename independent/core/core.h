/* The independent reader's core: pure functions on buffers that the caller
 * lends. It allocates nothing, prints nothing and keeps nothing between calls.
 * Written from documents 01 and 02 and the standard alone.
 *
 * This header is for those who use the core; its own files include those of
 * what lies below them, in the order here (see ../order).
 *
 * A file is given as its bytes and its length. No byte is read from a file
 * whose length is outside 01's limits, and none outside the bytes given; where
 * a length is 0 the pointer may be null.
 * A refused answer holds the number and the place (and for the pair the file);
 * all else in it is 0, and lent words and bytes keep their contents. */
#ifndef IND_CORE_H
#define IND_CORE_H

#include "answer.h"
#include "bytes.h"
#include "checksum.h"
#include "opening.h"
#include "geography.h"
#include "tracks.h"
#include "degrees.h"
#include "tables.h"
#include "name.h"
#include "layout.h"
#include "application.h"
#include "record.h"
#include "header.h"
#include "station.h"
#include "routes.h"
#include "choices.h"
#include "ahead.h"
#include "load.h"
#include "plan.h"

#endif
