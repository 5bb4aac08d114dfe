/* Memory to lend with an unreadable page on both sides. */
#ifndef LENT_H
#define LENT_H

#include <stddef.h>
#include <stdint.h>

/* How bytes are lent: against the page before them, against the one after
 * them, or so too, but by a null pointer where there are none. */
typedef enum {
    PAGE_BEFORE,
    PAGE_AFTER,
    NULL_FOR_NOTHING,
    WAYS
} way;

/* Readable bytes from first on, up to last, which is unreadable; so is the
 * byte before first. */
typedef struct {
    uint8_t *first;
    uint8_t *last;
} room;

/* Room for so many bytes and perhaps some more. Ends the program where there
 * is none. */
room make_room(size_t bytes);

/* So many bytes of the room. */
uint8_t *lend(room of, size_t bytes, way lent);

#endif
