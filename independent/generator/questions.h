/* Good and bad indexes, offsets and positions for a right file. */
#ifndef QUESTIONS_H
#define QUESTIONS_H

#include "core/layout.h"
#include "random.h"
#include "stored.h"

/* An index of a track, at or beyond the last. */
uint32_t some_track_index(source *from, const stored *file);

/* Track index and point index. */
void some_point_index(source *from, const stored *file, uint32_t *numbers);

/* The index of a track, the last one more often than others. */
uint32_t some_entry(source *from, const stored *file);

/* The end of the track with this index, 0 where there is none. */
uint32_t end_of_track(const stored *file, uint32_t index);

/* Track number and position. */
void some_position(source *from, const stored *file, uint32_t *numbers);

/* A record, each kind that the file has as likely as another. */
ind_object some_record(source *from, const stored *file,
                       const ind_layout *layout);

/* The start of such a record. */
uint32_t some_start(source *from, const stored *file);

/* An offset at or beside a record's start or a part's end. */
uint32_t some_offset(source *from, const stored *file);

/* Start, limit, budget and room: at and beside what the listing needs. */
void some_listing(source *from, const stored *file, int long_ways,
                  uint32_t *numbers);

#endif
