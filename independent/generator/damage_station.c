/* Damage aimed at the pair: stations, tracks and positions. */
#include "damage.h"

#include "core/core.h"
#include "questions.h"
#include "stand.h"

/* The index of the track with this number, or the number of all tracks where
 * it is absent. */
static uint32_t index_of(const stored *geography, uint32_t number)
{
    uint32_t i = 0;
    while (i < ind_tracks(geography->bytes)
           && geography->bytes[ind_track_place(i) + IND_TRACK_NUMBER]
               != number)
        i++;
    return i;
}

/* The number of a track of the geography. */
static uint8_t some_track(source *from, const stored *geography)
{
    uint32_t index = some_entry(from, geography);
    return geography->bytes[ind_track_place(index) + IND_TRACK_NUMBER];
}

/* A track number that the geography has not, 0 if it has all: the first from
 * one on that it has, or that stands at the same place of another word, or
 * from any. */
static uint8_t absent_track(source *from, const stored *geography)
{
    uint32_t present = some_track(from, geography);
    uint32_t any = draw(from, 256);
    const uint32_t firsts[] = { present, present - 1, present ^ 64,
                                present ^ 128, any };
    uint8_t number = (uint8_t)ONE_OF(from, firsts);
    for (int tried = 0; tried < 256; tried++, number++)
        if (number != 0
            && index_of(geography, number) == ind_tracks(geography->bytes))
            return number;
    return 0;
}

/* A position at or beyond the end of a track, or of one of the two whose
 * entries stand beside its own. */
static uint32_t some_end(source *from, const stored *geography,
                         uint32_t index)
{
    uint32_t end = end_of_track(geography, index);
    uint32_t before = end_of_track(geography, index - 1);
    uint32_t after = end_of_track(geography, index + 1);
    const uint32_t values[] = { end,    end + 1,    end + 1, end + 1,
                                before, before + 1, after,   after + 1,
                                0,      IND_LARGEST_POSITION };
    return ONE_OF(from, values);
}

/* A boundary's track stands in the header too. */
static void copy_to_header(stored *file, const ind_layout *layout,
                           ind_object record)
{
    uint32_t which = (record.start - layout->header) / IND_BOUNDARY_SIZE;
    if (record.kind == IND_START_BOUNDARY || record.kind == IND_END_BOUNDARY)
        file->bytes[ind_entry_place(layout, which) + IND_ENTRY_TRACK] =
            file->bytes[record.start + IND_BOUNDARY_TRACK];
}

/* A record on another track, on one that is absent, or at the end of its
 * track. */
static void damage_stand(source *from, const stored *geography, stored *file,
                         const ind_layout *layout)
{
    ind_object record = some_record(from, file, layout);
    stand at = stand_of(record, draw(from, LEGS));
    uint8_t absent = absent_track(from, geography);
    uint8_t *track = &file->bytes[at.track];
    if (once_in(from, 2))
        *track = some_track(from, geography);
    if (once_in(from, 2) && absent != 0)
        *track = absent;
    else if (at.position != 0)
        put_four(file->bytes, at.position,
                 some_end(from, geography, index_of(geography, *track)));
    copy_to_header(file, layout, record);
}

void damage_pair(source *from, const stored *geography, stored *file)
{
    ind_layout layout;
    uint32_t station = ind_two(file->bytes, IND_STATION_PLACE);
    ind_application_layout(file->bytes, file->length - IND_CHECKSUM_SIZE,
                           &layout);
    if (once_in(from, 10))
        put_two(file->bytes, IND_STATION_PLACE,
                once_in(from, 2) ? station ^ 1 : station ^ 0x100);
    else
        damage_stand(from, geography, file, &layout);
}
