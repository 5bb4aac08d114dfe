/* 02, ticket 14: degrees beside milliarcseconds. The refusals are those of the
 * point or the coordinate. */
#include "degrees.h"

#include <float.h>

#include "geography.h"
#include "tracks.h"

/* A double has to be a binary64, and a division has to give one at once, with
 * nothing kept beyond its 53 bits. That it is rounded to the nearest is how
 * every program starts; nothing here sets another way. */
#if FLT_RADIX != 2 || DBL_MANT_DIG != 53 || DBL_MIN_EXP != -1021             \
    || DBL_MAX_EXP != 1024
#error "a double is no binary64 here"
#endif
#if FLT_EVAL_METHOD != 0
#error "a division may be evaluated beyond a binary64 here"
#endif
#ifdef __FAST_MATH__
#error "a division may be made a multiplication here"
#endif

double ind_degrees_of(int32_t milliarcseconds)
{
    return (double)milliarcseconds / (double)IND_DEGREE;
}

/* The answer at a place. */
static ind_degrees at(int32_t latitude, int32_t longitude)
{
    ind_degrees found = { { 0, 0, 0 }, 0, 0, 0.0, 0.0 };
    found.latitude = latitude;
    found.longitude = longitude;
    found.latitude_degrees = ind_degrees_of(latitude);
    found.longitude_degrees = ind_degrees_of(longitude);
    return found;
}

static ind_degrees refused(ind_answer answer)
{
    ind_degrees found = { { 0, 0, 0 }, 0, 0, 0.0, 0.0 };
    found.answer = answer;
    return found;
}

ind_degrees ind_degrees_at(const uint8_t *file, size_t length,
                           uint32_t number, uint32_t position)
{
    ind_coordinate found = ind_coordinate_at(file, length, number, position);
    if (found.answer.number != IND_ACCEPTED)
        return refused(found.answer);
    return at(found.latitude, found.longitude);
}

/* In a right file a start plus an increment stays within its range. */
ind_degrees ind_point_degrees_at(const uint8_t *file, size_t length,
                                 uint32_t track, uint32_t point)
{
    ind_point found = ind_point_at(file, length, track, point);
    uint32_t entry;
    if (found.answer.number != IND_ACCEPTED)
        return refused(found.answer);
    entry = ind_track_place(track);
    return at(ind_signed_four(file, entry + IND_TRACK_START_LATITUDE)
                  + found.latitude_increment,
              ind_signed_four(file, entry + IND_TRACK_START_LONGITUDE)
                  + found.longitude_increment);
}
