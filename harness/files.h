/* Right files of a wanted size, to measure with. */
#ifndef FILES_H
#define FILES_H

#include "generator/stored.h"

/* Each file is filled up to at most so many bytes. */

/* An X.1 of tracks with twenty points each. */
void realistic_geography(uint32_t bytes, stored *file);

/* An X.1 of one track: points alone. */
void worst_geography(uint32_t bytes, stored *file);

/* The same two in structure version 2, with heights. */
void realistic_heights(uint32_t bytes, stored *file);
void worst_heights(uint32_t bytes, stored *file);

/* An X.2 of lines that part and meet again, with signals, joints, balises
 * with messages, and sidings. Names are as the generator makes them: some have
 * a space inside, and some joints have none. */
void realistic_application(uint32_t bytes, stored *file);

/* An X.2 of balises alone, all links of which name balises. */
void worst_application(uint32_t bytes, stored *file);

/* An X.2 of one line that parts and meets again so many times: twice as many
 * routes with each. */
void diamonds(uint32_t count, stored *file);

/* An X.2 of one line of so many turnouts, each entered at the front, whose
 * reverse legs lead nowhere: every walk forks at each. */
void forks(uint32_t count, stored *file);

/* A station whose two files are an accepted pair, the X.1 first: both as
 * above, each of at most so many bytes. */
void realistic_station(uint32_t bytes, stored *files);

/* The same with an X.1 of 255 tracks, which the records name in no order. */
void largest_station(uint32_t bytes, stored *files);

/* A station whose X.2 is one line of turnouts as above, as many as fit. */
void far_station(uint32_t bytes, stored *files);

#endif
