/* Damage to right files, aimed at every number and kind of place of 01's
 * table. The checksum is left as it was; seal() repairs it. */
#ifndef DAMAGE_H
#define DAMAGE_H

#include "random.h"
#include "stored.h"

/* A value at or beside the largest position, or beside the old one. */
uint32_t edge_position(source *from, uint32_t old);

/* An offset at or beside the old one, the file's end or a record's size. */
uint32_t edge_offset(source *from, uint32_t old, uint32_t end);

/* The structure version: one that is read, one beside it, or any. */
void damage_version(source *from, stored *file);

/* The header's first fields: type, versions, station. */
void damage_opening(source *from, stored *file);

/* One aimed change of a field of an X.1 or X.2 whose layout is right, or of
 * one balise group; the layout stays right. */
void poke_geography(source *from, stored *file);
void poke_application(source *from, stored *file);

/* One aimed change of the layout or the length; of an X.1 also of the
 * structure version, by which its points have another size. */
void break_geography(source *from, stored *file);
void break_application(source *from, stored *file);

/* One change of an accepted pair's X.2: other station, a missing track, a
 * position at or beyond the track's end. */
void damage_pair(source *from, const stored *geography, stored *file);

/* The other of the two file types. */
void swap_type(stored *file);

/* Changes that ask nothing of the file. */
void flip_bits(source *from, stored *file);
void change_length(source *from, stored *file);
void random_bytes(source *from, stored *file);
void over_long(source *from, stored *file);

/* Removes or inserts bytes at a place, all behind them moving up. */
void remove_bytes(stored *file, uint32_t place, uint32_t count);
void insert_bytes(source *from, stored *file, uint32_t place, uint32_t count);

#endif
