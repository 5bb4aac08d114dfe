/* The tracks and positions of the records of tables 6 to 12. */
#include "stand.h"

enum {
    POSITION_SIZE = IND_TURNOUT_NORMAL_POSITION - IND_TURNOUT_TIP_POSITION
};

stand stand_of(ind_object record, uint32_t leg)
{
    static const stand places[IND_KINDS] = {
        [IND_START_BOUNDARY] = { IND_BOUNDARY_TRACK, IND_BOUNDARY_POSITION },
        [IND_END_BOUNDARY] = { IND_BOUNDARY_TRACK, IND_BOUNDARY_POSITION },
        [IND_TURNOUT] = { IND_TURNOUT_FRONT_TRACK, IND_TURNOUT_TIP_POSITION },
        [IND_BALISE] = { IND_BALISE_TRACK, IND_BALISE_POSITION },
        [IND_SIGNAL] = { IND_SIGNAL_TRACK, IND_SIGNAL_POSITION },
        [IND_JOINT] = { IND_JOINT_TRACK, IND_JOINT_POSITION },
        [IND_SIDING] = { IND_SIDING_TRACK, 0 }
    };
    stand at = places[record.kind];
    if (record.kind == IND_TURNOUT) {
        at.track += leg;
        at.position += POSITION_SIZE * leg;
    }
    at.track += record.start;
    if (at.position != 0)
        at.position += record.start;
    return at;
}
