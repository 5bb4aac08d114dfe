/* 01, the questions about a file's header: the fields that X.1 and X.2 begin
 * with, and X.2's station name. Each first gives its file's own fault. */
#include "header.h"

#include "application.h"
#include "geography.h"
#include "opening.h"

/* The fields that both headers begin with, of a file with this verdict. */
static ind_header opening_fields(const uint8_t *file, ind_answer verdict)
{
    ind_header header = { { 0, 0, 0 }, 0, 0, 0, 0, 0 };
    header.answer = verdict;
    if (verdict.number != IND_ACCEPTED)
        return header;
    header.structure = ind_two(file, IND_STRUCTURE_VERSION_PLACE);
    header.data = ind_two(file, IND_DATA_VERSION_PLACE);
    header.station = ind_two(file, IND_STATION_PLACE);
    return header;
}

/* How many bytes a station name has without its closing zeros. */
static uint32_t used_size(const uint8_t *name)
{
    uint32_t used = IND_STATION_NAME_SIZE;
    while (used > 0 && name[used - 1] == 0)
        used--;
    return used;
}

ind_header ind_header1(const uint8_t *file, size_t length)
{
    return opening_fields(file, ind_x1(file, length));
}

ind_header ind_header2(const uint8_t *file, size_t length)
{
    ind_header header = opening_fields(file, ind_x2(file, length));
    if (header.answer.number != IND_ACCEPTED)
        return header;
    header.name = IND_STATION_NAME_PLACE;
    header.name_size = used_size(file + IND_STATION_NAME_PLACE);
    return header;
}
