/* Checks 1 to 4, and the fields that both headers begin with. */
#include "opening.h"

#include "checksum.h"

ind_answer ind_opening(const uint8_t *file, size_t length, size_t least,
                       uint8_t type, uint32_t newest)
{
    uint32_t end;
    if (length < least || length > IND_LARGEST_FILE)
        return ind_says(IND_LENGTH, 0);
    end = ind_end(length);
    if (ind_checksum(file, end) != ind_four(file, end))
        return ind_says(IND_CHECKSUM, end);
    if (file[IND_FILE_TYPE_PLACE] != type)
        return ind_says(IND_FILE_TYPE, IND_FILE_TYPE_PLACE);
    if (ind_version(file) < IND_VERSION_1 || ind_version(file) > newest)
        return ind_says(IND_STRUCTURE_VERSION, IND_STRUCTURE_VERSION_PLACE);
    return ind_says(IND_ACCEPTED, 0);
}

uint32_t ind_opening_field_fault(const uint8_t *file)
{
    if (ind_two(file, IND_DATA_VERSION_PLACE) == 0)
        return IND_DATA_VERSION_PLACE;
    if (ind_two(file, IND_STATION_PLACE) == 0)
        return IND_STATION_PLACE;
    return IND_NO_FAULT;
}
