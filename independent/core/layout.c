/* 01, X.2's layout: check 6, and where the records stand. */
#include "layout.h"

/* Where the end boundary count stands. */
static uint32_t end_count_place(uint32_t starts)
{
    return IND_START_ENTRIES_PLACE + IND_ENTRY_SIZE * starts;
}

/* Both counts; where they pass, the header and the boundaries are set. */
static uint32_t count_fault(const uint8_t *file, uint32_t end,
                            ind_layout *layout)
{
    uint32_t starts = file[IND_START_COUNT_PLACE];
    uint32_t count_place = end_count_place(starts);
    uint32_t ends, header;
    if (starts == 0 || count_place >= end)
        return IND_START_COUNT_PLACE;
    ends = file[count_place];
    header = count_place + IND_COUNT_SIZE + IND_ENTRY_SIZE * ends
        + IND_GROUPS_SIZE;
    if (ends == 0 || header + IND_BOUNDARY_SIZE * (starts + ends) > end)
        return count_place;
    layout->starts = starts;
    layout->ends = ends;
    layout->header = header;
    layout->end = end;
    layout->from[IND_START_BOUNDARY] = header;
    layout->to[IND_START_BOUNDARY] = header + IND_BOUNDARY_SIZE * starts;
    layout->from[IND_END_BOUNDARY] = layout->to[IND_START_BOUNDARY];
    layout->to[IND_END_BOUNDARY] =
        layout->from[IND_END_BOUNDARY] + IND_BOUNDARY_SIZE * ends;
    return IND_NO_FAULT;
}

static uint32_t boundary_offset_fault(const uint8_t *file,
                                      const ind_layout *layout)
{
    uint32_t due = layout->header;
    for (uint32_t i = 0; i < layout->starts + layout->ends; i++) {
        uint32_t field = ind_entry_place(layout, i) + IND_ENTRY_OFFSET;
        if (ind_two(file, field) != due)
            return field;
        due += IND_BOUNDARY_SIZE;
    }
    return IND_NO_FAULT;
}

/* The header's offset field of a group, given by its kind. */
static uint32_t group_field(const ind_layout *layout, ind_kind kind)
{
    return layout->header - IND_GROUPS_SIZE
        + IND_OFFSET_SIZE * ((uint32_t)kind - IND_TURNOUT);
}

/* A group runs to the next nonzero group offset, else to End. */
static uint32_t group_end(const uint8_t *file, const ind_layout *layout,
                          ind_kind kind)
{
    for (int next = (int)kind + 1; next < IND_KINDS; next++) {
        uint32_t offset = ind_two(file, group_field(layout, (ind_kind)next));
        if (offset != 0)
            return offset;
    }
    return layout->end;
}

/* The balise group from balise to balise: the start of a faulty one. */
static uint32_t balises_fault(const uint8_t *file, const ind_layout *layout)
{
    uint32_t to = layout->to[IND_BALISE];
    uint32_t balise = layout->from[IND_BALISE];
    while (ind_balise_fits(file + balise, to - balise))
        balise += file[balise + IND_BALISE_SIZE_BYTE];
    return balise == to ? IND_NO_FAULT : balise;
}

/* One nonzero group; the first must start where the boundaries end. */
static uint32_t group_fault(const uint8_t *file, ind_layout *layout,
                            ind_kind kind, int first)
{
    uint32_t field = group_field(layout, kind);
    uint32_t from = ind_two(file, field);
    uint32_t to = group_end(file, layout, kind);
    if (first && from != layout->to[IND_END_BOUNDARY])
        return field;
    if (to <= from || to > layout->end)
        return field;
    if (kind != IND_BALISE && (to - from) % ind_fixed_size(kind) != 0)
        return field;
    layout->from[kind] = from;
    layout->to[kind] = to;
    return IND_NO_FAULT;
}

static uint32_t groups_fault(const uint8_t *file, ind_layout *layout)
{
    uint32_t reached = layout->to[IND_END_BOUNDARY];
    int first = 1;
    for (int kind = IND_TURNOUT; kind < IND_KINDS; kind++) {
        layout->from[kind] = reached;
        layout->to[kind] = reached;
        if (ind_two(file, group_field(layout, (ind_kind)kind)) != 0) {
            uint32_t fault = group_fault(file, layout, (ind_kind)kind, first);
            if (fault != IND_NO_FAULT)
                return fault;
            reached = layout->to[kind];
            first = 0;
        }
    }
    return reached == layout->end ? IND_NO_FAULT : reached;
}

/* A fault after the balise group's own turn comes after its balises'. */
static uint32_t groups_and_balises_fault(const uint8_t *file,
                                         ind_layout *layout)
{
    uint32_t fault, balise;
    layout->from[IND_BALISE] = 0;
    layout->to[IND_BALISE] = 0;
    fault = groups_fault(file, layout);
    if (fault == IND_NO_FAULT)
        return IND_NO_FAULT;
    balise = balises_fault(file, layout);
    return balise == IND_NO_FAULT ? fault : balise;
}

ind_answer ind_application_groups(const uint8_t *file, uint32_t end,
                                  ind_layout *layout)
{
    uint32_t fault = count_fault(file, end, layout);
    if (fault == IND_NO_FAULT)
        fault = boundary_offset_fault(file, layout);
    if (fault == IND_NO_FAULT)
        fault = groups_and_balises_fault(file, layout);
    return ind_unless(fault, IND_LAYOUT);
}

ind_answer ind_application_layout(const uint8_t *file, uint32_t end,
                                  ind_layout *layout)
{
    ind_answer answer = ind_application_groups(file, end, layout);
    if (answer.number == IND_ACCEPTED)
        answer = ind_unless(balises_fault(file, layout), IND_LAYOUT);
    return answer;
}

ind_kind ind_kind_at(const ind_layout *layout, uint32_t place)
{
    if (place < layout->header)
        return IND_NO_KIND;
    for (int kind = IND_START_BOUNDARY; kind < IND_KINDS; kind++)
        if (place < layout->to[kind])
            return (ind_kind)kind;
    return IND_NO_KIND;
}
