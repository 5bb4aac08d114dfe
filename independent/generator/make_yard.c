/* Right yards as objects and their links: lines, tangles, ladders,
 * crossovers, wyes, balloon loops, diamonds, long lines, long ways that
 * branch, lines beside each other, ways about as long as a list of what lies
 * ahead, dead ends, rings, and groups of balises. */
#include "make.h"

#include "core/core.h"

enum {
    BOUNDARIES_LARGEST = 255,
    /* A ring that is filled in has fewer objects than this, and nothing is
     * filled in where there might be no room for one. */
    WORST_RING = 12,
    RING_ROOM = WORST_RING * IND_BALISE_LARGEST,
    /* The header without boundaries, and the checksum. */
    BARE_FILE = IND_START_ENTRIES_PLACE + IND_COUNT_SIZE + IND_GROUPS_SIZE
        + IND_CHECKSUM_SIZE
};

static uint32_t balise_size(source *from)
{
    if (once_in(from, 3))
        return IND_BALISE_PLAIN_SIZE;
    return (uint32_t)draw_between(from, IND_BALISE_LEAST_WITH_MESSAGE,
                                  IND_BALISE_LARGEST);
}

static uint32_t object_size(source *from, ind_kind kind)
{
    switch (kind) {
    case IND_TURNOUT: return IND_TURNOUT_SIZE;
    case IND_BALISE: return balise_size(from);
    case IND_SIGNAL: return IND_SIGNAL_SIZE;
    case IND_JOINT: return IND_JOINT_SIZE;
    case IND_SIDING: return IND_SIDING_SIZE;
    default: return IND_BOUNDARY_SIZE;
    }
}

static uint32_t bytes_left(const yard *made)
{
    return IND_LARGEST_FILE - made->bytes;
}

/* A new object without links; a balise is number 1 of its group. */
static uint32_t add_sized(source *from, yard *made, ind_kind kind,
                          uint32_t size)
{
    object *added = &made->objects[++made->count];
    added->kind = kind;
    for (int port = 0; port < PORTS; port++)
        added->links[port] = NO_OBJECT;
    added->size = size;
    added->start = 0;
    added->group_byte = draw(from, IND_GROUP_LARGEST) << IND_GROUP_COUNT_SHIFT;
    added->first = NO_OBJECT;
    added->order = (uint32_t)draw_bits(from);
    added->seed = draw_bits(from);
    made->bytes += size + (ind_is_boundary(kind) ? IND_ENTRY_SIZE : 0);
    return made->count;
}

static uint32_t add(source *from, yard *made, ind_kind kind)
{
    return add_sized(from, made, kind, object_size(from, kind));
}

static int plain_allowed(const yard *made)
{
    return made->allowed[IND_BALISE] || made->allowed[IND_SIGNAL]
        || made->allowed[IND_JOINT];
}

/* A balise, signal or joint, as the yard allows. */
static uint32_t add_plain(source *from, yard *made)
{
    ind_kind kind;
    do
        kind = (ind_kind)draw_between(from, IND_BALISE, IND_JOINT);
    while (!made->allowed[kind]);
    return add(from, made, kind);
}

static int linked(const yard *made, uint32_t one, uint32_t other)
{
    for (int port = 0; port < PORTS; port++)
        if (made->objects[one].links[port] == other)
            return 1;
    return 0;
}

/* How many plain objects must stand between, so that no object is linked
 * with itself or twice with one other. */
static uint32_t least_between(const yard *made, uint32_t one, uint32_t other)
{
    return one == other ? 2 : linked(made, one, other) ? 1 : 0;
}

/* A chain of plain objects from a port on; where it ends is given back. */
static uint32_t chain(source *from, yard *made, uint32_t at, uint32_t *port,
                      uint32_t plain)
{
    while (plain-- > 0) {
        uint32_t next = add_plain(from, made);
        uint32_t back = draw(from, 2);
        made->objects[at].links[*port] = next;
        made->objects[next].links[back] = at;
        at = next;
        *port = 1 - back;
    }
    return at;
}

/* Joins two ports by at least so many plain objects. Where the yard may not
 * have those that are needed, the ports stay free. */
static void join_by(source *from, yard *made, uint32_t one, uint32_t port,
                    uint32_t other, uint32_t other_port, uint32_t plain)
{
    uint32_t least = least_between(made, one, other);
    if (!plain_allowed(made))
        plain = 0;
    if (plain < least && plain_allowed(made))
        plain = least;
    if (plain < least)
        return;
    one = chain(from, made, one, &port, plain);
    made->objects[one].links[port] = other;
    made->objects[other].links[other_port] = one;
}

static void join(source *from, yard *made, uint32_t one, uint32_t port,
                 uint32_t other, uint32_t other_port)
{
    static const uint32_t most[] = { 1, 1, 2, 4 };
    join_by(from, made, one, port, other, other_port,
            draw(from, most[draw(from, 4)]));
}

static uint32_t add_start(source *from, yard *made)
{
    return add(from, made, IND_START_BOUNDARY);
}

static uint32_t add_end(source *from, yard *made)
{
    return add(from, made, IND_END_BOUNDARY);
}

/* Any boundary, of either kind. */
static uint32_t add_boundary(source *from, yard *made)
{
    return once_in(from, 2) ? add_start(from, made) : add_end(from, made);
}

/* A boundary on a free port. */
static void close_port(source *from, yard *made, uint32_t at, uint32_t port)
{
    uint32_t closing = add_boundary(from, made);
    join(from, made, at, port, closing, 0);
}

/* The same with an end boundary. */
static void end_port(source *from, yard *made, uint32_t at, uint32_t port)
{
    uint32_t end = add_end(from, made);
    join(from, made, at, port, end, 0);
}

/* A way from a start boundary to an end boundary. */
static void add_line(source *from, yard *made)
{
    uint32_t start = add_start(from, made);
    end_port(from, made, start, 0);
}

/* A way that ends in link 0. */
static void dead_end(source *from, yard *made, uint32_t at, uint32_t port)
{
    if (plain_allowed(made))
        chain(from, made, at, &port, 1 + draw(from, 3));
}

/* A boundary, a dead end or nothing. */
static void finish_port(source *from, yard *made, uint32_t at, uint32_t port)
{
    switch (draw(from, 6)) {
    case 0: break;
    case 1: dead_end(from, made, at, port); break;
    default: close_port(from, made, at, port); break;
    }
}

static void shape_lines(source *from, yard *made)
{
    uint32_t lines = 1 + draw(from, 4);
    if (made->size != SIZE_SMALL && once_in(from, 4))
        lines = BOUNDARIES_LARGEST - draw(from, 2);
    while (lines-- > 0)
        add_line(from, made);
}

/* A port of an object, for shuffling. */
typedef struct {
    uint32_t at;
    uint32_t port;
} free_port;

static void shuffle(source *from, free_port *ports, uint32_t count)
{
    for (uint32_t i = count; i > 1; i--) {
        uint32_t other = draw(from, i);
        free_port kept = ports[i - 1];
        ports[i - 1] = ports[other];
        ports[other] = kept;
    }
}

/* Turnouts and boundaries whose ports are joined at random. */
static void shape_tangle(source *from, yard *made)
{
    free_port ports[PORTS * 12 + 12];
    uint32_t turnouts = 1 + draw(from, made->size == SIZE_SMALL ? 5 : 12);
    uint32_t boundaries = 2 + draw(from, 8);
    uint32_t count = 0;
    for (uint32_t i = 0; i < turnouts; i++) {
        uint32_t turnout = add(from, made, IND_TURNOUT);
        for (uint32_t port = 0; port < PORTS; port++)
            if (!once_in(from, 12))
                ports[count++] = (free_port){ turnout, port };
    }
    for (uint32_t i = 0; i < boundaries || count % 2 == 1; i++) {
        uint32_t at = add_boundary(from, made);
        ports[count++] = (free_port){ at, 0 };
    }
    shuffle(from, ports, count);
    for (uint32_t i = 0; i < count; i += 2)
        join(from, made, ports[i].at, ports[i].port, ports[i + 1].at,
             ports[i + 1].port);
}

/* Turnouts in a row, each leading off one way; a second ladder may gather
 * the ways again. */
static void shape_ladder(source *from, yard *made)
{
    uint32_t rungs = 1 + draw(from, 6);
    int gathered = once_in(from, 2);
    uint32_t off = once_in(from, 2) ? REVERSE : NORMAL;
    uint32_t on = off == REVERSE ? NORMAL : REVERSE;
    uint32_t left = add_start(from, made), left_port = 0;
    uint32_t right = add_end(from, made), right_port = 0;
    for (uint32_t i = 0; i < rungs; i++) {
        uint32_t out = add(from, made, IND_TURNOUT);
        join(from, made, left, left_port, out, FRONT);
        if (gathered) {
            uint32_t in = add(from, made, IND_TURNOUT);
            join(from, made, right, right_port, in, FRONT);
            join(from, made, out, off, in, off);
            right = in;
            right_port = on;
        } else {
            finish_port(from, made, out, off);
        }
        left = out;
        left_port = on;
    }
    join(from, made, left, left_port, right, right_port);
}

/* Two lines with double crossovers one after another. */
static void shape_crossovers(source *from, yard *made)
{
    uint32_t crossovers = 1 + draw(from, 4);
    uint32_t line[2], port[2] = { 0, 0 };
    line[0] = add_start(from, made);
    line[1] = add_start(from, made);
    for (uint32_t i = 0; i < crossovers; i++) {
        uint32_t apart[2], together[2];
        for (int side = 0; side < 2; side++) {
            apart[side] = add(from, made, IND_TURNOUT);
            together[side] = add(from, made, IND_TURNOUT);
            join(from, made, line[side], port[side], apart[side], FRONT);
            join(from, made, apart[side], NORMAL, together[side], NORMAL);
            line[side] = together[side];
            port[side] = FRONT;
        }
        join(from, made, apart[0], REVERSE, together[1], REVERSE);
        join(from, made, apart[1], REVERSE, together[0], REVERSE);
    }
    end_port(from, made, line[0], port[0]);
    end_port(from, made, line[1], port[1]);
}

/* Three turnouts whose legs form a triangle. */
static void shape_wye(source *from, yard *made)
{
    uint32_t corner[3];
    for (int i = 0; i < 3; i++) {
        corner[i] = add(from, made, IND_TURNOUT);
        close_port(from, made, corner[i], FRONT);
    }
    for (int i = 0; i < 3; i++)
        join(from, made, corner[i], NORMAL, corner[(i + 1) % 3], REVERSE);
}

/* A turnout whose legs are joined with each other, behind a row of turnouts;
 * a walk into the loop meets itself. */
static void shape_balloon(source *from, yard *made)
{
    uint32_t at = add_boundary(from, made), port = 0;
    uint32_t loop;
    for (uint32_t before = draw(from, 4); before > 0; before--) {
        uint32_t turnout = add(from, made, IND_TURNOUT);
        uint32_t entered = draw(from, PORTS);
        join(from, made, at, port, turnout, entered);
        at = turnout;
        port = (entered + 1) % PORTS;
        finish_port(from, made, turnout, (entered + 2) % PORTS);
    }
    loop = add(from, made, IND_TURNOUT);
    join(from, made, at, port, loop, FRONT);
    if (once_in(from, 2)) {
        uint32_t inner = add(from, made, IND_TURNOUT);
        join(from, made, loop, NORMAL, inner, FRONT);
        join(from, made, loop, REVERSE, inner, NORMAL);
        finish_port(from, made, inner, REVERSE);
    } else {
        join(from, made, loop, NORMAL, loop, REVERSE);
    }
}

/* Ways that part and meet again, one after another: twice as many routes
 * with each. */
static void shape_diamonds(source *from, yard *made)
{
    uint32_t most = made->size == SIZE_SMALL ? 4 : once_in(from, 3) ? 16 : 9;
    uint32_t diamonds = 1 + draw(from, most);
    uint32_t at = add_start(from, made), port = 0;
    for (uint32_t i = 0; i < diamonds; i++) {
        uint32_t apart = add(from, made, IND_TURNOUT);
        uint32_t together = add(from, made, IND_TURNOUT);
        int crossed = once_in(from, 2);
        join(from, made, at, port, apart, FRONT);
        join_by(from, made, apart, NORMAL, together,
                crossed ? REVERSE : NORMAL, 0);
        join_by(from, made, apart, REVERSE, together,
                crossed ? NORMAL : REVERSE, 1);
        at = together;
        port = FRONT;
    }
    finish_port(from, made, at, port);
}

/* How many objects a way has that is about as long as a yard's are, or as the
 * limit that 0 means, now or once. */
static uint32_t some_way(source *from)
{
    static const uint32_t edges[] = { 63, 64, 65, 159, 160, 161 };
    return once_in(from, 2) ? ONE_OF(from, edges)
                            : (uint32_t)draw_between(from, 60, 170);
}

/* Lines as long as a limit, one under and one over, with or without a
 * turnout on the way. */
static void shape_long_line(source *from, yard *made)
{
    static const uint32_t ends[] = { 2, 3, 511, 512, 513 };
    uint32_t among = made->size == SIZE_SMALL ? 2 : 5;
    uint32_t objects =
        once_in(from, 2) ? ends[draw(from, among)] : some_way(from);
    uint32_t between = objects - 2;
    uint32_t start = add_start(from, made);
    uint32_t end = add_end(from, made);
    if (between > 0 && once_in(from, 2)) {
        uint32_t turnout = add(from, made, IND_TURNOUT);
        uint32_t other_end = add_end(from, made);
        uint32_t first = draw(from, between);
        uint32_t second = between - first - draw(from, 2);
        join_by(from, made, start, 0, turnout, FRONT, first);
        join_by(from, made, turnout, NORMAL, end, 0, between - 1 - first);
        join_by(from, made, turnout, REVERSE, other_end, 0, second);
    } else {
        join_by(from, made, start, 0, end, 0, between);
    }
}

/* Turnouts in a row, each leading off one long way. Deep says how many
 * objects stand up to the last turnout. */
static void long_ladder(source *from, yard *made)
{
    uint32_t rungs = 1 + draw(from, made->size == SIZE_SMALL ? 2 : 3);
    uint32_t at = add_start(from, made), port = 0, deep = 1;
    while (rungs-- > 0) {
        uint32_t turnout = add(from, made, IND_TURNOUT);
        uint32_t end = add_boundary(from, made);
        uint32_t before = draw(from, 10);
        uint32_t off = once_in(from, 2) ? REVERSE : NORMAL;
        deep += before + 1;
        join_by(from, made, at, port, turnout, FRONT, before);
        join_by(from, made, turnout, off, end, 0, some_way(from) - deep - 1);
        at = turnout;
        port = off == REVERSE ? NORMAL : REVERSE;
    }
    if (once_in(from, 3)) {
        finish_port(from, made, at, port);
    } else {
        uint32_t end = add_end(from, made);
        join_by(from, made, at, port, end, 0, some_way(from) - deep - 1);
    }
}

/* Diamonds so far apart that the whole way is long: few, or so many that the
 * list has no room or the walks are too many. */
static void long_diamonds(source *from, yard *made)
{
    uint32_t diamonds = once_in(from, 2) ? 1 + draw(from, 4)
                                         : 10 + draw(from, 7);
    uint32_t between = some_way(from) - 2 - 2 * diamonds;
    uint32_t apart_by = between / (diamonds + 1);
    uint32_t at = add_start(from, made), port = 0;
    uint32_t end = add_end(from, made);
    for (uint32_t i = 0; i < diamonds; i++) {
        uint32_t apart = add(from, made, IND_TURNOUT);
        uint32_t together = add(from, made, IND_TURNOUT);
        join_by(from, made, at, port, apart, FRONT, apart_by);
        join_by(from, made, apart, NORMAL, together, NORMAL, 0);
        join_by(from, made, apart, REVERSE, together, REVERSE, 1);
        at = together;
        port = FRONT;
    }
    join_by(from, made, at, port, end, 0, between - apart_by * diamonds);
}

/* Several long ways that branch. */
static void shape_long_ways(source *from, yard *made)
{
    if (once_in(from, 2))
        long_ladder(from, made);
    else
        long_diamonds(from, made);
}

/* A crossover from one line to another: two turnouts joined by a leg of each,
 * the one entered at the front, the other left by it. */
static void cross_over(source *from, yard *made, free_port *one,
                       free_port *other)
{
    uint32_t apart = add(from, made, IND_TURNOUT);
    uint32_t together = add(from, made, IND_TURNOUT);
    uint32_t off = once_in(from, 2) ? REVERSE : NORMAL;
    uint32_t on = off == REVERSE ? NORMAL : REVERSE;
    join(from, made, one->at, one->port, apart, FRONT);
    join(from, made, other->at, other->port, together, on);
    join(from, made, apart, off, together, off);
    *one = (free_port){ apart, on };
    *other = (free_port){ together, FRONT };
}

/* Lines beside each other from boundary to boundary, with crossovers between
 * neighbours both ways: many routes between several boundaries. Two lines may
 * be joined at their far ends, so that a walk comes back by the other. */
static void shape_parallel(source *from, yard *made)
{
    enum { LINES_MOST = 5 };
    free_port line[LINES_MOST];
    uint32_t lines = 2 + draw(from, LINES_MOST - 1);
    uint32_t of_a_line = 1 + draw(from, made->size == SIZE_SMALL ? 3 : 7);
    uint32_t crossovers = lines * of_a_line;
    for (uint32_t i = 0; i < lines; i++)
        line[i] = (free_port){ add_boundary(from, made), 0 };
    while (crossovers-- > 0) {
        uint32_t above = draw(from, lines - 1);
        uint32_t first = above + draw(from, 2);
        cross_over(from, made, &line[first], &line[2 * above + 1 - first]);
    }
    for (uint32_t i = 0; i < lines; i++) {
        if (i + 1 < lines && once_in(from, 6)) {
            join(from, made, line[i].at, line[i].port, line[i + 1].at,
                 line[i + 1].port);
            i++;
        } else {
            close_port(from, made, line[i].at, line[i].port);
        }
    }
}

/* Plain objects linked in a circle that leads nowhere. */
static void add_ring(source *from, yard *made, uint32_t objects)
{
    uint32_t first = add_plain(from, made);
    uint32_t port = 1;
    uint32_t last = chain(from, made, first, &port, objects - 1);
    made->objects[last].links[port] = first;
    made->objects[first].links[0] = last;
}

/* Two links of a turnout, and the third. */
typedef struct {
    uint32_t one;
    uint32_t other;
    uint32_t third;
} turnout_ports;

static turnout_ports some_ports(source *from)
{
    uint32_t one = draw(from, PORTS);
    uint32_t step = 1 + draw(from, 2);
    return (turnout_ports){ one, (one + step) % PORTS,
                            (one + 2 * step) % PORTS };
}

/* From a boundary so many objects to a turnout, entered by any of its links;
 * behind it may be nothing. */
static void ahead_to_turnout(source *from, yard *made, uint32_t objects)
{
    uint32_t at = add_boundary(from, made);
    uint32_t turnout = add(from, made, IND_TURNOUT);
    turnout_ports ports = some_ports(from);
    join_by(from, made, at, 0, turnout, ports.one, objects - 1);
    finish_port(from, made, turnout, ports.other);
    finish_port(from, made, turnout, ports.third);
}

/* From a boundary so many objects into a loop and around it, up to the turnout
 * where it began. The last of them, or the first the other way around, may be
 * a turnout too. */
static void ahead_into_loop(source *from, yard *made, uint32_t objects)
{
    enum { AROUND_LEAST = 4 };
    uint32_t at = add_boundary(from, made);
    uint32_t loop = add(from, made, IND_TURNOUT);
    uint32_t before = draw(from, objects - AROUND_LEAST);
    uint32_t around = objects - before - 1;
    join_by(from, made, at, 0, loop, FRONT, before);
    if (once_in(from, 2)) {
        join_by(from, made, loop, NORMAL, loop, REVERSE, around);
    } else {
        uint32_t last = add(from, made, IND_TURNOUT);
        uint32_t off = once_in(from, 2) ? REVERSE : NORMAL;
        turnout_ports ports = some_ports(from);
        join_by(from, made, loop, off, last, ports.one, around - 1);
        join_by(from, made, last, ports.other, loop,
                off == REVERSE ? NORMAL : REVERSE, 0);
        finish_port(from, made, last, ports.third);
    }
}

/* So many objects around to where the way begins: at a plain object or at a
 * turnout. */
static void ahead_around(source *from, yard *made, uint32_t objects)
{
    turnout_ports ports = some_ports(from);
    if (once_in(from, 2)) {
        add_ring(from, made, objects + 1);
    } else {
        uint32_t turnout = add(from, made, IND_TURNOUT);
        join_by(from, made, turnout, ports.one, turnout, ports.other,
                objects);
        finish_port(from, made, turnout, ports.third);
    }
}

/* From a boundary so many objects, the last of which is a boundary or has no
 * link. */
static void ahead_to_end(source *from, yard *made, uint32_t objects)
{
    uint32_t at = add_boundary(from, made), port = 0;
    if (once_in(from, 2)) {
        chain(from, made, at, &port, objects);
    } else {
        uint32_t end = add_boundary(from, made);
        join_by(from, made, at, port, end, 0, objects - 1);
    }
}

/* A way ahead of the first object, of about as many objects as are listed: to
 * a boundary, to nothing, to a turnout, or to an object that it has met. Most
 * such yards have no balises, so that they are small. */
static void shape_ahead(source *from, yard *made)
{
    static const uint32_t edges[] = { 63, 64, 64, 64, 65, 66 };
    uint32_t objects = ONE_OF(from, edges);
    if ((made->allowed[IND_SIGNAL] || made->allowed[IND_JOINT])
        && !once_in(from, 8))
        made->allowed[IND_BALISE] = 0;
    switch (draw(from, 6)) {
    case 0: ahead_to_end(from, made, objects); break;
    case 1: ahead_around(from, made, objects); break;
    case 2:
    case 3: ahead_into_loop(from, made, objects); break;
    default: ahead_to_turnout(from, made, objects); break;
    }
}

static void build_shape(source *from, yard_shape shape, yard *made)
{
    switch (shape) {
    case YARD_TANGLE: shape_tangle(from, made); break;
    case YARD_LADDER: shape_ladder(from, made); break;
    case YARD_CROSSOVERS: shape_crossovers(from, made); break;
    case YARD_WYE: shape_wye(from, made); break;
    case YARD_BALLOON: shape_balloon(from, made); break;
    case YARD_DIAMONDS: shape_diamonds(from, made); break;
    case YARD_LONG_LINE: shape_long_line(from, made); break;
    case YARD_LONG_WAYS: shape_long_ways(from, made); break;
    case YARD_PARALLEL: shape_parallel(from, made); break;
    case YARD_AHEAD: shape_ahead(from, made); break;
    default: shape_lines(from, made); break;
    }
}

uint32_t count_kind(const yard *made, ind_kind kind)
{
    uint32_t count = 0;
    for (uint32_t i = 1; i <= made->count; i++)
        count += made->objects[i].kind == kind;
    return count;
}

/* Every yard has boundaries of both kinds. */
static void add_missing_boundaries(source *from, yard *made)
{
    if (count_kind(made, IND_START_BOUNDARY) == 0
        || count_kind(made, IND_END_BOUNDARY) == 0)
        add_line(from, made);
}

/* A group that is allowed is there; some loose ends besides. */
static void complete(source *from, yard *made)
{
    add_missing_boundaries(from, made);
    for (int kind = IND_TURNOUT; kind < IND_KINDS; kind++) {
        if (!made->allowed[kind])
            continue;
        if (count_kind(made, (ind_kind)kind) == 0 || once_in(from, 6))
            add(from, made, (ind_kind)kind);
    }
    if (plain_allowed(made) && once_in(from, 8))
        add_ring(from, made, 3 + draw(from, 4));
    if (plain_allowed(made) && once_in(from, 6)
        && count_kind(made, IND_START_BOUNDARY) < BOUNDARIES_LARGEST
        && count_kind(made, IND_END_BOUNDARY) < BOUNDARIES_LARGEST) {
        uint32_t at = add_boundary(from, made);
        dead_end(from, made, at, 0);
    }
}

/* The other balises of the group of a number 1: all of them, or any. */
static void add_members(source *from, yard *made, uint32_t first)
{
    uint32_t group = made->objects[first].group_byte;
    uint32_t count = (group >> IND_GROUP_COUNT_SHIFT) + 1;
    int all = once_in(from, 2);
    for (uint32_t place = 2; place <= count; place++)
        if ((all || once_in(from, 2)) && bytes_left(made) > RING_ROOM) {
            uint32_t member = add(from, made, IND_BALISE);
            made->objects[member].group_byte = group | (place - 1);
            made->objects[member].first = first;
        }
}

/* Of the balises after so many objects, each number 1 of its group until now,
 * one in three gets others of its group. */
static void add_groups(source *from, yard *made, uint32_t after)
{
    uint32_t count = made->count;
    for (uint32_t at = after + 1; at <= count; at++)
        if (made->objects[at].kind == IND_BALISE && once_in(from, 3))
            add_members(from, made, at);
}

/* Loose objects, rings and groups until hardly anything more fits. */
static void fill_up(source *from, yard *made)
{
    enum { OBJECTS_LARGEST = LARGEST_YARD - 20 };
    while (bytes_left(made) > RING_ROOM && made->count < OBJECTS_LARGEST) {
        int kind = (int)draw_between(from, IND_TURNOUT, IND_SIDING);
        uint32_t count = made->count;
        if (plain_allowed(made) && once_in(from, 2))
            add_ring(from, made, 3 + draw(from, WORST_RING - 3));
        else if (made->allowed[kind])
            add(from, made, (ind_kind)kind);
        else if (!plain_allowed(made) && !made->allowed[IND_TURNOUT]
                 && !made->allowed[IND_SIDING])
            return;
        add_groups(from, made, count);
    }
}

/* Whether balises can fill so many bytes to the last one. */
static int fillable(uint32_t left)
{
    return left == 0 || left == IND_BALISE_PLAIN_SIZE
        || left >= IND_BALISE_LEAST_WITH_MESSAGE;
}

/* Balises up to the very last byte that a file may have. */
static void fill_to_last_byte(source *from, yard *made)
{
    while (made->allowed[IND_BALISE]
           && bytes_left(made) >= IND_BALISE_PLAIN_SIZE
           && fillable(bytes_left(made)) && made->count < LARGEST_YARD) {
        uint32_t size = balise_size(from);
        if (bytes_left(made) <= IND_BALISE_LARGEST)
            size = bytes_left(made);
        if (fillable(bytes_left(made) - size))
            add_sized(from, made, IND_BALISE, size);
    }
}

static void begin(source *from, size_wanted size, uint32_t station,
                  yard *made)
{
    made->count = 0;
    made->size = size;
    made->bytes = BARE_FILE;
    made->data_version = once_in(from, 4) ? 65534 : 1 + draw(from, 300);
    made->station = station;
    made->seed = draw_bits(from);
    for (int kind = 0; kind < IND_KINDS; kind++)
        made->allowed[kind] = kind < IND_TURNOUT || once_in(from, 2);
    if (once_in(from, 3))
        for (int kind = IND_TURNOUT; kind < IND_KINDS; kind++)
            made->allowed[kind] = 1;
}

void make_yard(source *from, size_wanted size, uint32_t station, yard *made)
{
    yard_shape shape = YARD_LINES;
    begin(from, size, station, made);
    if (made->allowed[IND_TURNOUT])
        shape = (yard_shape)draw(from, size == SIZE_SMALL ? YARD_LONG_WAYS
                                                          : YARD_SHAPES);
    build_shape(from, shape, made);
    complete(from, made);
    add_groups(from, made, 0);
    if (size == SIZE_LARGE) {
        fill_up(from, made);
        fill_to_last_byte(from, made);
    }
}

void make_route_yard(source *from, yard_shape shape, size_wanted size,
                     uint32_t station, yard *made)
{
    begin(from, size, station, made);
    made->allowed[IND_TURNOUT] = 1;
    made->allowed[(int)draw_between(from, IND_BALISE, IND_JOINT)] = 1;
    build_shape(from, shape, made);
    if (once_in(from, 3))
        add_missing_boundaries(from, made);
    else
        complete(from, made);
    add_groups(from, made, 0);
}

/* A port of some object that has a link. */
static free_port linked_port(source *from, const yard *made)
{
    free_port found;
    do {
        found.at = 1 + draw(from, made->count);
        found.port = draw(from, PORTS);
    } while (made->objects[found.at].links[found.port] == NO_OBJECT);
    return found;
}

void add_joint(source *from, yard *made)
{
    free_port near = linked_port(from, made);
    uint32_t far = made->objects[near.at].links[near.port];
    uint32_t joint = add(from, made, IND_JOINT);
    uint32_t back = 0;
    while (made->objects[far].links[back] != near.at)
        back++;
    made->objects[near.at].links[near.port] = joint;
    made->objects[joint].links[0] = near.at;
    made->objects[joint].links[1] = far;
    made->objects[far].links[back] = joint;
    made->data_version++;
}
