/*
 * Contact stepping for a load planner: avian's 3D narrow phase and contact graph, over lent rows of words. C99.
 * `bindings/library` makes target/staticlib/libcontact_api.a. To link, at the root of the repository:
 *     cc -std=c99 -I bindings/c main.c target/staticlib/libcontact_api.a
 * The library needs memcpy and memset, and nothing else. docs/BUFFERS.md has every row and its words.
 *
 * A row is a pointer and its number of words, or of bytes. A float is a word, its IEEE bits; a mark is 0 or 1; an optional value is
 * a mark and its words. A row that is written may not overlap another row of the call, and no pointer may be null. Rows may have any
 * length and hold any words: what does not fit is refused. A call allocates nothing and keeps no pointer.
 */
#ifndef SARDINEROD_H
#define SARDINEROD_H

#include <stddef.h>
#include <stdint.h>

#ifdef __cplusplus
extern "C" {
#endif

/* Why a call is refused: its result, where that is not 0. No lent word has changed then. */
enum sardinerod_refusal {
    SARDINEROD_WRONG_LENGTH = 1,       /* the capacity is not 1 to 256, or a row's length is not the one for it */
    SARDINEROD_OUT_OF_RANGE = 2,       /* a number, mark, rule or count is out of range, or the graph contradicts itself */
    SARDINEROD_SAME_COLLIDER = 3,      /* both sides of an added pair are one collider */
    SARDINEROD_PAIR_EXISTS = 4,        /* the added pair stands already, in either order */
    SARDINEROD_GRAPH_FULL = 5,         /* as many contacts stand as the capacity */
    SARDINEROD_PROPOSAL_TOO_LARGE = 6, /* over 6 manifolds in a pair, or 24 points in a manifold */
    SARDINEROD_INVALID_SHARES = 7,     /* workers not 1 to 8, an active pair not listed once, or anything else listed */
    SARDINEROD_TOO_FEW_POINTS = 8,     /* fewer than 5 points to prune */
    SARDINEROD_NO_CONTACT = 9          /* the id names no standing contact */
};

/* The first word of an event. */
enum sardinerod_event_kind {
    SARDINEROD_EVENT_STARTED = 0,
    SARDINEROD_EVENT_ENDED = 1
};

/* The first word of a constraint change. */
enum sardinerod_change_kind {
    SARDINEROD_CHANGE_START = 0,
    SARDINEROD_CHANGE_STOP = 1,
    SARDINEROD_CHANGE_COUNT = 2
};

/* How two coefficients combine: the second word of a coefficient. Of two rules the larger is taken. */
enum sardinerod_combine_rule {
    SARDINEROD_COMBINE_AVERAGE = 1,
    SARDINEROD_COMBINE_GEOMETRIC_MEAN = 2,
    SARDINEROD_COMBINE_MIN = 3,
    SARDINEROD_COMBINE_MULTIPLY = 4,
    SARDINEROD_COMBINE_MAX = 5
};

/*
 * Whether a new point's features are compared with an old point's. Close anchors match by either: straight where a feature of the
 * new point is 0, crossed always.
 */
enum sardinerod_matching {
    SARDINEROD_MATCHING_BY_NUMBER = 0, /* features are compared, 0 as any other number */
    SARDINEROD_MATCHING_BY_PLACE = 1   /* features are compared only where neither of the new point's is 0 */
};

/* The pair's marks, counted from SARDINEROD_CONTACT_FLAGS. */
enum sardinerod_pair_flag {
    SARDINEROD_FLAG_TOUCHING = 0,
    SARDINEROD_FLAG_DISJOINT_AABB = 1,
    SARDINEROD_FLAG_STARTED_TOUCHING = 2,
    SARDINEROD_FLAG_STOPPED_TOUCHING = 3,
    SARDINEROD_FLAG_GENERATE_CONSTRAINTS = 4,
    SARDINEROD_FLAG_STARTED_GENERATING_CONSTRAINTS = 5,
    SARDINEROD_FLAG_STATIC1 = 6,
    SARDINEROD_FLAG_STATIC2 = 7,
    SARDINEROD_FLAG_MODIFY_CONTACTS = 8
};

/*
 * Limits, lengths and places by name, as sardinerod_layout answers them. A place is counted from the start of its record; of an
 * optional value, an optional body or a coefficient it is the place of the mark, of a default coefficient that of its value.
 */

/* Limits. */
#define SARDINEROD_MOST_CONTACTS                    256
#define SARDINEROD_COLLIDERS                        256
#define SARDINEROD_BODIES                           128
#define SARDINEROD_MANIFOLDS                        6
#define SARDINEROD_STORED_POINTS                    4
#define SARDINEROD_PROPOSED_POINTS                  24
#define SARDINEROD_MOST_WORKERS                     8

/* A graph. The free ids stand behind the list, the records behind these. */
#define SARDINEROD_GRAPH_CAPACITY                   0
#define SARDINEROD_GRAPH_GIVEN                      1
#define SARDINEROD_GRAPH_LISTED                     2
#define SARDINEROD_GRAPH_FREED                      3
#define SARDINEROD_GRAPH_LIST                       4

/* A contact's record. The manifolds stand behind their number. */
#define SARDINEROD_CONTACT_SIZE                     523
#define SARDINEROD_CONTACT_COLLIDER1                0
#define SARDINEROD_CONTACT_COLLIDER2                1
#define SARDINEROD_CONTACT_BODY1                    2
#define SARDINEROD_CONTACT_BODY2                    4
#define SARDINEROD_CONTACT_PAIR_INDEX               6
#define SARDINEROD_CONTACT_EDGE_FLAGS               7
#define SARDINEROD_CONTACT_FLAGS                    9
#define SARDINEROD_CONTACT_COUNT_CHANGE             18
#define SARDINEROD_CONTACT_SPECULATIVE_DISTANCE     19
#define SARDINEROD_CONTACT_CACHE                    20
#define SARDINEROD_CONTACT_MANIFOLDS                36

/* A stored manifold, which begins with its number of points. */
#define SARDINEROD_MANIFOLD_SIZE                    81
#define SARDINEROD_MANIFOLD_NORMAL                  1
#define SARDINEROD_MANIFOLD_FRICTION                4
#define SARDINEROD_MANIFOLD_RESTITUTION             5
#define SARDINEROD_MANIFOLD_TANGENT_VELOCITY        6
#define SARDINEROD_MANIFOLD_POINTS                  9

/* A stored point. A solver may write the three impulses, four words, between calls. */
#define SARDINEROD_POINT_SIZE                       18
#define SARDINEROD_POINT_ANCHOR1                    0
#define SARDINEROD_POINT_ANCHOR2                    3
#define SARDINEROD_POINT_POSITION                   6
#define SARDINEROD_POINT_PENETRATION                9
#define SARDINEROD_POINT_BASE_PENETRATION           10
#define SARDINEROD_POINT_NORMAL_IMPULSE             11
#define SARDINEROD_POINT_NORMAL_SPEED               12
#define SARDINEROD_POINT_WARM_START_NORMAL_IMPULSE  13
#define SARDINEROD_POINT_WARM_START_TANGENT_IMPULSE 14
#define SARDINEROD_POINT_FEATURES                   16

/*
 * The settings. Behind the mark at SARDINEROD_SETTINGS_MATCHING stands an enum sardinerod_matching; where the mark is 0 that word is
 * not read, and points match by place. A caller that counts on features of 0 being compared like any other must name
 * SARDINEROD_MATCHING_BY_NUMBER.
 */
#define SARDINEROD_SETTINGS_LENGTH                  12
#define SARDINEROD_SETTINGS_STEP_TIME               0
#define SARDINEROD_SETTINGS_LENGTH_UNIT             1
#define SARDINEROD_SETTINGS_CONTACT_TOLERANCE       2
#define SARDINEROD_SETTINGS_RECYCLE_DISTANCE        3
#define SARDINEROD_SETTINGS_RECYCLE_COSINE          4
#define SARDINEROD_SETTINGS_MATCH_CONTACTS          5
#define SARDINEROD_SETTINGS_FRICTION                6
#define SARDINEROD_SETTINGS_RESTITUTION             8
#define SARDINEROD_SETTINGS_MATCHING                10

/* A collider's record, which begins with its presence mark. */
#define SARDINEROD_COLLIDER_SIZE                    23
#define SARDINEROD_COLLIDER_BODY                    1
#define SARDINEROD_COLLIDER_LOWER                   3
#define SARDINEROD_COLLIDER_UPPER                   6
#define SARDINEROD_COLLIDER_POSITION                9
#define SARDINEROD_COLLIDER_MEMBERSHIPS             12
#define SARDINEROD_COLLIDER_FILTERS                 13
#define SARDINEROD_COLLIDER_FRICTION                14
#define SARDINEROD_COLLIDER_RESTITUTION             17
#define SARDINEROD_COLLIDER_MARGIN                  20
#define SARDINEROD_COLLIDER_SENSOR                  22

/* A body's record, which begins with its presence mark. */
#define SARDINEROD_BODY_SIZE                        26
#define SARDINEROD_BODY_STATIC                      1
#define SARDINEROD_BODY_POSITION                    2
#define SARDINEROD_BODY_ROTATION                    5
#define SARDINEROD_BODY_CENTER_OF_MASS              9
#define SARDINEROD_BODY_LINEAR_VELOCITY             12
#define SARDINEROD_BODY_ANGULAR_VELOCITY            15
#define SARDINEROD_BODY_FRICTION                    18
#define SARDINEROD_BODY_MARGIN                      21
#define SARDINEROD_BODY_SPECULATIVE_MAXIMUM         23
#define SARDINEROD_BODY_SWEEP_RADIUS                25

/* A contact's proposal. */
#define SARDINEROD_PROPOSAL_SIZE                    1754
#define SARDINEROD_PROPOSAL_HOOK                    0
#define SARDINEROD_PROPOSAL_COUNT                   1
#define SARDINEROD_PROPOSAL_MANIFOLDS               2

/* A proposed manifold, which begins with its number of points. */
#define SARDINEROD_PROPOSED_MANIFOLD_SIZE           292
#define SARDINEROD_PROPOSED_MANIFOLD_NORMAL         1
#define SARDINEROD_PROPOSED_MANIFOLD_POINTS         4

/* A proposed point, which begins with anchor 1, anchor 2 and the position. */
#define SARDINEROD_PROPOSED_POINT_SIZE              12
#define SARDINEROD_PROPOSED_POINT_PENETRATION       9
#define SARDINEROD_PROPOSED_POINT_FEATURES          10

/* The shares, which begin with the number of workers. */
#define SARDINEROD_SHARES_COUNTS                    1
#define SARDINEROD_SHARES_ENTRIES                   9

/* An event and a constraint change. */
#define SARDINEROD_EVENT_SIZE                       8
#define SARDINEROD_CHANGE_SIZE                      5

/* Rows of single calls. */
#define SARDINEROD_REQUEST_LENGTH                   9
#define SARDINEROD_ADD_ANSWER_LENGTH                1
#define SARDINEROD_STEP_ANSWER_LENGTH               3
#define SARDINEROD_LOOK_UP_ANSWER_LENGTH            10
#define SARDINEROD_PRUNE_NORMAL_LENGTH              3
#define SARDINEROD_PRUNE_POINTS_LENGTH              96
#define SARDINEROD_PRUNE_ANSWER_LENGTH              5
#define SARDINEROD_PLAYER_LENGTH                    5
#define SARDINEROD_PLAY_ANSWER_LENGTH               2
#define SARDINEROD_PRINTED_SIZE                     136
#define SARDINEROD_LENGTHS_LENGTH                   10
#define SARDINEROD_LAYOUT_LENGTH                    99

/*
 * 0: the graph is empty, of that capacity; every other word of it is 0.
 * Refused: no lent word changes; 1.
 */
uint32_t sardinerod_lay_out(uint32_t *graph, size_t graph_len, uint32_t capacity);

/*
 * 0: the pair stands last in the list; answer is its id, the one freed last, else the lowest never given.
 * Refused: no lent word changes; the first that holds of 1, 2, 3, 4, 5.
 */
uint32_t sardinerod_add(uint32_t *graph, size_t graph_len, const uint32_t *request, size_t request_len, uint32_t *answer,
                        size_t answer_len);

/*
 * 0: graph, bits, events, changes and distances are those after the step; answer is events, changes, contacts recycled.
 * Refused: no lent word changes; the first that holds of 1, 2, 6, 7.
 */
uint32_t sardinerod_step(const uint32_t *settings, size_t settings_len, const uint32_t *colliders, size_t colliders_len,
                         const uint32_t *bodies, size_t bodies_len, const uint32_t *proposals, size_t proposals_len,
                         const uint32_t *shares, size_t shares_len, uint32_t *graph, size_t graph_len, uint64_t *bits,
                         size_t bits_len, uint32_t *events, size_t events_len, uint32_t *changes, size_t changes_len,
                         uint32_t *distances, size_t distances_len, uint32_t *answer, size_t answer_len);

/*
 * 0: answer is the contact's edge: id, colliders, bodies (mark, number), place in the list, TOUCHING, CONTACT_EVENTS.
 * Refused: no lent word changes; the first that holds of 1, 2, 9.
 */
uint32_t sardinerod_look_up(const uint32_t *graph, size_t graph_len, uint32_t id, uint32_t *answer, size_t answer_len);

/*
 * 0: the contact is gone, the last listed pair has its place in the list, and its id is the one freed last.
 * Refused: no lent word changes; the first that holds of 1, 2, 9.
 */
uint32_t sardinerod_remove(uint32_t *graph, size_t graph_len, uint32_t id);

/*
 * 0: answer is how many of the first count points stay, then their numbers in the order of the output, then 0.
 * Refused: no lent word changes; the first that holds of 1, 8, 6.
 */
uint32_t sardinerod_prune(const uint32_t *normal, size_t normal_len, const uint32_t *points, size_t points_len, uint32_t count,
                          uint32_t *answer, size_t answer_len);

/*
 * Plays the line of the trace at the player's place. A player is five words: the place of the next line, where the lines since the
 * last G begin, then three marks, set where not 0: the line above is an M or P; a T stands since the last G; all numbers since the
 * last G are in range, those of A lines apart. A new player is 0, 0, 0, 0, 1, its graph laid out. From settings to shares the rows
 * are for work: what they hold is not read, and a G fills them, the matching by number where its T does not name one. out has 136
 * bytes for each contact of the capacity.
 * 0: answer is 1 if the trace had ended before, else 0, and how many bytes the line prints, from the start of out. Player, graph and
 *    a step's rows are those after the line. An unreadable line prints 10, and then the player is at the trace's end. At its end
 *    nothing changes but answer, which is 1, 0.
 * Refused: no lent word or byte changes; 1.
 */
uint32_t sardinerod_play_line(const uint8_t *trace, size_t trace_len, uint64_t *player, size_t player_len, uint32_t *graph,
                              size_t graph_len, uint32_t *settings, size_t settings_len, uint32_t *colliders, size_t colliders_len,
                              uint32_t *bodies, size_t bodies_len, uint32_t *proposals, size_t proposals_len, uint32_t *shares,
                              size_t shares_len, uint64_t *bits, size_t bits_len, uint32_t *events, size_t events_len,
                              uint32_t *changes, size_t changes_len, uint32_t *distances, size_t distances_len, uint8_t *out,
                              size_t out_len, uint64_t *answer, size_t answer_len);

/*
 * 0: answer is the length of each row of a step for that capacity, in the order of its arguments, from settings to distances.
 * Refused: no lent word changes; 1.
 */
uint32_t sardinerod_lengths(uint32_t capacity, uint32_t *answer, size_t answer_len);

/*
 * 0: answer is the values of the names above, in their order.
 * Refused: no lent word changes; 1.
 */
uint32_t sardinerod_layout(uint32_t *answer, size_t answer_len);

#ifdef __cplusplus
}
#endif

#endif
