/*
 * Three unit boxes come down on a floor, rest, slide, and lose the topmost. The proposed manifolds and the solver are made up.
 *
 * stack.stdout was worked out by hand from the rules of the step before it was compared with a run. Every length is a sum of powers
 * of two, so that no sum below is rounded. The contact tolerance is 1/64, the recycle distance 1/32; no box turns, so that a pair
 * is recycled if it has moved by less than 1/64 (apart) or 1/32 (touching) since its last full update.
 *   1  No cache yet: all are updated. Gaps of 1/8 are over the tolerance, so that no point stays; the boxes, 1/8 larger on each
 *      side, overlap, so that the pairs do.
 *   2  Contact 0 has moved by 1/8: updated, a gap of 0 touches. It starts, and it generates constraints since step 1. The other two
 *      pairs have fallen side by side: recycled.
 *   3  Contacts 1 and 2 have moved by 1/8: they start. Contact 0 is recycled, with the solver's impulses.
 *   4  All are recycled; contact 0 has sunk by 1/128, which is its penetration now.
 *   5  Contacts 1 and 2 have moved by 1/16: updated. Their new points have no impulse and, by their features, the old points' warm
 *      start. Contact 1 has a manifold more.
 *   6  The larger boxes of contact 2 are apart: it ends, stops and is removed. The others are recycled.
 * Then id 2 is free, and the next pair gets it.
 */
#include <stdio.h>
#include <stdlib.h>
#include <string.h>

#include "sardinerod.h"

#define CAPACITY 4
#define BOXES 4 /* the floor is number 0 */
#define WORKERS 2
#define BIT_WORDS ((CAPACITY + 63) / 64)

/* Where everything is in a step. Box 2 may stand aside, and on two edges. */
struct frame {
    const char *title;
    float height[BOXES];
    float aside;
    uint32_t manifolds;
};

static const struct frame frames[] = {
    {"the boxes hang apart", {-0.5f, 0.625f, 1.75f, 2.875f}, 0.0f, 1},
    {"box 1 lands", {-0.5f, 0.5f, 1.625f, 2.75f}, 0.0f, 1},
    {"boxes 2 and 3 land", {-0.5f, 0.5f, 1.5f, 2.5f}, 0.0f, 1},
    {"the stack sinks", {-0.5f, 0.4921875f, 1.4921875f, 2.4921875f}, 0.0f, 1},
    {"box 2 slides, and stands on two edges", {-0.5f, 0.4921875f, 1.4921875f, 2.4921875f}, 0.0625f, 2},
    {"box 3 is lifted off", {-0.5f, 0.4921875f, 1.4921875f, 4.0f}, 0.0625f, 2},
};

static uint32_t settings[SARDINEROD_SETTINGS_LENGTH];
static uint32_t colliders[SARDINEROD_COLLIDERS * SARDINEROD_COLLIDER_SIZE];
static uint32_t bodies[SARDINEROD_BODIES * SARDINEROD_BODY_SIZE];
static uint32_t proposals[CAPACITY * SARDINEROD_PROPOSAL_SIZE];
static uint32_t shares[SARDINEROD_SHARES_ENTRIES + CAPACITY];
static uint32_t graph[SARDINEROD_GRAPH_LIST + 2 * CAPACITY + CAPACITY * SARDINEROD_CONTACT_SIZE];
static uint64_t bits[SARDINEROD_MOST_WORKERS * BIT_WORDS];
static uint32_t events[CAPACITY * SARDINEROD_EVENT_SIZE];
static uint32_t changes[CAPACITY * SARDINEROD_CHANGE_SIZE];
static uint32_t distances[CAPACITY];

#define LENGTH(row) (sizeof(row) / sizeof(*(row)))

static void put_float(uint32_t *word, float value) { memcpy(word, &value, sizeof value); }

static void put_vec3(uint32_t *words, float x, float y, float z) {
    put_float(words, x);
    put_float(words + 1, y);
    put_float(words + 2, z);
}

static float get_float(const uint32_t *word) {
    float value;
    memcpy(&value, word, sizeof value);
    return value;
}

/* Ends the program where a call is refused. */
static void must(const char *call, uint32_t result) {
    if (result != 0) {
        printf("%s: refused with %u\n", call, (unsigned)result);
        exit(1);
    }
}

static uint32_t *record_of(uint32_t id) {
    return graph + SARDINEROD_GRAPH_LIST + 2 * CAPACITY + id * SARDINEROD_CONTACT_SIZE;
}

static uint32_t *manifold_of(uint32_t *record, uint32_t m) {
    return record + SARDINEROD_CONTACT_MANIFOLDS + 1 + m * SARDINEROD_MANIFOLD_SIZE;
}

static uint32_t *point_of(uint32_t *manifold, uint32_t p) {
    return manifold + SARDINEROD_MANIFOLD_POINTS + p * SARDINEROD_POINT_SIZE;
}

static float aside_of(const struct frame *frame, uint32_t n) { return n == 2 ? frame->aside : 0.0f; }

/* Points match by number. No corner's number is 0, so that by place would give the same. */
static void write_settings(void) {
    put_float(settings + SARDINEROD_SETTINGS_STEP_TIME, 1.0f / 64);
    put_float(settings + SARDINEROD_SETTINGS_LENGTH_UNIT, 1.0f);
    put_float(settings + SARDINEROD_SETTINGS_CONTACT_TOLERANCE, 1.0f / 64);
    put_float(settings + SARDINEROD_SETTINGS_RECYCLE_DISTANCE, 1.0f / 32);
    put_float(settings + SARDINEROD_SETTINGS_RECYCLE_COSINE, 0.99f);
    settings[SARDINEROD_SETTINGS_MATCH_CONTACTS] = 1;
    put_float(settings + SARDINEROD_SETTINGS_FRICTION, 0.5f);
    settings[SARDINEROD_SETTINGS_FRICTION + 1] = SARDINEROD_COMBINE_AVERAGE;
    put_float(settings + SARDINEROD_SETTINGS_RESTITUTION, 0.0f);
    settings[SARDINEROD_SETTINGS_RESTITUTION + 1] = SARDINEROD_COMBINE_AVERAGE;
    settings[SARDINEROD_SETTINGS_MATCHING] = 1;
    settings[SARDINEROD_SETTINGS_MATCHING + 1] = SARDINEROD_MATCHING_BY_NUMBER;
}

/* A collider whose box is 1/8 larger on each side; the floor is wider. */
static void write_collider(const struct frame *frame, uint32_t n) {
    uint32_t *collider = colliders + n * SARDINEROD_COLLIDER_SIZE;
    float x = aside_of(frame, n), y = frame->height[n], half = n == 0 ? 4.625f : 0.625f;
    collider[0] = 1;
    collider[SARDINEROD_COLLIDER_BODY] = 1;
    collider[SARDINEROD_COLLIDER_BODY + 1] = n;
    put_vec3(collider + SARDINEROD_COLLIDER_LOWER, x - half, y - 0.625f, -half);
    put_vec3(collider + SARDINEROD_COLLIDER_UPPER, x + half, y + 0.625f, half);
    put_vec3(collider + SARDINEROD_COLLIDER_POSITION, x, y, 0.0f);
    collider[SARDINEROD_COLLIDER_MEMBERSHIPS] = 1;
    collider[SARDINEROD_COLLIDER_FILTERS] = 0xffffffff;
}

static void write_body(const struct frame *frame, uint32_t n) {
    uint32_t *body = bodies + n * SARDINEROD_BODY_SIZE;
    body[0] = 1;
    body[SARDINEROD_BODY_STATIC] = n == 0;
    put_vec3(body + SARDINEROD_BODY_POSITION, aside_of(frame, n), frame->height[n], 0.0f);
    put_float(body + SARDINEROD_BODY_ROTATION + 3, 1.0f);
    put_float(body + SARDINEROD_BODY_SWEEP_RADIUS, 0.875f);
}

/* Corner k (0 to 3) of box n's lower face, above box n - 1. */
static void write_corner(uint32_t *point, const struct frame *frame, uint32_t n, uint32_t k) {
    float x = aside_of(frame, n), y = frame->height[n] - 0.5f, below = frame->height[n - 1] + 0.5f;
    float corner_x = x + (k < 2 ? -0.5f : 0.5f), corner_z = k % 2 == 0 ? -0.5f : 0.5f;
    put_vec3(point, corner_x - aside_of(frame, n - 1), y - frame->height[n - 1], corner_z);
    put_vec3(point + 3, corner_x - x, y - frame->height[n], corner_z);
    put_vec3(point + 6, corner_x, y, corner_z);
    put_float(point + SARDINEROD_PROPOSED_POINT_PENETRATION, below - y);
    point[SARDINEROD_PROPOSED_POINT_FEATURES] = k + 1;
    point[SARDINEROD_PROPOSED_POINT_FEATURES + 1] = k + 1;
}

/* Contact id has box id + 1 above box id: its four corners in one manifold, or in two. */
static void write_proposal(const struct frame *frame, uint32_t id) {
    uint32_t *proposal = proposals + id * SARDINEROD_PROPOSAL_SIZE;
    uint32_t manifolds = id == 1 ? frame->manifolds : 1, points = 4 / manifolds;
    proposal[SARDINEROD_PROPOSAL_HOOK] = 1;
    proposal[SARDINEROD_PROPOSAL_COUNT] = manifolds;
    for (uint32_t m = 0; m < manifolds; m++) {
        uint32_t *manifold = proposal + SARDINEROD_PROPOSAL_MANIFOLDS + m * SARDINEROD_PROPOSED_MANIFOLD_SIZE;
        manifold[0] = points;
        put_vec3(manifold + SARDINEROD_PROPOSED_MANIFOLD_NORMAL, 0.0f, 1.0f, 0.0f);
        for (uint32_t p = 0; p < points; p++) {
            uint32_t *point = manifold + SARDINEROD_PROPOSED_MANIFOLD_POINTS + p * SARDINEROD_PROPOSED_POINT_SIZE;
            write_corner(point, frame, id + 1, m * points + p);
        }
    }
}

/* The listed pairs are dealt to the workers in turn. */
static void deal_shares(void) {
    uint32_t listed = graph[SARDINEROD_GRAPH_LISTED], place = SARDINEROD_SHARES_ENTRIES;
    shares[0] = WORKERS;
    for (uint32_t w = 0; w < WORKERS; w++) {
        shares[SARDINEROD_SHARES_COUNTS + w] = 0;
        for (uint32_t p = w; p < listed; p += WORKERS) {
            shares[place++] = graph[SARDINEROD_GRAPH_LIST + p];
            shares[SARDINEROD_SHARES_COUNTS + w]++;
        }
    }
}

static uint32_t add_pair(uint32_t below, uint32_t above) {
    uint32_t request[SARDINEROD_REQUEST_LENGTH] = {below, above, 1, below, 1, above, 1, 0, 0}, id;
    must("add", sardinerod_add(graph, LENGTH(graph), request, LENGTH(request), &id, 1));
    return id;
}

static void print_events(uint32_t count) {
    for (const uint32_t *e = events; e < events + count * SARDINEROD_EVENT_SIZE; e += SARDINEROD_EVENT_SIZE) {
        const char *kind = e[0] == SARDINEROD_EVENT_STARTED ? "started" : "ended";
        printf("  %s: contact %u, colliders %u and %u\n", kind, (unsigned)e[1], (unsigned)e[2], (unsigned)e[3]);
    }
}

static void print_change(const uint32_t *c) {
    unsigned id = c[1], body1 = c[2], body2 = c[3];
    if (c[0] == SARDINEROD_CHANGE_START) {
        printf("  constraints of contact %u start\n", id);
    } else if (c[0] == SARDINEROD_CHANGE_STOP) {
        printf("  constraints of contact %u stop, bodies %u and %u\n", id, body1, body2);
    } else {
        printf("  constraints of contact %u change by %+d, bodies %u and %u\n", id, (int)(int32_t)c[4], body1, body2);
    }
}

/* A contact by its first point: all its points are alike here. */
static void print_contact(uint32_t id) {
    uint32_t *record = record_of(id), *first = manifold_of(record, 0), *point = point_of(first, 0);
    if (record[SARDINEROD_CONTACT_FLAGS + SARDINEROD_FLAG_TOUCHING] == 0) {
        printf("  contact %u is apart\n", (unsigned)id);
        return;
    }
    printf("  contact %u touches: manifolds %u, points %u each, penetration %.7f, impulse %.2f, warm start %.2f\n", (unsigned)id,
           (unsigned)record[SARDINEROD_CONTACT_MANIFOLDS], (unsigned)first[0], get_float(point + SARDINEROD_POINT_PENETRATION),
           get_float(point + SARDINEROD_POINT_NORMAL_IMPULSE), get_float(point + SARDINEROD_POINT_WARM_START_NORMAL_IMPULSE));
}

/* The solver: each point of contact id bears a quarter of the 3 - id boxes above. */
static void write_impulses(uint32_t id) {
    uint32_t *record = record_of(id);
    for (uint32_t m = 0; m < record[SARDINEROD_CONTACT_MANIFOLDS]; m++) {
        uint32_t *manifold = manifold_of(record, m);
        for (uint32_t p = 0; p < manifold[0]; p++) {
            float impulse = (float)(3 - id) / 4;
            put_float(point_of(manifold, p) + SARDINEROD_POINT_NORMAL_IMPULSE, impulse);
            put_float(point_of(manifold, p) + SARDINEROD_POINT_WARM_START_NORMAL_IMPULSE, impulse);
        }
    }
}

static void play(const struct frame *frame, uint32_t number) {
    uint32_t answer[SARDINEROD_STEP_ANSWER_LENGTH];
    for (uint32_t n = 0; n < BOXES; n++) {
        write_collider(frame, n);
        write_body(frame, n);
    }
    for (uint32_t id = 0; id < BOXES - 1; id++) {
        write_proposal(frame, id);
    }
    deal_shares();
    must("step", sardinerod_step(settings, LENGTH(settings), colliders, LENGTH(colliders), bodies, LENGTH(bodies), proposals,
                                 LENGTH(proposals), shares, LENGTH(shares), graph, LENGTH(graph), bits, LENGTH(bits), events,
                                 LENGTH(events), changes, LENGTH(changes), distances, LENGTH(distances), answer, LENGTH(answer)));
    printf("step %u: %s\n", (unsigned)number, frame->title);
    print_events(answer[0]);
    for (uint32_t c = 0; c < answer[1]; c++) {
        print_change(changes + c * SARDINEROD_CHANGE_SIZE);
    }
    printf("  recycled: %u of %u\n", (unsigned)answer[2], (unsigned)shares[1] + (unsigned)shares[2]);
    for (uint32_t p = 0; p < graph[SARDINEROD_GRAPH_LISTED]; p++) {
        print_contact(graph[SARDINEROD_GRAPH_LIST + p]);
        write_impulses(graph[SARDINEROD_GRAPH_LIST + p]);
    }
}

int main(void) {
    uint32_t edge[SARDINEROD_LOOK_UP_ANSWER_LENGTH];
    must("lay out", sardinerod_lay_out(graph, LENGTH(graph), CAPACITY));
    write_settings();
    for (uint32_t n = 1; n < BOXES; n++) {
        printf("box %u over box %u: contact %u\n", (unsigned)n, (unsigned)n - 1, (unsigned)add_pair(n - 1, n));
    }
    for (uint32_t k = 0; k < LENGTH(frames); k++) {
        play(&frames[k], k + 1);
    }
    printf("look up of contact 2: %u\n", (unsigned)sardinerod_look_up(graph, LENGTH(graph), 2, edge, LENGTH(edge)));
    printf("box 3 over box 0: contact %u\n", (unsigned)add_pair(0, 3));
    return 0;
}
