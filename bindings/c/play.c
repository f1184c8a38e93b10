/*
 * A trace that is played from memory, and what each of its lines prints. docs/TRACES.md has the lines.
 *
 * play.stdout was worked out by hand. The first G starts the contact of colliders 0 and 1, which the M names in the other order. The
 * pair stands when it is added once more: 4. Nothing is proposed for the second G: the contact ends. A collider of line 17 is out of
 * range: 2 at the next G. The last G has no T: 10. No T names the matching: a trace is then played by number.
 */
#include <stdio.h>
#include <stdlib.h>

#include "sardinerod.h"

#define CAPACITY 4
#define BIT_WORDS ((CAPACITY + 63) / 64)

#define ZERO "\t00000000"
#define ONE "\t3F800000"
#define MINUS_ONE "\tBF800000"
#define ORIGIN ZERO ZERO ZERO
#define BOX MINUS_ONE MINUS_ONE MINUS_ONE ONE ONE ONE
#define SETTINGS "T\t3C800000" ONE "\t3BA3D70A" ZERO "\t3F733333\t1\t3F000000\t1" ZERO "\t1\n"
#define COLLIDER(n, body) "C\t" n "\t" body BOX ORIGIN "\t1\t4294967295\t-\t-\t-\t0\n"
#define BODY(n, is_static) "B\t" n "\t" is_static ORIGIN ORIGIN ONE ORIGIN ORIGIN ORIGIN "\t-\t-\t-" ONE "\n"
#define WORLD SETTINGS COLLIDER("0", "0") COLLIDER("1", "1") BODY("0", "1") BODY("1", "0")

static const char trace[] =
    "A\t0\t01\t0\t1\t1\t0" ZERO "\n"
    WORLD
    "M\t1\t0" ZERO ONE ZERO "\n"
    "P" ORIGIN ORIGIN ORIGIN "\t3c23d70a\t0\t0\n"
    "G\n"
    "A\t1\t0\t-\t-\t0\t0" ZERO "\n"
    WORLD
    "G\n"
    COLLIDER("256", "1")
    SETTINGS
    "G\n"
    "G\n";

static uint64_t player[SARDINEROD_PLAYER_LENGTH] = {0, 0, 0, 0, 1};
static uint32_t graph[SARDINEROD_GRAPH_LIST + 2 * CAPACITY + CAPACITY * SARDINEROD_CONTACT_SIZE];
static uint32_t settings[SARDINEROD_SETTINGS_LENGTH];
static uint32_t colliders[SARDINEROD_COLLIDERS * SARDINEROD_COLLIDER_SIZE];
static uint32_t bodies[SARDINEROD_BODIES * SARDINEROD_BODY_SIZE];
static uint32_t proposals[CAPACITY * SARDINEROD_PROPOSAL_SIZE];
static uint32_t shares[SARDINEROD_SHARES_ENTRIES + CAPACITY];
static uint64_t bits[SARDINEROD_MOST_WORKERS * BIT_WORDS];
static uint32_t events[CAPACITY * SARDINEROD_EVENT_SIZE];
static uint32_t changes[CAPACITY * SARDINEROD_CHANGE_SIZE];
static uint32_t distances[CAPACITY];
static uint8_t out[CAPACITY * SARDINEROD_PRINTED_SIZE];
static uint64_t answer[SARDINEROD_PLAY_ANSWER_LENGTH];

#define LENGTH(row) (sizeof(row) / sizeof(*(row)))

/* Ends the program where a call is refused. */
static void must(const char *call, uint32_t result) {
    if (result != 0) {
        printf("%s: refused with %u\n", call, (unsigned)result);
        exit(1);
    }
}

/* Plays the next line; 0 where there was none. */
static int play_line(void) {
    must("play line",
         sardinerod_play_line((const uint8_t *)trace, LENGTH(trace) - 1, player, LENGTH(player), graph, LENGTH(graph), settings,
                              LENGTH(settings), colliders, LENGTH(colliders), bodies, LENGTH(bodies), proposals, LENGTH(proposals),
                              shares, LENGTH(shares), bits, LENGTH(bits), events, LENGTH(events), changes, LENGTH(changes),
                              distances, LENGTH(distances), out, LENGTH(out), answer, LENGTH(answer)));
    return answer[0] == 0;
}

int main(void) {
    must("lay out", sardinerod_lay_out(graph, LENGTH(graph), CAPACITY));
    for (unsigned line = 1; play_line(); line++) {
        if (answer[1] > 0) {
            printf("line %u:\n%.*s", line, (int)answer[1], (const char *)out);
        }
    }
    printf("the trace has ended at byte %u of %u\n", (unsigned)player[0], (unsigned)LENGTH(trace) - 1);
    return 0;
}
