/* A host of a page: two labs file imports, each import begins as soon as it can and lasts as declared, and then a small plan is played. */
#include <inttypes.h>
#include <stdio.h>
#include <stdlib.h>
#include <string.h>

#include "nehpudra.h"

#define LABS 2

static const char plan[] = "1\n200 2000 1000\n2\n0 0 3 1000\n0 0 1 1000\n0\n";

/* For calls that this host has no reason to see denied. */
static void granted(uint64_t status) {
    if (status != NEHPUDRA_GRANTED) {
        fprintf(stderr, "host: status %" PRIu64 "\n", status);
        exit(EXIT_FAILURE);
    }
}

/* Files an import at tick 0 that is never due. */
static void file(nehpudra_gate *gate, nehpudra_row *rows, uint64_t lab, uint64_t length) {
    nehpudra_told told = nehpudra_file(gate, rows, LABS, 0, lab, length, NEHPUDRA_LAST_TICK);
    printf("0: lab %" PRIu64 " files %" PRIu64 " ticks: ", lab, length);
    if (told.status == NEHPUDRA_GRANTED) {
        printf("ticket %" PRIu64 "\n", told.number);
    } else {
        printf("refusal %" PRIu64 "\n", told.status);
    }
}

static void foretell(nehpudra_gate *gate, const nehpudra_row *rows, uint64_t lab) {
    nehpudra_entry list[NEHPUDRA_MOST_WAITING];
    nehpudra_told told = nehpudra_outlook(gate, rows, LABS, lab, list, NEHPUDRA_MOST_WAITING);
    granted(told.status);
    for (uint64_t i = 0; i < told.number; i++) {
        printf("outlook of lab %" PRIu64 ": ticket %" PRIu64 " from %" PRIu64 " to %" PRIu64 "\n", lab, list[i].number, list[i].start, list[i].end);
    }
}

/* Runs the import that has begun for its declared length, and tells the tick at which it has ended. */
static uint64_t run_one(nehpudra_gate *gate, nehpudra_row *rows, uint64_t tick, nehpudra_turn turn) {
    printf("%" PRIu64 ": lab %" PRIu64 " begins ticket %" PRIu64 ", of %" PRIu64 " ticks\n", tick, turn.lab, turn.number, turn.length);
    tick += turn.length;
    nehpudra_ended ended = nehpudra_end(gate, rows, LABS, tick);
    granted(ended.status);
    printf("%" PRIu64 ": lab %" PRIu64 " ends, held %" PRIu64 " ticks, response time %" PRIu64 "\n", tick, turn.lab, ended.held, ended.response);
    return tick;
}

/* Goes from tick to tick until no ticket waits, or the last tick is over. */
static void run(nehpudra_gate *gate, nehpudra_row *rows) {
    uint64_t tick = 0;
    while (tick <= NEHPUDRA_LAST_TICK) {
        nehpudra_turn turn = nehpudra_begin(gate, rows, LABS, tick);
        granted(turn.status);
        if (turn.kind == NEHPUDRA_NOTHING) {
            printf("%" PRIu64 ": nothing waits\n", tick);
            return;
        }
        if (turn.kind == NEHPUDRA_WAIT) {
            printf("%" PRIu64 ": wait until %" PRIu64 "\n", tick, turn.until);
            tick = turn.until;
        } else {
            tick = run_one(gate, rows, tick, turn);
        }
    }
}

int main(void) {
    nehpudra_row rows[LABS];
    memset(rows, 0, sizeof rows);
    granted(nehpudra_server_row(&rows[0], 200, 2000, 1000));
    granted(nehpudra_spaced_row(&rows[1], 300));
    nehpudra_gate gate = { 0 };
    granted(nehpudra_new(&gate, NEHPUDRA_CIRCULAR));
    granted(nehpudra_open(&gate, rows, LABS, NEHPUDRA_ARRIVAL));

    file(&gate, rows, 0, 3);
    file(&gate, rows, 0, 1);
    file(&gate, rows, 1, 1);
    file(&gate, rows, 1, 2);
    file(&gate, rows, 2, 1);
    foretell(&gate, rows, 0);
    foretell(&gate, rows, 1);
    run(&gate, rows);
    nehpudra_free(&gate);

    uint8_t out[256];
    nehpudra_told told = nehpudra_play((const uint8_t *)plan, strlen(plan), out, sizeof out);
    granted(told.status);
    printf("the plan plays:\n");
    fwrite(out, 1, told.number, stdout);
    return EXIT_SUCCESS;
}
