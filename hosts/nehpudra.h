/* An import gate for one write lock, and the playing of plans. docs/HOSTS.md says how to build and link it; docs/RULES.md has the rules.
 *
 * Every number may be of any size and every table of any length, and every call returns. A denied call changes nothing.
 *
 * No pointer may be NULL, also where a length of 0 stands beside it, and what two pointers of one call reach may not overlap. */
#ifndef NEHPUDRA_H
#define NEHPUDRA_H

#include <stddef.h>
#include <stdint.h>

#ifdef __cplusplus
extern "C" {
#endif

#define NEHPUDRA_LAST_TICK UINT64_C(1000000000000) /* as the due tick of an import: none */
#define NEHPUDRA_MOST_LABS 64
#define NEHPUDRA_MOST_WAITING 16 /* tickets of one lab */

/* How a call went: 0 is granted, 1 to 16 are the refusals of docs/RULES.md, and 17 and 18 are the library's own. A call of a gate that is not
 * there is answered by 17, before anything else is asked; only nehpudra_new and nehpudra_play answer 18. */
#define NEHPUDRA_GRANTED 0
#define NEHPUDRA_LIST_TOO_SHORT 16
#define NEHPUDRA_NO_GATE 17
#define NEHPUDRA_NO_MEMORY 18

/* The budget row of one lab. The host keeps a table of them, one for each lab, and brings it to each call; the library keeps no pointer to it.
 * A host may store anything here: a number out of its range is read as the nearest lawful one. */
typedef struct {
    uint64_t rule;      /* 0: a server row, else a spaced row */
    uint64_t rate;      /* thousandths of a tick per tick */
    uint64_t ceiling;   /* of a server row: thousandths of a tick, as the next two */
    uint64_t threshold;
    int64_t level;
    uint64_t able;      /* of a server row: a mark, 0 for no, else yes */
    uint64_t left;      /* of a spaced row: ticks left of the pause */
} nehpudra_row;

/* A gate, which lies on the heap. It begins as { 0 }, is written by the library alone, and may be moved but not copied. It stays on the
 * thread that made it. */
typedef struct {
    uint8_t full;
    void *at;
} nehpudra_gate;

/* A number, where status is 0. */
typedef struct {
    uint64_t status;
    uint64_t number;
} nehpudra_told;

#define NEHPUDRA_NOTHING 0 /* no ticket waits */
#define NEHPUDRA_WAIT 1    /* tickets wait, and none can begin before `until`, which may be above the last tick */
#define NEHPUDRA_BEGAN 2   /* the import of `lab` has begun, by the ticket with this number; `length` is its declared length */

/* Whose turn it is, where status is 0. Fields that a kind does not name are 0. */
typedef struct {
    uint64_t status;
    uint64_t kind;
    uint64_t until;
    uint64_t lab;
    uint64_t number;
    uint64_t length;
} nehpudra_turn;

/* What has ended, where status is 0: the ticket's number, the ticks that the lock was held, and the response time. Else these are 0. */
typedef struct {
    uint64_t status;
    uint64_t number;
    uint64_t held;
    uint64_t response;
} nehpudra_ended;

/* What an outlook tells of a ticket: its number, and the ticks for which its import would hold the lock. */
typedef struct {
    uint64_t number;
    uint64_t start;
    uint64_t end;
} nehpudra_entry;

/* Makes a row as its beginning. Answers 0, or the refusal, 1 to 3, and then the row is as before. */
uint64_t nehpudra_server_row(nehpudra_row *row, uint64_t rate, uint64_t ceiling, uint64_t threshold);
uint64_t nehpudra_spaced_row(nehpudra_row *row, uint64_t rate);

#define NEHPUDRA_CIRCULAR 0
#define NEHPUDRA_LONGEST_UNSERVED 1

/* Makes a gate that is still to be opened, with circular turns where `turns` is 0, and else with longest-unserved turns. A gate that was
 * there is freed. Answers 0, or NEHPUDRA_NO_MEMORY, and then the gate is as before. */
uint64_t nehpudra_new(nehpudra_gate *gate, uint64_t turns);

/* Frees a gate, if there is one. */
void nehpudra_free(nehpudra_gate *gate);

#define NEHPUDRA_ARRIVAL 0
#define NEHPUDRA_DUE 1
#define NEHPUDRA_SHORT 2

/* Begins anew: rows restart, the clock is at 0, the lock is free and no ticket waits. Tickets wait in the order of arrival where `order` is
 * 0, by due tick where it is 1, and else the shortest first. */
uint64_t nehpudra_open(nehpudra_gate *gate, nehpudra_row *rows, size_t labs, uint64_t order);

/* A lab files an import; a due tick of NEHPUDRA_LAST_TICK stands for none. Tells its ticket's number. */
nehpudra_told nehpudra_file(nehpudra_gate *gate, nehpudra_row *rows, size_t labs, uint64_t tick, uint64_t lab, uint64_t length, uint64_t due);

/* Takes out a waiting ticket. Tells its lab. */
nehpudra_told nehpudra_withdraw(nehpudra_gate *gate, nehpudra_row *rows, size_t labs, uint64_t tick, uint64_t number);

/* Begins the next import, if one can begin. */
nehpudra_turn nehpudra_begin(nehpudra_gate *gate, nehpudra_row *rows, size_t labs, uint64_t tick);

/* Frees the lock. */
nehpudra_ended nehpudra_end(nehpudra_gate *gate, nehpudra_row *rows, size_t labs, uint64_t tick);

/* Foretells when a lab's waiting tickets will run, in the first of the `places` entries of `list`. Tells how many they are. The
 * gate is taken as one to write, but it and the rows stay as they are. */
nehpudra_told nehpudra_outlook(nehpudra_gate *gate, const nehpudra_row *rows, size_t labs, uint64_t lab, nehpudra_entry *list, size_t places);

/* Plays a plan, and writes what is printed at the head of `out`. Tells how many bytes that is. If `room` is less, the status is
 * NEHPUDRA_LIST_TOO_SHORT, the number is told all the same, and nothing is written; else it is 0, or NEHPUDRA_NO_MEMORY. */
nehpudra_told nehpudra_play(const uint8_t *plan, size_t length, uint8_t *out, size_t room);

#ifdef __cplusplus
}
#endif

#endif
