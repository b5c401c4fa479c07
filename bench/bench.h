/* What the parts of the comparison share: the setup, a profile with all that is worked on, and the candidates. */
#ifndef BENCH_H
#define BENCH_H

#include <stdbool.h>
#include <stddef.h>
#include <stdint.h>

#include "whaupfield.h"

enum { NODES = WHAUPFIELD_MAX_NODES, ROWS = WHAUPFIELD_MAX_ROWS, COLUMN = WHAUPFIELD_MAX_COLUMN, SIDE = 80 };

/* The two lists of k nodes that are read back from: the last k, and those left where the groups lose a node in turn. */
enum { LAST, SPREAD, LISTS };

/* The sample of a survey: runs of sets, which start evenly over all sets. */
enum { RUNS = 8, RUN = 25 };

/* Everything that is worked on. It is made, with our own calls where it is our code's, before anyone is timed. */
struct setup {
    struct whaupfield_profile p;
    _Alignas(64) uint8_t data[NODES * COLUMN];  /* k columns; to the peers k blocks */
    _Alignas(64) uint8_t array[NODES * COLUMN]; /* the encoded array */
    uint8_t generator[NODES * ROWS * SIDE];     /* for each stored strip the k*a coefficients of the data strips */
    uint8_t kept[LISTS][NODES], missing[LISTS][NODES];
    size_t places; /* how many strips a rebuild reads */
    size_t start[RUNS], most;
    size_t sets, failing; /* how many sets ours looks at in the runs, and how many fail: each ends its run */
    uint8_t set[RUNS * RUN][NODES];
};

extern struct setup setup;
void prepare_setup(struct whaupfield_profile p);

enum job { ENCODE, REBUILD, READ_LAST, READ_SPREAD, SURVEY, JOBS };

/* A way to do a job. `call` does it and returns how often it was done: once, or for each set of the sample.
 * `right` calls it and looks at what comes of it. Both are handed `which`. */
struct candidate {
    enum job job;
    const char *name;
    const char *differs; /* what a peer does differently from ours */
    size_t (*call)(int which);
    bool (*right)(int which);
    int which;
};

/* Each list ends with one without a name. */
extern const struct candidate ours[], isal[], jerasure[];
void prepare_ours(void);
void prepare_isal(void);
void prepare_jerasure(void);

/* At most so many candidates in a job; so many turns, of so many milliseconds at least. */
enum { CANDIDATES = 8, TURNS = 7, TURN = 20 };

/* Times candidates, each once a turn, after a call of each that must be right. Leaves the medians over the turns of
 * each one's microseconds for a piece of work, and of the ratio of these to the first one's. */
void measure(const struct candidate **list, size_t count, double *microseconds, double *ratio);

#endif
