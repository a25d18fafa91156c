/* memcgrun, a simulator of the memory controller of Linux cgroup v2, as a library.
 *
 * A call takes a script or a scenario of memory control groups and runs it over a new device. It gives the answers, a
 * chart, or the result of a check. A call keeps nothing, so several threads may call at the same time. Proved code does
 * the work (crates/memcgrun_c/src/lib.rt has the contracts). The calls below are C over it (library/memcgrun.c), which
 * is tested and not proved. docs/EMBED.md shows callers in C, Rust and Go. */
#ifndef MEMCGRUN_H
#define MEMCGRUN_H

#include <stdbool.h>
#include <stddef.h>
#include <stdint.h>

#ifdef __cplusplus
extern "C" {
#endif

/* The version of this header. */
#define MEMCGRUN_VERSION "0.2.0"

/* The version of the library that the program is linked with. */
const char *memcgrun_version(void);

/* What a call answers. A later version may add more. */
enum memcgrun_status {
    /* The script ran to its end. From memcgrun_check: it also answered what it expects. A command that got too little
     * memory answers NoMemory in out. From memcgrun_simulate: the scenario ran to its end, each of its expectations was
     * met, and no line was refused unexpectedly. From memcgrun_explore: all orders were run, or all of the sample. */
    MEMCGRUN_OK = 0,
    /* Nothing ran: a line of the script or scenario is faulty, or it is longer than 64 MiB. err names the first faulty
     * line and its fault. From memcgrun_simulate: the scenario may have run up to the line, if the fault is the size of a
     * page that a list with until left open. From memcgrun_explore: the script may also have no work or too many actors,
     * or a line of its setup failed. */
    MEMCGRUN_BAD_SCRIPT = 1,
    /* There was too little memory. out has the beginning of the answers, or nothing. err may have the beginning of a
     * line that says what the memory was for. */
    MEMCGRUN_NO_MEMORY = 2,
    /* With strict: a line was refused, and the run ended there. out has all answers up to and including that line's.
     * err says which line it was, and why. */
    MEMCGRUN_REFUSED = 3,
    /* From memcgrun_check: the script ran, and its answers differ from those that it expects. out names the first
     * difference. From memcgrun_simulate: the scenario ran, and a line was refused or an expectation was not met. out
     * says which. From memcgrun_explore: not all orders were run. out has the outcomes of those that were, and err says
     * which limit ended it. */
    MEMCGRUN_DIFFERS = 4,
    /* Nothing ran: the options are not valid, or the call does not take one of them, or they name nothing in the
     * scenario. From memcgrun_explore: there may be no outcome of the number in show. err says which. */
    MEMCGRUN_BAD_OPTIONS = 5
};

/* What a caller may ask for in addition to the answers. Every default is 0, also for each member that a later version
 * adds. Set only what differs, as in
 *
 *     struct memcgrun_options options = MEMCGRUN_OPTIONS_INIT;
 *     options.strict = true;
 *
 * or set size to sizeof(struct memcgrun_options) and all other bytes to 0. A null pointer to options asks for the
 * defaults.
 *
 * size says which version of this header the program was compiled with. A newer library sets the members that the
 * program does not have to their defaults. An older library accepts members that it does not have if they are 0, and
 * answers MEMCGRUN_BAD_OPTIONS otherwise. */
struct memcgrun_options {
    size_t size;
    uint32_t turns;      /* the most turns that a line takes before it answers `turn limit` (--turns); 0 means 1,000 */
    bool labels;         /* put the number and the words of its line before each line of an answer (--labels) */
    bool strict;         /* end the run at the first line that is refused: MEMCGRUN_REFUSED (--strict) */
    bool as_linux;       /* place pages that are read in as Linux does, instead of by memcgrun's own rule (--as-linux) */
    bool explain;        /* say in err why each line was refused and each task killed, and more of a faulty line (--explain) */
    bool quiet;          /* leave out the bytes that tasks read, and the lines of killed tasks (--quiet) */
    bool summary;        /* say at the end of err how much was done (--summary) */
    uint8_t reserved[6]; /* 0 */
};

#define MEMCGRUN_OPTIONS_INIT {sizeof(struct memcgrun_options), 1000, false, false, false, false, false, false, {0, 0, 0, 0, 0, 0}}

/* ---- Calls that allocate their texts */

/* Bytes that the library allocated with malloc, followed by a 0 that len does not count. */
struct memcgrun_text {
    uint8_t *bytes;
    size_t len;
};

/* Runs a script, as `memcgrun schedule` does, with any options. out gets the answers, one per line. err gets what
 * explain and summary ask for. If the status is neither MEMCGRUN_OK nor MEMCGRUN_NO_MEMORY, err then gets all of the
 * lines that say why. The script may be null if its length is 0.
 *
 * The caller gives both texts to memcgrun_text_free, whatever the status is. After MEMCGRUN_NO_MEMORY their bytes may
 * be null. */
enum memcgrun_status memcgrun_schedule(const uint8_t *script, size_t script_len, const struct memcgrun_options *options,
                                       struct memcgrun_text *out, struct memcgrun_text *err);

/* Draws the same run, as `memcgrun chart` does. out gets the memory that each group was charged with after each line:
 * with table as comma-separated values, and otherwise as a picture, SVG. Takes the options turns, as_linux and explain.
 * Nothing is drawn unless the status is MEMCGRUN_OK. */
enum memcgrun_status memcgrun_chart(const uint8_t *script, size_t script_len, const struct memcgrun_options *options, bool table,
                                    struct memcgrun_text *out, struct memcgrun_text *err);

/* Compares the answers of a script with those that its lines `#> ..` expect, as `memcgrun check` does. out gets one
 * line with the result, if there is one. Takes the option as_linux. */
enum memcgrun_status memcgrun_check(const uint8_t *script, size_t script_len, const struct memcgrun_options *options,
                                    struct memcgrun_text *out, struct memcgrun_text *err);

/* Frees a text and leaves it empty, so that a second call does nothing. */
void memcgrun_text_free(struct memcgrun_text *text);

/* ---- Scenarios
 *
 * A scenario is a shorter form of a script, with sizes, names and loops. docs/SCENARIOS.md defines it. */

/* What memcgrun_simulate prints. A later version may add more. */
enum memcgrun_prints {
    /* Who is killed, what is refused, tables and expectations, as lines for a reader. */
    MEMCGRUN_REPORT = 0,
    /* A picture of the run, SVG (--chart). */
    MEMCGRUN_CHART = 1,
    /* A row for each line of the scenario and each group, as comma-separated values (--csv). */
    MEMCGRUN_CSV = 2,
    /* An object for each row and each event, one a line (--json). */
    MEMCGRUN_JSON = 3
};

/* What a caller may ask for. Every default is 0, and size says which version of this header the program was compiled
 * with, as in struct memcgrun_options. */
struct memcgrun_scenario_options {
    size_t size;
    const char *settings; /* texts NAME=WORD, one a line: WORD replaces that of each `let NAME` (--set); may be null */
    const char *groups;   /* paths, one a line: rows are of these groups only (--groups); null means all; simulate */
    const uint64_t *cuts; /* the lengths of the lists with until (--cuts); may be null if cuts_len is 0; expand */
    size_t cuts_len;      /* how many lengths there are */
    uint32_t prints;      /* an enum memcgrun_prints; simulate */
    uint32_t every;       /* each row of this number is printed (--every); 0 means 1; simulate */
    uint32_t depth;       /* rows are of groups at most this many levels below the root (--depth); 0: any; simulate */
    bool go_on;           /* go on after a line that is refused (--go-on); simulate */
    uint8_t reserved[11]; /* 0 */
};

#define MEMCGRUN_SCENARIO_OPTIONS_INIT \
    {sizeof(struct memcgrun_scenario_options), NULL, NULL, NULL, 0, 0, 0, 0, false, {0, 0, 0, 0, 0, 0, 0, 0, 0, 0, 0}}

/* Runs a scenario, as `memcgrun simulate` does. out gets what prints asks for. err gets a line if the status is neither
 * MEMCGRUN_OK nor MEMCGRUN_DIFFERS: `scenario:LINE:COLUMN: TEXT` for a fault. Otherwise it is empty. A run may take
 * long: each of up to 1,000,000 rounds of a loop is carried out. */
enum memcgrun_status memcgrun_simulate(const uint8_t *scenario, size_t scenario_len, const struct memcgrun_scenario_options *options,
                                       struct memcgrun_text *out, struct memcgrun_text *err);

/* Prints the script of a scenario, as `memcgrun expand` does. Takes the options settings and cuts. Nothing is printed
 * unless the status is MEMCGRUN_OK. */
enum memcgrun_status memcgrun_expand(const uint8_t *scenario, size_t scenario_len, const struct memcgrun_scenario_options *options,
                                     struct memcgrun_text *out, struct memcgrun_text *err);

/* ---- Every order
 *
 * What can happen if a script's commands run at the same time. docs/EXPLORE.md says how such a script is written. */

/* What a caller may ask for. Every default is 0, and size says which version of this header the program was compiled
 * with, as in struct memcgrun_options. */
struct memcgrun_explore_options {
    size_t size;
    uint64_t orders;      /* the most orders that are run (--orders); 0 means 100,000 */
    uint64_t sample;      /* run this number of orders, drawn at random (--sample); 0 means all orders */
    uint64_t seed;        /* the same seed draws the same sample (--seed) */
    uint64_t show;        /* give the first order with the outcome of this number as a script (--show); 0: list them */
    uint32_t turns;       /* the most turns of an order (--turns); 0 means 1,000 */
    bool as_linux;        /* place pages that are read in as Linux does, instead of by memcgrun's own rule (--as-linux) */
    bool every;           /* run also the orders in which other turns come before a call of the device (--every) */
    bool wait;            /* leave out the orders in which a command of the work is answered `busy` (--wait) */
    uint8_t reserved[9];  /* 0 */
};

#define MEMCGRUN_EXPLORE_OPTIONS_INIT \
    {sizeof(struct memcgrun_explore_options), 0, 0, 0, 0, 0, false, false, false, {0, 0, 0, 0, 0, 0, 0, 0, 0}}

/* Runs a script's work in the orders of its turns in which calls of the device come first, in every order, or in those
 * of a sample, as `memcgrun explore` does. Every order has an outcome of one with calls of the device first. out gets
 * the outcomes, each with the number of its orders. With show it gets a script for memcgrun_schedule, which expects its
 * answers. err gets a line if the status is not MEMCGRUN_OK. A run may take long: 100,000 orders take some seconds. */
enum memcgrun_status memcgrun_explore(const uint8_t *script, size_t script_len, const struct memcgrun_explore_options *options,
                                      struct memcgrun_text *out, struct memcgrun_text *err);

/* ---- The same calls into buffers of the caller */

/* The numbers of bytes of both texts. A buffer may have taken only the first of these bytes. */
struct memcgrun_lengths {
    size_t out;
    size_t err;
};

/* Each call writes into a buffer all bytes that it has room for. It changes nothing after them, and adds no 0. It sets
 * lengths to the full numbers of bytes. If a buffer is too short, call again with more room: the same script and
 * options give the same bytes, and so do the same scenario and options.
 *
 * The script, the scenario and the buffers may be null if their lengths are 0. lengths must not be null, and no two of the memories
 * may overlap: nothing checks that. */
enum memcgrun_status memcgrun_schedule_into(const uint8_t *script, size_t script_len, const struct memcgrun_options *options,
                                            uint8_t *out, size_t out_len, uint8_t *err, size_t err_len,
                                            struct memcgrun_lengths *lengths);
enum memcgrun_status memcgrun_chart_into(const uint8_t *script, size_t script_len, const struct memcgrun_options *options, bool table,
                                         uint8_t *out, size_t out_len, uint8_t *err, size_t err_len,
                                         struct memcgrun_lengths *lengths);
enum memcgrun_status memcgrun_check_into(const uint8_t *script, size_t script_len, const struct memcgrun_options *options,
                                         uint8_t *out, size_t out_len, uint8_t *err, size_t err_len,
                                         struct memcgrun_lengths *lengths);
enum memcgrun_status memcgrun_simulate_into(const uint8_t *scenario, size_t scenario_len,
                                            const struct memcgrun_scenario_options *options,
                                            uint8_t *out, size_t out_len, uint8_t *err, size_t err_len,
                                            struct memcgrun_lengths *lengths);
enum memcgrun_status memcgrun_expand_into(const uint8_t *scenario, size_t scenario_len,
                                          const struct memcgrun_scenario_options *options,
                                          uint8_t *out, size_t out_len, uint8_t *err, size_t err_len,
                                          struct memcgrun_lengths *lengths);
enum memcgrun_status memcgrun_explore_into(const uint8_t *script, size_t script_len,
                                           const struct memcgrun_explore_options *options,
                                           uint8_t *out, size_t out_len, uint8_t *err, size_t err_len,
                                           struct memcgrun_lengths *lengths);

#ifdef __cplusplus
}
#endif
#endif
