/* The calls of memcgrun.h over the proved functions. They read the options, and allocate the texts. No proof covers
 * this file. */
#include "memcgrun.h"

#include <stdlib.h>

/* ---- the proved functions. crates/memcgrun_c/src/lib.rt has their contracts
 *
 * No program calls them: what is declared here may change with any version. Their caller has to keep what no contract
 * can ask of C. No pointer is null, even if its length is 0; no two of the memories overlap; each length is below 2^63;
 * and each bool is 0 or 1. */

struct memcgrun_proved_asked {
    uint32_t turns;
    bool labels;
    bool strict;
    bool as_linux;
    bool explain;
    bool quiet;
    bool summary;
};

struct memcgrun_proved_scenario_asked {
    uint32_t prints;
    uint32_t every;
    uint32_t depth;
    bool go_on;
};

struct memcgrun_proved_explore_asked {
    uint64_t orders;
    uint64_t sample;
    uint64_t seed;
    uint64_t show;
    uint32_t turns;
    bool as_linux;
    bool every;
    bool wait;
};

/* They answer a status of memcgrun.h. */
uint8_t memcgrun_proved_schedule(const uint8_t *script, size_t script_len, const struct memcgrun_proved_asked *asked,
                                 uint8_t *out, size_t out_len, uint8_t *err, size_t err_len,
                                 struct memcgrun_lengths *lengths);
uint8_t memcgrun_proved_chart(const uint8_t *script, size_t script_len, const struct memcgrun_proved_asked *asked, bool table,
                              uint8_t *out, size_t out_len, uint8_t *err, size_t err_len,
                              struct memcgrun_lengths *lengths);
uint8_t memcgrun_proved_check(const uint8_t *script, size_t script_len, bool as_linux,
                              uint8_t *out, size_t out_len, uint8_t *err, size_t err_len,
                              struct memcgrun_lengths *lengths);
uint8_t memcgrun_proved_simulate(const uint8_t *text, size_t text_len, const uint8_t *settings, size_t settings_len,
                                 const uint8_t *groups, size_t groups_len, const struct memcgrun_proved_scenario_asked *asked,
                                 uint8_t *out, size_t out_len, uint8_t *err, size_t err_len,
                                 struct memcgrun_lengths *lengths);
uint8_t memcgrun_proved_expand(const uint8_t *text, size_t text_len, const uint8_t *settings, size_t settings_len,
                               const uint64_t *cuts, size_t cuts_len,
                               uint8_t *out, size_t out_len, uint8_t *err, size_t err_len,
                               struct memcgrun_lengths *lengths);
uint8_t memcgrun_proved_explore(const uint8_t *script, size_t script_len, const struct memcgrun_proved_explore_asked *asked,
                                uint8_t *out, size_t out_len, uint8_t *err, size_t err_len,
                                struct memcgrun_lengths *lengths);

/* ---- the arguments of the calls */

/* The first run's room, which few runs exceed. Pages of it that are not written to cost nothing. */
enum { OUT_ROOM = 1 << 16, OUT_ROOM_EACH = 16, LONG_ROOM = 1 << 20, ERR_ROOM = 2048 };

/* The largest size of options that is read: a larger one is not a size. */
enum { MOST_OPTIONS = 4096 };

enum { USUAL_TURNS = 1000, USUAL_ORDERS = 100000 };

enum call { SCHEDULE, CHART, CHECK, SIMULATE, EXPAND, EXPLORE };

static const char *const names[] = {"schedule", "chart", "check", "simulate", "expand", "explore"};

/* A call, with its arguments. */
struct run {
    enum call call;
    const uint8_t *script; /* or a scenario */
    size_t len;
    const struct memcgrun_options *options;
    const struct memcgrun_scenario_options *scenario_options;
    const struct memcgrun_explore_options *explore_options;
    bool table;
};

const char *memcgrun_version(void)
{
    return MEMCGRUN_VERSION;
}

/* ---- options */

/* A line that says what is wrong with the options. */
struct line {
    char bytes[128];
    size_t len;
};

static void add(struct line *line, const char *text)
{
    while (*text && line->len < sizeof line->bytes)
        line->bytes[line->len++] = *text++;
}

static bool refuse(struct line *line, const char *why, const char *name, const char *end)
{
    add(line, "options: ");
    add(line, why);
    add(line, name);
    add(line, end);
    add(line, "\n");
    return false;
}

/* A bool of the options, by its place. It is read as a byte, since a caller in another language may have left any byte
 * there. */
struct flag {
    size_t at;
    const char *name;
    bool is_charts; /* memcgrun_chart takes it */
    bool is_checks;
};

#define FLAG(name, is_charts, is_checks) {offsetof(struct memcgrun_options, name), #name, is_charts, is_checks}

static const struct flag flags[] = {
    FLAG(labels, false, false), FLAG(strict, false, false), FLAG(as_linux, true, true),
    FLAG(explain, true, false), FLAG(quiet, false, false), FLAG(summary, false, false),
};

/* The structs have no padding. Each of their bytes has a meaning, or is reserved. */
#define ENDS_WITH_RESERVED(options) (sizeof(options) == offsetof(options, reserved) + sizeof((options){0}.reserved))
_Static_assert(ENDS_WITH_RESERVED(struct memcgrun_options), "a member after reserved, or padding");
_Static_assert(ENDS_WITH_RESERVED(struct memcgrun_scenario_options), "a member after reserved, or padding");
_Static_assert(ENDS_WITH_RESERVED(struct memcgrun_explore_options), "a member after reserved, or padding");

static bool takes(enum call call, const struct flag *flag)
{
    return call == SCHEDULE || (call == CHART ? flag->is_charts : flag->is_checks);
}

/* A struct of options: its name, the least size that a caller's version has, and where its reserved bytes are. */
struct layout {
    const char *name;
    size_t least;
    size_t reserved;
};

static const struct layout script_layout = {"struct memcgrun_options", offsetof(struct memcgrun_options, labels),
                                            offsetof(struct memcgrun_options, reserved)};
static const struct layout scenario_layout = {"struct memcgrun_scenario_options", offsetof(struct memcgrun_scenario_options, reserved),
                                              offsetof(struct memcgrun_scenario_options, reserved)};
static const struct layout explore_layout = {"struct memcgrun_explore_options", offsetof(struct memcgrun_explore_options, wait),
                                             offsetof(struct memcgrun_explore_options, reserved)};

/* Reads the bytes that the caller's version of the options has, which begin with their number. Those that it lacks are
 * 0, their default. Those that this version lacks have to be 0. */
static bool copy_options(const void *given, void *options, const struct layout *layout, struct line *line)
{
    const uint8_t *from = given;
    uint8_t *to = options;
    size_t size = *(const size_t *)given;
    if (size < layout->least || size > MOST_OPTIONS)
        return refuse(line, "size is not sizeof(", layout->name, ")");
    for (size_t at = 0; at < size; at++) {
        if (at < layout->reserved)
            to[at] = from[at];
        else if (from[at])
            return refuse(line, "a member is set that version ", MEMCGRUN_VERSION, " does not have");
    }
    return true;
}

static bool read_options(const struct run *run, struct memcgrun_proved_asked *asked, struct line *line)
{
    struct memcgrun_options options = {0};
    if (run->options && !copy_options(run->options, &options, &script_layout, line))
        return false;
    for (size_t i = 0; i < sizeof flags / sizeof *flags; i++) {
        uint8_t flag = ((const uint8_t *)&options)[flags[i].at];
        if (flag > 1)
            return refuse(line, flags[i].name, " is neither 0 nor 1", "");
        if (flag && !takes(run->call, &flags[i]))
            return refuse(line, names[run->call], " does not take ", flags[i].name);
    }
    if (!options.turns)
        options.turns = USUAL_TURNS;
    if (options.turns != USUAL_TURNS && run->call == CHECK)
        return refuse(line, names[run->call], " does not take ", "turns");
    *asked = (struct memcgrun_proved_asked){options.turns, options.labels, options.strict, options.as_linux,
                                            options.explain, options.quiet, options.summary};
    return true;
}

/* The first member that is set and that memcgrun_expand does not take, or null. */
static const char *only_simulated(const struct memcgrun_scenario_options *options, bool goes_on)
{
    return options->groups ? "groups" : options->prints ? "prints" : options->every ? "every"
        : options->depth   ? "depth" : goes_on          ? "go_on" : NULL;
}

static bool read_scenario_options(const struct run *run, struct memcgrun_scenario_options *options, struct line *line)
{
    uint8_t go_on;
    const char *other;
    *options = (struct memcgrun_scenario_options){0};
    if (run->scenario_options && !copy_options(run->scenario_options, options, &scenario_layout, line))
        return false;
    go_on = ((const uint8_t *)options)[offsetof(struct memcgrun_scenario_options, go_on)];
    if (go_on > 1)
        return refuse(line, "go_on", " is neither 0 nor 1", "");
    if (options->prints > MEMCGRUN_JSON)
        return refuse(line, "prints", " is not an enum memcgrun_prints", "");
    other = run->call == EXPAND ? only_simulated(options, go_on) : options->cuts_len ? "cuts" : NULL;
    if (other)
        return refuse(line, names[run->call], " does not take ", other);
    return true;
}

static bool read_explore_options(const struct run *run, struct memcgrun_proved_explore_asked *asked, struct line *line)
{
    struct memcgrun_explore_options options = {0};
    uint8_t as_linux, every, wait;
    if (run->explore_options && !copy_options(run->explore_options, &options, &explore_layout, line))
        return false;
    as_linux = ((const uint8_t *)&options)[offsetof(struct memcgrun_explore_options, as_linux)];
    every = ((const uint8_t *)&options)[offsetof(struct memcgrun_explore_options, every)];
    wait = ((const uint8_t *)&options)[offsetof(struct memcgrun_explore_options, wait)];
    if (as_linux > 1 || every > 1 || wait > 1)
        return refuse(line, as_linux > 1 ? "as_linux" : every > 1 ? "every" : "wait", " is neither 0 nor 1", "");
    if (options.seed && !options.sample)
        return refuse(line, "seed", " is set without a sample", "");
    if (options.orders && options.sample)
        return refuse(line, "orders", " is set with a sample", "");
    *asked = (struct memcgrun_proved_explore_asked){options.orders ? options.orders : USUAL_ORDERS, options.sample, options.seed,
                                                    options.show, options.turns ? options.turns : USUAL_TURNS, as_linux, every,
                                                    wait};
    return true;
}

/* ---- one run */

/* The proved functions take no null pointer, even if the length is 0, and no length from 2^63 on. */
static uint8_t nowhere[5];
static const uint64_t no_cuts[1];

static size_t bounded(size_t len)
{
    return len < SIZE_MAX / 2 ? len : SIZE_MAX / 2;
}

static size_t length_of(const char *text)
{
    size_t len = 0;
    while (text && text[len])
        len++;
    return len;
}

static const uint8_t *bytes_of(const char *text, const uint8_t *none)
{
    return text ? (const uint8_t *)text : none;
}

/* The options of a call, which takes one of the structs. */
struct asked {
    struct memcgrun_proved_asked script;
    struct memcgrun_scenario_options scenario;
    struct memcgrun_proved_explore_asked explore;
};

static bool read_asked(const struct run *run, struct asked *asked, struct line *line)
{
    bool is_scenario = run->call == SIMULATE || run->call == EXPAND;
    return is_scenario             ? read_scenario_options(run, &asked->scenario, line)
        : run->call == EXPLORE ? read_explore_options(run, &asked->explore, line)
                               : read_options(run, &asked->script, line);
}

static enum memcgrun_status once(const struct run *run, uint8_t *out, size_t out_len, uint8_t *err, size_t err_len,
                                 struct memcgrun_lengths *lengths)
{
    struct asked asked;
    struct memcgrun_proved_scenario_asked simulated;
    struct line line = {.len = 0};
    const struct memcgrun_scenario_options *scenario = &asked.scenario;
    const uint8_t *script = run->len ? run->script : &nowhere[0];
    size_t len = bounded(run->len);
    out = out_len ? out : &nowhere[1];
    err = err_len ? err : &nowhere[2];
    out_len = bounded(out_len);
    err_len = bounded(err_len);
    if (!read_asked(run, &asked, &line)) {
        for (size_t i = 0; i < line.len && i < err_len; i++)
            err[i] = (uint8_t)line.bytes[i];
        *lengths = (struct memcgrun_lengths){0, line.len};
        return MEMCGRUN_BAD_OPTIONS;
    }
    switch (run->call) {
    case SCHEDULE:
        return memcgrun_proved_schedule(script, len, &asked.script, out, out_len, err, err_len, lengths);
    case CHART:
        return memcgrun_proved_chart(script, len, &asked.script, run->table, out, out_len, err, err_len, lengths);
    case CHECK:
        return memcgrun_proved_check(script, len, asked.script.as_linux, out, out_len, err, err_len, lengths);
    case SIMULATE:
        simulated = (struct memcgrun_proved_scenario_asked){scenario->prints, scenario->every, scenario->depth, scenario->go_on};
        return memcgrun_proved_simulate(script, len, bytes_of(scenario->settings, &nowhere[3]), length_of(scenario->settings),
                                        bytes_of(scenario->groups, &nowhere[4]), length_of(scenario->groups), &simulated,
                                        out, out_len, err, err_len, lengths);
    case EXPLORE:
        return memcgrun_proved_explore(script, len, &asked.explore, out, out_len, err, err_len, lengths);
    default:
        return memcgrun_proved_expand(script, len, bytes_of(scenario->settings, &nowhere[3]), length_of(scenario->settings),
                                      scenario->cuts_len ? scenario->cuts : no_cuts, bounded(scenario->cuts_len),
                                      out, out_len, err, err_len, lengths);
    }
}

enum memcgrun_status memcgrun_schedule_into(const uint8_t *script, size_t script_len, const struct memcgrun_options *options,
                                            uint8_t *out, size_t out_len, uint8_t *err, size_t err_len,
                                            struct memcgrun_lengths *lengths)
{
    struct run run = {.call = SCHEDULE, .script = script, .len = script_len, .options = options};
    return once(&run, out, out_len, err, err_len, lengths);
}

enum memcgrun_status memcgrun_chart_into(const uint8_t *script, size_t script_len, const struct memcgrun_options *options, bool table,
                                         uint8_t *out, size_t out_len, uint8_t *err, size_t err_len,
                                         struct memcgrun_lengths *lengths)
{
    struct run run = {.call = CHART, .script = script, .len = script_len, .options = options, .table = table};
    return once(&run, out, out_len, err, err_len, lengths);
}

enum memcgrun_status memcgrun_check_into(const uint8_t *script, size_t script_len, const struct memcgrun_options *options,
                                         uint8_t *out, size_t out_len, uint8_t *err, size_t err_len,
                                         struct memcgrun_lengths *lengths)
{
    struct run run = {.call = CHECK, .script = script, .len = script_len, .options = options};
    return once(&run, out, out_len, err, err_len, lengths);
}

enum memcgrun_status memcgrun_simulate_into(const uint8_t *scenario, size_t scenario_len,
                                            const struct memcgrun_scenario_options *options,
                                            uint8_t *out, size_t out_len, uint8_t *err, size_t err_len,
                                            struct memcgrun_lengths *lengths)
{
    struct run run = {.call = SIMULATE, .script = scenario, .len = scenario_len, .scenario_options = options};
    return once(&run, out, out_len, err, err_len, lengths);
}

enum memcgrun_status memcgrun_expand_into(const uint8_t *scenario, size_t scenario_len,
                                          const struct memcgrun_scenario_options *options,
                                          uint8_t *out, size_t out_len, uint8_t *err, size_t err_len,
                                          struct memcgrun_lengths *lengths)
{
    struct run run = {.call = EXPAND, .script = scenario, .len = scenario_len, .scenario_options = options};
    return once(&run, out, out_len, err, err_len, lengths);
}

enum memcgrun_status memcgrun_explore_into(const uint8_t *script, size_t script_len,
                                           const struct memcgrun_explore_options *options,
                                           uint8_t *out, size_t out_len, uint8_t *err, size_t err_len,
                                           struct memcgrun_lengths *lengths)
{
    struct run run = {.call = EXPLORE, .script = script, .len = script_len, .explore_options = options};
    return once(&run, out, out_len, err, err_len, lengths);
}

/* ---- texts */

static bool room(struct memcgrun_text *text, size_t len)
{
    text->bytes = len < SIZE_MAX ? malloc(len + 1) : NULL;
    return text->bytes != NULL;
}

static void end(struct memcgrun_text *text, size_t len)
{
    text->len = len;
    text->bytes[len] = 0;
}

void memcgrun_text_free(struct memcgrun_text *text)
{
    free(text->bytes);
    text->bytes = NULL;
    text->len = 0;
}

/* A run that needs more room than there was is repeated. It may then need even more: memory that it did not get the
 * first time it may get now. */
static enum memcgrun_status texts_of(const struct run *run, struct memcgrun_text *out, struct memcgrun_text *err)
{
    struct memcgrun_lengths has = {OUT_ROOM, ERR_ROOM}, wanted;
    *out = *err = (struct memcgrun_text){0};
    if (run->len < SIZE_MAX / OUT_ROOM_EACH - OUT_ROOM)
        has.out += OUT_ROOM_EACH * run->len;
    if (run->call == SIMULATE || run->call == EXPLORE)
        has.out += LONG_ROOM;
    while (room(out, has.out) && room(err, has.err)) {
        enum memcgrun_status status = once(run, out->bytes, has.out, err->bytes, has.err, &wanted);
        if (wanted.out <= has.out && wanted.err <= has.err) {
            end(out, wanted.out);
            end(err, wanted.err);
            return status;
        }
        memcgrun_text_free(out);
        memcgrun_text_free(err);
        has.out = wanted.out > has.out ? wanted.out : has.out;
        has.err = wanted.err > has.err ? wanted.err : has.err;
    }
    memcgrun_text_free(out);
    memcgrun_text_free(err);
    return MEMCGRUN_NO_MEMORY;
}

enum memcgrun_status memcgrun_schedule(const uint8_t *script, size_t script_len, const struct memcgrun_options *options,
                                       struct memcgrun_text *out, struct memcgrun_text *err)
{
    struct run run = {.call = SCHEDULE, .script = script, .len = script_len, .options = options};
    return texts_of(&run, out, err);
}

enum memcgrun_status memcgrun_chart(const uint8_t *script, size_t script_len, const struct memcgrun_options *options, bool table,
                                    struct memcgrun_text *out, struct memcgrun_text *err)
{
    struct run run = {.call = CHART, .script = script, .len = script_len, .options = options, .table = table};
    return texts_of(&run, out, err);
}

enum memcgrun_status memcgrun_check(const uint8_t *script, size_t script_len, const struct memcgrun_options *options,
                                    struct memcgrun_text *out, struct memcgrun_text *err)
{
    struct run run = {.call = CHECK, .script = script, .len = script_len, .options = options};
    return texts_of(&run, out, err);
}

enum memcgrun_status memcgrun_simulate(const uint8_t *scenario, size_t scenario_len, const struct memcgrun_scenario_options *options,
                                       struct memcgrun_text *out, struct memcgrun_text *err)
{
    struct run run = {.call = SIMULATE, .script = scenario, .len = scenario_len, .scenario_options = options};
    return texts_of(&run, out, err);
}

enum memcgrun_status memcgrun_expand(const uint8_t *scenario, size_t scenario_len, const struct memcgrun_scenario_options *options,
                                     struct memcgrun_text *out, struct memcgrun_text *err)
{
    struct run run = {.call = EXPAND, .script = scenario, .len = scenario_len, .scenario_options = options};
    return texts_of(&run, out, err);
}

enum memcgrun_status memcgrun_explore(const uint8_t *script, size_t script_len, const struct memcgrun_explore_options *options,
                                      struct memcgrun_text *out, struct memcgrun_text *err)
{
    struct run run = {.call = EXPLORE, .script = script, .len = script_len, .explore_options = options};
    return texts_of(&run, out, err);
}
