/* What the page calls: the calls of library/memcgrun.c, with arguments that JavaScript can give. No proof covers this
 * file. */
#include <memcgrun.h>

/* The bits of flags, as memcgrun.js sets them. */
enum { LABELS = 1, STRICT = 2, AS_LINUX = 4, EXPLAIN = 8, QUIET = 16, SUMMARY = 32 };
enum { GO_ON = 1 };
enum { EXPLORE_AS_LINUX = 1, EVERY = 2, WAIT = 4 };

static struct memcgrun_options options_of(uint32_t turns, uint32_t flags)
{
    struct memcgrun_options options = MEMCGRUN_OPTIONS_INIT;
    options.turns = turns;
    options.labels = flags & LABELS;
    options.strict = flags & STRICT;
    options.as_linux = flags & AS_LINUX;
    options.explain = flags & EXPLAIN;
    options.quiet = flags & QUIET;
    options.summary = flags & SUMMARY;
    return options;
}

int page_schedule(const uint8_t *script, size_t len, uint32_t turns, uint32_t flags, struct memcgrun_text texts[2])
{
    struct memcgrun_options options = options_of(turns, flags);
    return (int)memcgrun_schedule(script, len, &options, &texts[0], &texts[1]);
}

int page_chart(const uint8_t *script, size_t len, uint32_t turns, uint32_t flags, struct memcgrun_text texts[2])
{
    struct memcgrun_options options = options_of(turns, flags);
    return (int)memcgrun_chart(script, len, &options, false, &texts[0], &texts[1]);
}

int page_simulate(const uint8_t *scenario, size_t len, const char *settings, const char *groups, uint32_t prints,
                  uint32_t every, uint32_t depth, uint32_t flags, struct memcgrun_text texts[2])
{
    struct memcgrun_scenario_options options = MEMCGRUN_SCENARIO_OPTIONS_INIT;
    options.settings = settings;
    options.groups = groups;
    options.prints = prints;
    options.every = every;
    options.depth = depth;
    options.go_on = flags & GO_ON;
    return (int)memcgrun_simulate(scenario, len, &options, &texts[0], &texts[1]);
}

int page_expand(const uint8_t *scenario, size_t len, const char *settings, const uint64_t *cuts, size_t cuts_len,
                struct memcgrun_text texts[2])
{
    struct memcgrun_scenario_options options = MEMCGRUN_SCENARIO_OPTIONS_INIT;
    options.settings = settings;
    options.cuts = cuts;
    options.cuts_len = cuts_len;
    return (int)memcgrun_expand(scenario, len, &options, &texts[0], &texts[1]);
}

int page_explore(const uint8_t *script, size_t len, uint64_t orders, uint64_t sample, uint64_t seed, uint64_t show,
                 uint32_t turns, uint32_t flags, struct memcgrun_text texts[2])
{
    struct memcgrun_explore_options options = MEMCGRUN_EXPLORE_OPTIONS_INIT;
    options.orders = orders;
    options.sample = sample;
    options.seed = seed;
    options.show = show;
    options.turns = turns;
    options.as_linux = flags & EXPLORE_AS_LINUX;
    options.every = flags & EVERY;
    options.wait = flags & WAIT;
    return (int)memcgrun_explore(script, len, &options, &texts[0], &texts[1]);
}
