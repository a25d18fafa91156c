/* calls: what options ask for, what each status means, which options are refused, buffers that are short or null, and each allocation failing in turn. It says
 * nothing and ends with 0, or names each check that fails and ends with 1. It is linked with --wrap=malloc and --wrap=realloc. */
#include <memcgrun.h>

#include <stdio.h>
#include <stdlib.h>
#include <string.h>

static int failed;

static void check_at(int line, bool holds, const char *what)
{
    if (holds)
        return;
    fprintf(stderr, "calls.c:%d: %s\n", line, what);
    failed = 1;
}

#define CHECK(what) check_at(__LINE__, what, #what)

/* ---- memory that fails */

void *__real_malloc(size_t n);
void *__real_realloc(void *p, size_t n);
void *__wrap_malloc(size_t n);
void *__wrap_realloc(void *p, size_t n);

/* The first allocations succeed, as many as this, and the next fails: that one alone, or all from it on. */
static long left = -1;
static bool for_good;

static bool fails(void)
{
    if (left < 0)
        return false;
    if (left > 0) {
        left--;
        return false;
    }
    if (!for_good)
        left = -1;
    return true;
}

void *__wrap_malloc(size_t n)
{
    return fails() ? NULL : __real_malloc(n);
}

void *__wrap_realloc(void *p, size_t n)
{
    return fails() ? NULL : __real_realloc(p, n);
}

/* ---- calls */

enum kind { SCHEDULE, PICTURE, TABLE, CHECKED, SIMULATED, EXPANDED, EXPLORED };

struct answer {
    enum memcgrun_status status;
    struct memcgrun_text out, err;
};

/* The options are those of the call. */
static struct answer bytes_ask(enum kind kind, const uint8_t *script, size_t len, const void *options)
{
    struct answer answer;
    answer.status = kind == SCHEDULE ? memcgrun_schedule(script, len, options, &answer.out, &answer.err)
        : kind == CHECKED            ? memcgrun_check(script, len, options, &answer.out, &answer.err)
        : kind == SIMULATED          ? memcgrun_simulate(script, len, options, &answer.out, &answer.err)
        : kind == EXPANDED           ? memcgrun_expand(script, len, options, &answer.out, &answer.err)
        : kind == EXPLORED           ? memcgrun_explore(script, len, options, &answer.out, &answer.err)
                                     : memcgrun_chart(script, len, options, kind == TABLE, &answer.out, &answer.err);
    return answer;
}

static struct answer ask(enum kind kind, const char *script, const void *options)
{
    return bytes_ask(kind, (const uint8_t *)script, strlen(script), options);
}

static void free_both(struct answer *answer)
{
    memcgrun_text_free(&answer->out);
    memcgrun_text_free(&answer->err);
}

static bool is(const struct memcgrun_text *text, const char *wanted)
{
    return text->bytes && text->len == strlen(wanted) && !memcmp(text->bytes, wanted, text->len + 1);
}

static bool has(const struct memcgrun_text *text, const char *part)
{
    return text->bytes && strstr((const char *)text->bytes, part);
}

static bool same(const struct answer *a, const struct answer *b)
{
    return a->status == b->status && is(&a->out, (const char *)b->out.bytes) && is(&a->err, (const char *)b->err.bytes);
}

static void expect_at(int line, enum kind kind, const char *script, const void *options,
                      enum memcgrun_status status, const char *out, const char *err)
{
    struct answer answer = ask(kind, script, options);
    if (answer.status != status || !is(&answer.out, out) || !is(&answer.err, err)) {
        fprintf(stderr, "calls.c:%d: status %d, %.200s|%.400s\n", line, (int)answer.status, (const char *)answer.out.bytes, (const char *)answer.err.bytes);
        failed = 1;
    }
    free_both(&answer);
}

#define EXPECT(...) expect_at(__LINE__, __VA_ARGS__)

/* ---- what is asked for */

static const char reads[] = "group /a\ntask 1 /a\n1 write 0 0 7\n1 read 0 0\ncat /a memory.current\nrmdir /b\nrmdir /c\n";
static const char faulty[] = "group /a\nset /a memory.max\n";
static const char no_group_b[] = "script:6: rmdir /b: ENOENT, there is no group /b\n";

static void check_asked(void)
{
    struct memcgrun_options usual = MEMCGRUN_OPTIONS_INIT, options = usual, zeroed = {.size = sizeof zeroed};
    struct answer answer;
    EXPECT(SCHEDULE, reads, NULL, MEMCGRUN_OK, "1 7\n4096\nerror ENOENT\nerror ENOENT\n", "");
    EXPECT(SCHEDULE, reads, &usual, MEMCGRUN_OK, "1 7\n4096\nerror ENOENT\nerror ENOENT\n", "");
    EXPECT(SCHEDULE, reads, &zeroed, MEMCGRUN_OK, "1 7\n4096\nerror ENOENT\nerror ENOENT\n", "");
    EXPECT(SCHEDULE, "", NULL, MEMCGRUN_OK, "", "");
    options.labels = options.strict = true;
    EXPECT(SCHEDULE, reads, &options, MEMCGRUN_REFUSED, "4: 1 read 0 0: 1 7\n5: cat /a memory.current: 4096\n6: rmdir /b: error ENOENT\n", no_group_b);
    options = usual;
    options.quiet = options.explain = true;
    EXPECT(SCHEDULE, reads, &options, MEMCGRUN_OK, "4096\nerror ENOENT\nerror ENOENT\n",
           "script:6: rmdir /b: ENOENT, there is no group /b\nscript:7: rmdir /c: ENOENT, there is no group /c\n");
    options = usual;
    options.summary = options.strict = true;
    answer = ask(SCHEDULE, reads, &options);
    CHECK(answer.status == MEMCGRUN_REFUSED);
    CHECK(is(&answer.out, "1 7\n4096\nerror ENOENT\n"));
    CHECK(has(&answer.err, "lines: 6\nkills: 0\nrefused: 1\n"));
    CHECK(has(&answer.err, no_group_b));
    CHECK(answer.err.len > strlen(no_group_b) && !strcmp((const char *)answer.err.bytes + answer.err.len - strlen(no_group_b), no_group_b));
    free_both(&answer);
}

static void check_turns(void)
{
    struct memcgrun_options options = MEMCGRUN_OPTIONS_INIT;
    char script[16384] = "frames 1024\nswap 600\ntrace 100000\ngroup /a\ntask 1 /a\n";
    for (int page = 0; page < 500; page++)
        snprintf(script + strlen(script), sizeof script - strlen(script), "1 write %d 0 1\n", page);
    strcat(script, "set /a memory.reclaim 2000K\ncat /a memory.current\n");
    EXPECT(SCHEDULE, script, NULL, MEMCGRUN_OK, "error turn limit\nerror Underway\n", "");
    options.turns = 100000;
    EXPECT(SCHEDULE, script, &options, MEMCGRUN_OK, "0\n", "");
}

static void check_statuses(void)
{
    struct memcgrun_options options = MEMCGRUN_OPTIONS_INIT;
    struct answer answer;
    size_t longest = (size_t)1 << 26;
    uint8_t *script = malloc(longest + 1);
    EXPECT(SCHEDULE, faulty, NULL, MEMCGRUN_BAD_SCRIPT, "", "line 2: missing argument\n");
    EXPECT(TABLE, faulty, NULL, MEMCGRUN_BAD_SCRIPT, "", "line 2: missing argument\n");
    EXPECT(CHECKED, faulty, NULL, MEMCGRUN_BAD_SCRIPT, "", "script: line 2: missing argument\n");
    options.strict = true;
    EXPECT(SCHEDULE, faulty, &options, MEMCGRUN_BAD_SCRIPT, "", "script:2: missing argument\n");
    options.strict = false;
    options.explain = true;
    for (enum kind kind = SCHEDULE; kind <= TABLE; kind++) {
        answer = ask(kind, faulty, &options);
        CHECK(answer.status == MEMCGRUN_BAD_SCRIPT && answer.out.len == 0);
        CHECK(!strncmp((const char *)answer.err.bytes, "script:2: missing argument\n", 27) && answer.err.len > 27);
        free_both(&answer);
    }
    EXPECT(CHECKED, "cat / cgroup.procs\n#> error ENOENT\n", NULL, MEMCGRUN_OK, "script: ok, 1 answer\n", "");
    EXPECT(CHECKED, "rmdir /\n#> error ENOENT\n", NULL, MEMCGRUN_DIFFERS, "script:2: expected error ENOENT, got error EBUSY\n", "");
    answer = ask(TABLE, reads, NULL);
    CHECK(answer.status == MEMCGRUN_OK && has(&answer.out, "line,group,current,") && answer.err.len == 0);
    free_both(&answer);
    if (!script)
        exit(70);
    memset(script, '#', longest + 1);
    for (enum kind kind = SCHEDULE; kind <= EXPLORED; kind++) {
        answer = bytes_ask(kind, script, longest + 1, NULL);
        CHECK(answer.status == MEMCGRUN_BAD_SCRIPT && answer.out.len == 0);
        CHECK(is(&answer.err, kind == CHECKED || kind == EXPLORED ? "script: the script has more than 64 MiB\n" : "the script has more than 64 MiB\n"));
        free_both(&answer);
    }
    answer = bytes_ask(SCHEDULE, script, longest, NULL);
    CHECK(answer.status == MEMCGRUN_OK && answer.out.len == 0 && answer.err.len == 0);
    free_both(&answer);
    free(script);
}

/* ---- options that are refused */

static void refused_at(int line, enum kind kind, const void *options, const char *err)
{
    expect_at(line, kind, reads, options, MEMCGRUN_BAD_OPTIONS, "", err);
}

#define REFUSED(...) refused_at(__LINE__, __VA_ARGS__)

/* Options of a program that was compiled with another version of the header. */
union versioned {
    struct memcgrun_options options;
    uint8_t bytes[8192];
};

static void check_versions(void)
{
    static const char not_a_size[] = "options: size is not sizeof(struct memcgrun_options)\n";
    static const char newer[] = "options: a member is set that version " MEMCGRUN_VERSION " does not have\n";
    static const char answers[] = "1 7\n4096\nerror ENOENT\nerror ENOENT\n";
    static union versioned given;
    struct memcgrun_options usual = MEMCGRUN_OPTIONS_INIT;
    CHECK(!strcmp(memcgrun_version(), MEMCGRUN_VERSION));
    CHECK(usual.size == sizeof usual && usual.turns == 1000);
    /* Older: what it lacks has its default, whatever lies behind it. */
    for (size_t size = 0; size < sizeof usual; size++) {
        memset(&given, 0xff, sizeof given);
        given.options.size = size;
        given.options.turns = 1000;
        memset(given.bytes + offsetof(struct memcgrun_options, labels), 0, size < 12 ? 0 : size - 12);
        if (size < 12)
            REFUSED(SCHEDULE, &given, not_a_size);
        else
            EXPECT(SCHEDULE, reads, &given.options, MEMCGRUN_OK, answers, "");
    }
    memset(&given, 0xff, sizeof given);
    given.options = (struct memcgrun_options){.size = offsetof(struct memcgrun_options, strict), .turns = 1000, .labels = true, .strict = true};
    EXPECT(SCHEDULE, "rmdir /\nrmdir /\n", &given.options, MEMCGRUN_OK, "1: rmdir /: error EBUSY\n2: rmdir /: error EBUSY\n", "");
    /* Newer: what it has beside is 0, or it is refused. */
    for (size_t size = sizeof usual; size <= 4097; size += size < 40 ? 1 : 4057) {
        memset(&given, 0, sizeof given);
        given.options = usual;
        given.options.size = size;
        if (size > 4096) {
            REFUSED(SCHEDULE, &given, not_a_size);
            continue;
        }
        EXPECT(SCHEDULE, reads, &given.options, MEMCGRUN_OK, answers, "");
        given.bytes[size] = 1;
        EXPECT(SCHEDULE, reads, &given.options, MEMCGRUN_OK, answers, "");
        given.bytes[size - 1] = 1;
        REFUSED(SCHEDULE, &given, newer);
    }
    for (size_t at = offsetof(struct memcgrun_options, reserved); at < sizeof usual; at++) {
        given.options = usual;
        given.bytes[at] = 1;
        REFUSED(SCHEDULE, &given, newer);
    }
    given.options = usual;
    given.bytes[offsetof(struct memcgrun_options, quiet)] = 2;
    REFUSED(SCHEDULE, &given, "options: quiet is neither 0 nor 1\n");
}

static void check_taken(void)
{
    static const struct {
        const char *name;
        size_t at;
        bool is_charts, is_checks;
    } flags[] = {
        {"labels", offsetof(struct memcgrun_options, labels), false, false}, {"strict", offsetof(struct memcgrun_options, strict), false, false},
        {"as_linux", offsetof(struct memcgrun_options, as_linux), true, true}, {"explain", offsetof(struct memcgrun_options, explain), true, false},
        {"quiet", offsetof(struct memcgrun_options, quiet), false, false},   {"summary", offsetof(struct memcgrun_options, summary), false, false},
    };
    union versioned given;
    char err[64];
    for (size_t i = 0; i < sizeof flags / sizeof *flags; i++) {
        struct answer answer;
        given.options = (struct memcgrun_options)MEMCGRUN_OPTIONS_INIT;
        given.bytes[flags[i].at] = 1;
        answer = ask(PICTURE, "group /a\n", &given.options);
        snprintf(err, sizeof err, "options: chart does not take %s\n", flags[i].name);
        CHECK(flags[i].is_charts ? answer.status == MEMCGRUN_OK : answer.status == MEMCGRUN_BAD_OPTIONS && is(&answer.err, err));
        free_both(&answer);
        answer = ask(CHECKED, "group /a\n", &given.options);
        snprintf(err, sizeof err, "options: check does not take %s\n", flags[i].name);
        CHECK(flags[i].is_checks ? answer.status == MEMCGRUN_OK : answer.status == MEMCGRUN_BAD_OPTIONS && is(&answer.err, err));
        free_both(&answer);
    }
    given.options = (struct memcgrun_options)MEMCGRUN_OPTIONS_INIT;
    given.options.turns = 5;
    REFUSED(CHECKED, &given, "options: check does not take turns\n");
    EXPECT(TABLE, faulty, &given.options, MEMCGRUN_BAD_SCRIPT, "", "line 2: missing argument\n");
}

/* ---- scenarios */

static const char grows[] = "memory 64p\nlet size 2p\ngroup /a max 3p\ntask x in /a\nx write {size}\nexpect /a current 2p\n";
static const char met[] = "line 6  expect /a current 2p: as expected\n256 KiB of memory, no swap, 1 group, 1 task; 0 killed; 0 KiB read in, 0 written out, 0 dropped\n";
static const char unmet[] = "line 6  expect /a current 2p: NOT MET, 12 KiB\n256 KiB of memory, no swap, 1 group, 1 task; 0 killed; 0 KiB read in, 0 written out, 0 dropped\n";
static const char unrefused[] = "256 KiB of memory, no swap, 1 group, 1 task; 0 killed; 0 KiB read in, 0 written out, 0 dropped\n";
static const char grown[] = "# page 4K; with --as-linux\nframes 64\nswap 0\ntrace 1048576\nrecursiveprot\n# 3\ngroup /a\nset /a memory.max 12288\n# 4\ntask 1 /a\n"
                            "# 5\n1 write 0 0 1\n1 write 1 0 1\n# 6: expect /a current 2p\n";

static void check_scenarios(void)
{
    struct memcgrun_scenario_options usual = MEMCGRUN_SCENARIO_OPTIONS_INIT, options = usual, zeroed = {.size = sizeof zeroed};
    static const char refused[] = "memory 64p\ngroup /a\ntask x in /a\nx exit\nx read 0..1p\n";
    static const uint64_t cuts[] = {1, 1};
    char out[512];
    EXPECT(SIMULATED, grows, NULL, MEMCGRUN_OK, met, "");
    EXPECT(SIMULATED, grows, &usual, MEMCGRUN_OK, met, "");
    EXPECT(SIMULATED, grows, &zeroed, MEMCGRUN_OK, met, "");
    EXPECT(EXPANDED, grows, NULL, MEMCGRUN_OK, grown, "");
    snprintf(out, sizeof out, "line 5  x read 0..1p: refused with ESRCH (x was never started, or has exited)\n%s", unrefused);
    EXPECT(SIMULATED, refused, NULL, MEMCGRUN_DIFFERS, out, "");
    options.go_on = true;
    EXPECT(SIMULATED, refused, &options, MEMCGRUN_DIFFERS, out, "");
    options = usual;
    options.settings = "size=2p\n\nsize=3p\n";
    EXPECT(SIMULATED, grows, &options, MEMCGRUN_DIFFERS, unmet, "");
    options.settings = "size=4p";
    EXPECT(EXPANDED, "let size 2p\ngroup /a\ntask x in /a\nx write {sise}\n", &options, MEMCGRUN_BAD_SCRIPT, "",
           "scenario:4:9: {sise}: nothing has this name here\n");
    EXPECT(SIMULATED, "group /a\ngroup /a\n", NULL, MEMCGRUN_BAD_SCRIPT, "", "scenario:2:7: /a: the group is already there\n");
    options.settings = "sise=3p";
    EXPECT(SIMULATED, grows, &options, MEMCGRUN_BAD_OPTIONS, "", "scenario: --set sise: no let has this name\n");
    EXPECT(EXPANDED, grows, &options, MEMCGRUN_BAD_OPTIONS, "", "scenario: --set sise: no let has this name\n");
    options.settings = "size=3p\nsize";
    EXPECT(SIMULATED, grows, &options, MEMCGRUN_BAD_OPTIONS, "", "options: settings: text 2 is not NAME=WORD\n");
    options.settings = "size=\xff";
    EXPECT(EXPANDED, grows, &options, MEMCGRUN_BAD_OPTIONS, "", "options: settings is not UTF-8\n");
    options.settings = "";
    options.groups = "/\xff";
    EXPECT(SIMULATED, grows, &options, MEMCGRUN_BAD_OPTIONS, "", "options: groups is not UTF-8\n");
    options.groups = "/a\n/b";
    options.prints = MEMCGRUN_CSV;
    EXPECT(SIMULATED, grows, &options, MEMCGRUN_BAD_OPTIONS, "", "scenario: --groups /b: no group has this path\n");
    options = usual;
    options.cuts = cuts;
    options.cuts_len = 2;
    EXPECT(EXPANDED, grows, &options, MEMCGRUN_BAD_OPTIONS, "", "scenario: --cuts: 2 more lengths than the scenario has lists with until\n");
    EXPECT(EXPANDED, "group /a\ntask x in /a\nx write until killed\nx write until killed\n", &options, MEMCGRUN_OK,
           "# page 4K; with --as-linux\nframes 65536\nswap 0\ntrace 1048576\nrecursiveprot\n# 1\ngroup /a\n# 2\ntask 1 /a\n# 3\n1 write 0 0 1\n"
           "# 4\n1 write 1 0 1\n", "");
}

/* Options of a scenario of a program that was compiled with another version of the header. */
union scenario_versioned {
    struct memcgrun_scenario_options options;
    uint8_t bytes[8192];
};

static void check_scenario_versions(void)
{
    static const char not_a_size[] = "options: size is not sizeof(struct memcgrun_scenario_options)\n";
    static const char newer[] = "options: a member is set that version " MEMCGRUN_VERSION " does not have\n";
    static const size_t least = offsetof(struct memcgrun_scenario_options, reserved);
    static union scenario_versioned given;
    struct memcgrun_scenario_options usual = MEMCGRUN_SCENARIO_OPTIONS_INIT;
    for (size_t size = 0; size <= 4097; size += size < 80 ? 1 : 4017) {
        memset(&given, 0, sizeof given);
        given.options = usual;
        given.options.size = size;
        if (size < least || size > 4096)
            EXPECT(SIMULATED, grows, &given, MEMCGRUN_BAD_OPTIONS, "", not_a_size);
        else
            EXPECT(SIMULATED, grows, &given, MEMCGRUN_OK, met, "");
        given.bytes[size] = size >= least;
        if (size >= least && size <= 4096)
            EXPECT(EXPANDED, grows, &given, MEMCGRUN_OK, grown, "");
    }
    for (size_t at = least; at < sizeof usual; at++) {
        memset(&given, 0, sizeof given);
        given.options = usual;
        given.bytes[at] = 1;
        EXPECT(EXPANDED, grows, &given, MEMCGRUN_BAD_OPTIONS, "", newer);
    }
    given.options = usual;
    given.bytes[offsetof(struct memcgrun_scenario_options, go_on)] = 2;
    EXPECT(SIMULATED, grows, &given, MEMCGRUN_BAD_OPTIONS, "", "options: go_on is neither 0 nor 1\n");
}

static void check_scenario_taken(void)
{
    struct memcgrun_scenario_options usual = MEMCGRUN_SCENARIO_OPTIONS_INIT, options = usual;
    static const uint64_t cuts[] = {1};
    options.prints = 4;
    EXPECT(SIMULATED, grows, &options, MEMCGRUN_BAD_OPTIONS, "", "options: prints is not an enum memcgrun_prints\n");
    options.prints = MEMCGRUN_JSON;
    EXPECT(EXPANDED, grows, &options, MEMCGRUN_BAD_OPTIONS, "", "options: expand does not take prints\n");
    options = usual;
    options.groups = "/a";
    EXPECT(EXPANDED, grows, &options, MEMCGRUN_BAD_OPTIONS, "", "options: expand does not take groups\n");
    options = usual;
    options.every = 1;
    EXPECT(EXPANDED, grows, &options, MEMCGRUN_BAD_OPTIONS, "", "options: expand does not take every\n");
    options = usual;
    options.depth = 1;
    EXPECT(EXPANDED, grows, &options, MEMCGRUN_BAD_OPTIONS, "", "options: expand does not take depth\n");
    options = usual;
    options.go_on = true;
    EXPECT(EXPANDED, grows, &options, MEMCGRUN_BAD_OPTIONS, "", "options: expand does not take go_on\n");
    options = usual;
    options.cuts = cuts;
    options.cuts_len = 1;
    EXPECT(SIMULATED, grows, &options, MEMCGRUN_BAD_OPTIONS, "", "options: simulate does not take cuts\n");
}

/* ---- every order */

static const char three[] = "group /a\nset /a memory.max 8192\ntask 1 /a\ntask 2 /a\ntask 3 /a\ngo\n1 write 0 0 1\n2 write 0 0 2\n3 write 0 0 3\n"
                            "go\ncat /a memory.current\n";
static const char six[] = "6 orders (device calls first), of 5 turns, have 2 outcomes\noutcome 1: 4 orders\nkilled 1\n8192\noutcome 2: 2 orders\nkilled 2\n8192\n";
static const char waiting_six[] = "6 orders (device calls first), of 5 turns; 6 orders without `busy` have 2 outcomes\noutcome 1: 4 orders\nkilled 1\n8192\n"
                                  "outcome 2: 2 orders\nkilled 2\n8192\n";
static const char all_six[] = "6 orders, of 5 turns, have 2 outcomes\noutcome 1: 4 orders\nkilled 1\n8192\noutcome 2: 2 orders\nkilled 2\n8192\n";

static void check_explored(void)
{
    struct memcgrun_explore_options usual = MEMCGRUN_EXPLORE_OPTIONS_INIT, options = usual, zeroed = {.size = sizeof zeroed};
    struct answer answer, again;
    EXPECT(EXPLORED, three, NULL, MEMCGRUN_OK, six, "");
    EXPECT(EXPLORED, three, &usual, MEMCGRUN_OK, six, "");
    EXPECT(EXPLORED, three, &zeroed, MEMCGRUN_OK, six, "");
    options.as_linux = true;
    EXPECT(EXPLORED, three, &options, MEMCGRUN_OK, six, "");
    options = usual;
    options.every = true;
    EXPECT(EXPLORED, three, &options, MEMCGRUN_OK, all_six, "");
    options = usual;
    options.wait = true;
    EXPECT(EXPLORED, three, &options, MEMCGRUN_OK, waiting_six, "");
    options = usual;
    options.orders = 6;
    EXPECT(EXPLORED, three, &options, MEMCGRUN_OK, six, "");
    options.orders = 5;
    answer = ask(EXPLORED, three, &options);
    CHECK(answer.status == MEMCGRUN_DIFFERS && has(&answer.out, "not all: 5 orders (device calls first), of 5 turns, have "));
    CHECK(is(&answer.err, "script: more than 5 orders: not all were run\n"));
    free_both(&answer);
    options = usual;
    options.turns = 4;
    EXPECT(EXPLORED, three, &options, MEMCGRUN_DIFFERS, "no order was run to its end\n", "script: an order has more than 4 turns: not all were run\n");
    /* An outcome as a script, which the checker accepts. */
    options = usual;
    options.show = 2;
    answer = ask(EXPLORED, three, &options);
    CHECK(answer.status == MEMCGRUN_OK && has(&answer.out, "#> killed 2\n") && answer.err.len == 0);
    again = ask(CHECKED, (const char *)answer.out.bytes, NULL);
    CHECK(again.status == MEMCGRUN_OK);
    free_both(&answer);
    free_both(&again);
    options.show = 3;
    EXPECT(EXPLORED, three, &options, MEMCGRUN_BAD_OPTIONS, "", "script: no outcome 3: there are 2\n");
    /* A sample: the same seed draws the same orders. */
    options = usual;
    options.sample = 1000;
    options.seed = 7;
    answer = ask(EXPLORED, three, &options);
    again = ask(EXPLORED, three, &options);
    CHECK(answer.status == MEMCGRUN_OK && same(&answer, &again) && answer.err.len == 0);
    CHECK(has(&answer.out, "a sample of 1000 orders (device calls first), of 5 turns, shows 2 outcomes; there may be others\noutcome 1: "));
    free_both(&answer);
    free_both(&again);
    options.sample = 1;
    answer = ask(EXPLORED, three, &options);
    CHECK(answer.status == MEMCGRUN_OK && has(&answer.out, "a sample of 1 order (device calls first), of 5 turns, shows 1 outcome; there may be others\noutcome 1: 1 order\n"));
    free_both(&answer);
    /* Scripts that can't be explored. */
    EXPECT(EXPLORED, faulty, NULL, MEMCGRUN_BAD_SCRIPT, "", "script: line 2: missing argument\n");
    EXPECT(EXPLORED, "group /a\n", NULL, MEMCGRUN_BAD_SCRIPT, "",
           "script: the script has no work: write the lines whose orders are to be explored after `go`\n");
    EXPECT(EXPLORED, "rmdir /a\ngo\nrmdir /\n", NULL, MEMCGRUN_BAD_SCRIPT, "", "script: line 1: the setup fails: error ENOENT\n");
    EXPECT(EXPLORED, "go\nbegin rmdir /\n", NULL, MEMCGRUN_BAD_SCRIPT, "",
           "script: line 2: `begin`, `step` and `finish` are only for the setup, before the first `go`\n");
}

/* Options of an exploration of a program that was compiled with another version of the header. */
union explore_versioned {
    struct memcgrun_explore_options options;
    uint8_t bytes[8192];
};

static void check_explore_options(void)
{
    static const char not_a_size[] = "options: size is not sizeof(struct memcgrun_explore_options)\n";
    static const char newer[] = "options: a member is set that version " MEMCGRUN_VERSION " does not have\n";
    static const size_t least = offsetof(struct memcgrun_explore_options, wait), reserved = offsetof(struct memcgrun_explore_options, reserved);
    static union explore_versioned given;
    struct memcgrun_explore_options usual = MEMCGRUN_EXPLORE_OPTIONS_INIT;
    for (size_t size = 0; size <= 4097; size += size < 80 ? 1 : 4017) {
        memset(&given, 0, sizeof given);
        given.options = usual;
        given.options.size = size;
        if (size < least || size > 4096)
            EXPECT(EXPLORED, three, &given, MEMCGRUN_BAD_OPTIONS, "", not_a_size);
        else
            EXPECT(EXPLORED, three, &given, MEMCGRUN_OK, six, "");
    }
    for (size_t at = reserved; at < sizeof usual; at++) {
        memset(&given, 0, sizeof given);
        given.options = usual;
        given.bytes[at] = 1;
        EXPECT(EXPLORED, three, &given, MEMCGRUN_BAD_OPTIONS, "", newer);
    }
    given.options = usual;
    given.bytes[offsetof(struct memcgrun_explore_options, as_linux)] = 2;
    EXPECT(EXPLORED, three, &given, MEMCGRUN_BAD_OPTIONS, "", "options: as_linux is neither 0 nor 1\n");
    given.options = usual;
    given.bytes[offsetof(struct memcgrun_explore_options, every)] = 2;
    EXPECT(EXPLORED, three, &given, MEMCGRUN_BAD_OPTIONS, "", "options: every is neither 0 nor 1\n");
    given.options = usual;
    given.bytes[offsetof(struct memcgrun_explore_options, wait)] = 2;
    EXPECT(EXPLORED, three, &given, MEMCGRUN_BAD_OPTIONS, "", "options: wait is neither 0 nor 1\n");
    given.options = usual;
    given.options.seed = 1;
    EXPECT(EXPLORED, three, &given, MEMCGRUN_BAD_OPTIONS, "", "options: seed is set without a sample\n");
    given.options.sample = given.options.orders = 1;
    EXPECT(EXPLORED, three, &given, MEMCGRUN_BAD_OPTIONS, "", "options: orders is set with a sample\n");
}

/* ---- buffers */

static void check_buffers(void)
{
    struct memcgrun_options bad = {.size = 1};
    struct memcgrun_lengths lengths;
    uint8_t out[4] = "....", err[4] = "....";
    const uint8_t *script = (const uint8_t *)reads;
    CHECK(memcgrun_schedule_into(NULL, 0, NULL, NULL, 0, NULL, 0, &lengths) == MEMCGRUN_OK && !lengths.out && !lengths.err);
    CHECK(memcgrun_schedule_into(script, strlen(reads), NULL, NULL, 0, NULL, 0, &lengths) == MEMCGRUN_OK && lengths.out == 35 && !lengths.err);
    CHECK(memcgrun_schedule_into(script, strlen(reads), NULL, out, 2, err, 4, &lengths) == MEMCGRUN_OK && lengths.out == 35);
    CHECK(!memcmp(out, "1 ..", 4) && !memcmp(err, "....", 4));
    CHECK(memcgrun_chart_into(script, strlen(reads), NULL, true, out, 4, err, 4, &lengths) == MEMCGRUN_OK && !memcmp(out, "line", 4));
    CHECK(memcgrun_check_into(script, strlen(reads), NULL, out, 4, err, 4, &lengths) == MEMCGRUN_DIFFERS && !memcmp(out, "scri", 4));
    CHECK(memcgrun_schedule_into(script, strlen(reads), &bad, out, 4, err, 3, &lengths) == MEMCGRUN_BAD_OPTIONS);
    CHECK(!lengths.out && lengths.err == 53 && !memcmp(out, "scri", 4) && !memcmp(err, "opt.", 4));
    script = (const uint8_t *)grows;
    CHECK(memcgrun_simulate_into(NULL, 0, NULL, NULL, 0, NULL, 0, &lengths) == MEMCGRUN_OK && lengths.out && !lengths.err);
    CHECK(memcgrun_simulate_into(script, strlen(grows), NULL, out, 3, err, 4, &lengths) == MEMCGRUN_OK && lengths.out == strlen(met));
    CHECK(!memcmp(out, "lini", 4) && !memcmp(err, "opt.", 4));
    CHECK(memcgrun_expand_into(script, strlen(grows), NULL, out, 4, err, 4, &lengths) == MEMCGRUN_OK && lengths.out == strlen(grown));
    CHECK(!memcmp(out, "# pa", 4) && !memcmp(err, "opt.", 4));
    CHECK(memcgrun_expand_into(script, strlen(grows) - 4, NULL, out, 4, err, 2, &lengths) == MEMCGRUN_BAD_SCRIPT && !lengths.out);
    CHECK(!memcmp(out, "# pa", 4) && !memcmp(err, "sct.", 4));
    script = (const uint8_t *)three;
    CHECK(memcgrun_explore_into(NULL, 0, NULL, NULL, 0, NULL, 0, &lengths) == MEMCGRUN_BAD_SCRIPT && !lengths.out && lengths.err);
    CHECK(memcgrun_explore_into(script, strlen(three), NULL, out, 3, err, 4, &lengths) == MEMCGRUN_OK && lengths.out == strlen(six));
    CHECK(!memcmp(out, "6 oa", 4) && !memcmp(err, "sct.", 4));
}

/* ---- each allocation fails in turn */

static bool begins(const struct memcgrun_text *part, const struct memcgrun_text *whole)
{
    return part->len <= whole->len && (!part->len || !memcmp(part->bytes, whole->bytes, part->len));
}

/* Memory that lacks ends the call, or leaves no trace; or it lacks for a command, which answers NoMemory, and the run goes on. */
static bool is_right(enum kind kind, const struct answer *answer, const struct answer *whole)
{
    if (kind == SCHEDULE && has(&answer->out, "NoMemory"))
        return answer->status == MEMCGRUN_OK || answer->status == MEMCGRUN_NO_MEMORY || has(&answer->err, ": NoMemory, ");
    if (kind == SIMULATED && has(&answer->out, "refused with NoMemory"))
        return answer->status == MEMCGRUN_DIFFERS || answer->status == MEMCGRUN_NO_MEMORY;
    if (answer->status == MEMCGRUN_NO_MEMORY)
        return kind == SCHEDULE || kind == SIMULATED ? begins(&answer->out, &whole->out) : !answer->out.len;
    /* A fault's own line is there, even if memory lacks to explain it. */
    if (whole->status == MEMCGRUN_BAD_SCRIPT && answer->status == whole->status && is(&answer->err, "line 3: missing argument\n"))
        return !answer->out.len;
    /* No answer is shown that would say whether a command got no memory. */
    if ((kind == PICTURE || kind == TABLE || kind == CHECKED) && whole->status != MEMCGRUN_BAD_SCRIPT)
        return answer->status == whole->status;
    return same(answer, whole);
}

static void check_failing(enum kind kind, const char *script, const void *options)
{
    struct answer whole = ask(kind, script, options);
    CHECK(whole.status != MEMCGRUN_NO_MEMORY);
    for (int all = 0; all < 2; all++) {
        long wants = 0;
        for (bool met = false; !met; wants++) {
            struct answer answer;
            left = wants;
            for_good = all;
            answer = ask(kind, script, options);
            met = left > 0; /* it was not that many */
            left = -1;
            if (!is_right(kind, &answer, &whole) || (met && !same(&answer, &whole))) {
                fprintf(stderr, "calls.c: %ld allocations succeed: status %d, %s|%s\n", wants, (int)answer.status, (const char *)answer.out.bytes, (const char *)answer.err.bytes);
                failed = 1;
            }
            free_both(&answer);
        }
        CHECK(wants > 2);
    }
    free_both(&whole);
}

static void check_memory(void)
{
    static const char small[] = "frames 4\nswap 4\ntrace 64\ngroup /a\nset /a memory.max 8K\ntask 1 /a\n1 write 0 0 1\n1 write 1 0 2\n1 write 2 0 3\n"
                                "1 read 0 0\nrmdir /b\n2 read 0 0\nrmdir /c\n";
    static const char bad[] = "frames 4\ngroup /a\nset /a memory.max\n";
    static const char short_scenario[] = "memory 8p\nlet size 2p\ngroup /a max 3p\ntask x in /a\nx write {size}\nshow\nexpect killed x\n";
    struct memcgrun_options options = MEMCGRUN_OPTIONS_INIT;
    static const char short_race[] = "frames 4\ntrace 64\ngroup /a\ntask 1 /a\ntask 2 /a\ngo\n1 write 0 0 1\n2 exit\ngo\ncat /a memory.current\n";
    struct memcgrun_scenario_options set = MEMCGRUN_SCENARIO_OPTIONS_INIT;
    struct memcgrun_explore_options shown = MEMCGRUN_EXPLORE_OPTIONS_INIT, sampled = shown;
    check_failing(SCHEDULE, small, NULL);
    check_failing(SCHEDULE, bad, NULL);
    check_failing(TABLE, small, NULL);
    check_failing(PICTURE, bad, NULL);
    check_failing(CHECKED, small, NULL);
    check_failing(CHECKED, bad, NULL);
    options.explain = options.summary = true;
    check_failing(SCHEDULE, small, &options);
    check_failing(SCHEDULE, bad, &options);
    options.labels = options.strict = true;
    check_failing(SCHEDULE, small, &options);
    set.settings = "size=4p";
    check_failing(SIMULATED, short_scenario, &set);
    check_failing(SIMULATED, "group /a\ngroup /a\n", NULL);
    check_failing(EXPANDED, short_scenario, &set);
    check_failing(EXPLORED, short_race, NULL);
    check_failing(EXPLORED, "go\nbegin rmdir /\n", NULL);
    shown.show = 1;
    check_failing(EXPLORED, short_race, &shown);
    sampled.sample = 2;
    check_failing(EXPLORED, short_race, &sampled);
}

int main(void)
{
    check_asked();
    check_turns();
    check_statuses();
    check_versions();
    check_taken();
    check_scenarios();
    check_scenario_versions();
    check_scenario_taken();
    check_explored();
    check_explore_options();
    check_buffers();
    check_memory();
    return failed;
}
