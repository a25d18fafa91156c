/* ask CALL FILE: one call of the library. CALL is schedule, chart, table, check, simulate, expand or explore, followed by options, as in
 * schedule,--strict,--labels, simulate,--json,--set=a=1+b=2 or explore,--sample=9. What it gives goes to standard output and standard error, and its status is
 * the exit status.
 *
 * ask threads FILE makes the call schedule on several threads at once, many times, and each has to give the same.
 *
 * ask many reads any number of requests from standard input and answers each on standard output. A request is a line
 * "CALL LENGTH ROOM ..", followed by a script of LENGTH bytes. The first answer to it is that of the call. Then each ROOM, of which there
 * may be none, gets the answer of the same run over buffers of ROOM bytes, and what is behind the buffers must stay as it was. An answer
 * is a line "STATUS OUT ERR" with the lengths of both texts, followed by the bytes of both, of which a short buffer has only the first. */
#define _POSIX_C_SOURCE 200809L
#include <memcgrun.h>

#include <pthread.h>
#include <stdio.h>
#include <stdlib.h>
#include <string.h>

static uint8_t *read_all(const char *path, size_t *len)
{
    FILE *file = fopen(path, "rb");
    uint8_t *bytes;
    if (!file || fseek(file, 0, SEEK_END) || (*len = (size_t)ftell(file), fseek(file, 0, SEEK_SET)))
        exit(70);
    bytes = malloc(*len + 1);
    if (!bytes || fread(bytes, 1, *len, file) != *len)
        exit(71);
    fclose(file);
    return bytes;
}

static bool begins(const char *call, const char *with)
{
    return !strncmp(call, with, strlen(with));
}

static bool has(const char *call, const char *option)
{
    return strstr(call, option) != NULL;
}

static struct memcgrun_options options_of(const char *call)
{
    struct memcgrun_options options = MEMCGRUN_OPTIONS_INIT;
    options.labels = has(call, ",--labels");
    options.strict = has(call, ",--strict");
    options.as_linux = has(call, ",--as-linux");
    options.explain = has(call, ",--explain");
    options.quiet = has(call, ",--quiet");
    options.summary = has(call, ",--summary");
    return options;
}

/* What is asked of a scenario, with the texts of its options. */
struct scenario {
    struct memcgrun_scenario_options options;
    char settings[128], groups[128];
    uint64_t cuts[8];
};

/* The texts of an option, each in a line: they are between the option and the next one, and + is between them. Null if it is not given. */
static const char *lines_of(const char *call, const char *option, char *lines, size_t room)
{
    const char *from = strstr(call, option);
    size_t len = from ? strcspn(from += strlen(option), ",") : 0;
    if (!from)
        return NULL;
    if (len >= room)
        exit(83);
    for (size_t i = 0; i < len; i++)
        lines[i] = from[i] == '+' ? '\n' : from[i];
    lines[len] = 0;
    return lines;
}

static uint32_t number_of(const char *call, const char *option)
{
    char digits[16];
    return lines_of(call, option, digits, sizeof digits) ? (uint32_t)strtoul(digits, NULL, 10) : 0;
}

static void read_scenario(const char *call, struct scenario *it)
{
    char cuts[64], *number = cuts;
    it->options = (struct memcgrun_scenario_options)MEMCGRUN_SCENARIO_OPTIONS_INIT;
    it->options.settings = lines_of(call, ",--set=", it->settings, sizeof it->settings);
    it->options.groups = lines_of(call, ",--groups=", it->groups, sizeof it->groups);
    it->options.prints = has(call, ",--chart") ? MEMCGRUN_CHART : has(call, ",--csv") ? MEMCGRUN_CSV
        : has(call, ",--json")                 ? MEMCGRUN_JSON  : MEMCGRUN_REPORT;
    it->options.every = number_of(call, ",--every=");
    it->options.depth = number_of(call, ",--depth=");
    it->options.go_on = has(call, ",--go-on");
    it->options.cuts = it->cuts;
    if (!lines_of(call, ",--cuts=", cuts, sizeof cuts))
        return;
    while (*number) {
        if (it->options.cuts_len == sizeof it->cuts / sizeof *it->cuts)
            exit(84);
        it->cuts[it->options.cuts_len++] = strtoul(number, &number, 10);
        number += *number != 0;
    }
}

static struct memcgrun_explore_options explore_options_of(const char *call)
{
    struct memcgrun_explore_options options = MEMCGRUN_EXPLORE_OPTIONS_INIT;
    options.orders = number_of(call, ",--orders=");
    options.sample = number_of(call, ",--sample=");
    options.seed = number_of(call, ",--seed=");
    options.show = number_of(call, ",--show=");
    options.turns = number_of(call, ",--turns=");
    options.as_linux = has(call, ",--as-linux");
    options.every = has(call, ",--every");
    options.wait = has(call, ",--wait");
    return options;
}

/* The call, with texts that end in a 0. */
static int ask(const char *call, const uint8_t *script, size_t len, struct memcgrun_text *out, struct memcgrun_text *err)
{
    struct memcgrun_options options = options_of(call);
    struct memcgrun_explore_options explored = explore_options_of(call);
    struct scenario scenario;
    bool table = begins(call, "table");
    int status;
    read_scenario(call, &scenario);
    status = begins(call, "simulate")    ? memcgrun_simulate(script, len, &scenario.options, out, err)
        : begins(call, "expand")         ? memcgrun_expand(script, len, &scenario.options, out, err)
        : begins(call, "explore")        ? memcgrun_explore(script, len, &explored, out, err)
        : begins(call, "check")          ? memcgrun_check(script, len, &options, out, err)
        : table || begins(call, "chart") ? memcgrun_chart(script, len, &options, table, out, err)
                                         : memcgrun_schedule(script, len, &options, out, err);
    if (out->bytes && (out->bytes[out->len] || err->bytes[err->len]))
        exit(72);
    return status;
}

static void put(const uint8_t *bytes, size_t len, FILE *to)
{
    if (len && fwrite(bytes, 1, len, to) != len)
        exit(79);
}

static void free_both(struct memcgrun_text *out, struct memcgrun_text *err)
{
    memcgrun_text_free(out);
    memcgrun_text_free(err);
    memcgrun_text_free(out);
}

static int whole(const char *call, const uint8_t *script, size_t len)
{
    struct memcgrun_text out, err;
    int status = ask(call, script, len, &out, &err);
    put(out.bytes, out.len, stdout);
    put(err.bytes, err.len, stderr);
    free_both(&out, &err);
    return status;
}

static void answer(int status, struct memcgrun_lengths has, const uint8_t *out, size_t out_len, const uint8_t *err, size_t err_len)
{
    printf("%d %zu %zu\n", status, has.out, has.err);
    put(out, out_len, stdout);
    put(err, err_len, stdout);
}

/* The first bytes of a run whose buffers are short. */
static void front(const char *call, const uint8_t *script, size_t len, size_t room)
{
    enum { BEHIND = 8, MARK = 0xa5 };
    uint8_t *out = malloc(room + BEHIND), *err = malloc(room + BEHIND);
    struct memcgrun_options options = options_of(call);
    struct memcgrun_explore_options explored = explore_options_of(call);
    struct scenario scenario;
    struct memcgrun_lengths lengths;
    size_t out_len, err_len;
    int status;
    read_scenario(call, &scenario);
    if (!out || !err)
        exit(73);
    memset(out, MARK, room + BEHIND);
    memset(err, MARK, room + BEHIND);
    status = begins(call, "simulate") ? memcgrun_simulate_into(script, len, &scenario.options, out, room, err, room, &lengths)
        : begins(call, "expand")      ? memcgrun_expand_into(script, len, &scenario.options, out, room, err, room, &lengths)
        : begins(call, "explore")     ? memcgrun_explore_into(script, len, &explored, out, room, err, room, &lengths)
                                      : memcgrun_schedule_into(script, len, &options, out, room, err, room, &lengths);
    out_len = lengths.out < room ? lengths.out : room;
    err_len = lengths.err < room ? lengths.err : room;
    for (size_t i = out_len; i < room + BEHIND; i++)
        if (out[i] != MARK)
            exit(74);
    for (size_t i = err_len; i < room + BEHIND; i++)
        if (err[i] != MARK)
            exit(75);
    answer(status, lengths, out, out_len, err, err_len);
    free(out);
    free(err);
}

/* Whether there was a next request: its answers are written, and stay if a later one ends the process. */
static bool next(void)
{
    enum { LONGEST = 256 };
    char line[LONGEST], *words, *call, *word;
    struct memcgrun_text out, err;
    uint8_t *script;
    size_t len;
    int status;
    if (!fgets(line, sizeof line, stdin))
        return false;
    call = strtok_r(line, " \n", &words);
    word = strtok_r(NULL, " \n", &words);
    if (!call || !word)
        exit(80);
    len = strtoul(word, NULL, 10);
    /* Exactly as many bytes as the script has, so that a read beyond them is seen. */
    script = malloc(len ? len : 1);
    if (!script || fread(script, 1, len, stdin) != len)
        exit(81);
    status = ask(call, len ? script : NULL, len, &out, &err);
    answer(status, (struct memcgrun_lengths){out.len, err.len}, out.bytes, out.len, err.bytes, err.len);
    free_both(&out, &err);
    while ((word = strtok_r(NULL, " \n", &words)))
        front(call, script, len, strtoul(word, NULL, 10));
    free(script);
    if (fflush(stdout))
        exit(79);
    return true;
}

struct turn {
    const uint8_t *script;
    size_t len;
    struct memcgrun_text wanted;
};

static void *again(void *given)
{
    enum { TIMES = 50 };
    const struct turn *turn = given;
    for (int i = 0; i < TIMES; i++) {
        struct memcgrun_text out, err;
        memcgrun_schedule(turn->script, turn->len, NULL, &out, &err);
        if (!out.bytes || out.len != turn->wanted.len || memcmp(out.bytes, turn->wanted.bytes, out.len))
            exit(77);
        memcgrun_text_free(&out);
        memcgrun_text_free(&err);
    }
    return NULL;
}

static int on_threads(const uint8_t *script, size_t len)
{
    enum { THREADS = 4 };
    struct memcgrun_text err;
    struct turn turn = {.script = script, .len = len};
    pthread_t threads[THREADS];
    int status = memcgrun_schedule(script, len, NULL, &turn.wanted, &err);
    for (int i = 0; i < THREADS; i++)
        if (pthread_create(&threads[i], NULL, again, &turn))
            exit(78);
    for (int i = 0; i < THREADS; i++)
        pthread_join(threads[i], NULL);
    fwrite(turn.wanted.bytes, 1, turn.wanted.len, stdout);
    memcgrun_text_free(&turn.wanted);
    memcgrun_text_free(&err);
    return status;
}

int main(int count, char **words)
{
    size_t len;
    uint8_t *script;
    int status;
    if (count == 2 && !strcmp(words[1], "many")) {
        while (next())
            ;
        return ferror(stdin) ? 82 : 0;
    }
    if (count != 3)
        return 76;
    script = read_all(words[2], &len);
    if (!strcmp(words[1], "threads"))
        status = on_threads(script, len);
    else
        status = whole(words[1], len ? script : NULL, len);
    free(script);
    return status;
}
