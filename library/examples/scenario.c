/* Asks one scenario several times: how much memory does a job need so that it is not killed?
 * cc scenario.c $(pkg-config --cflags --libs memcgrun) -o scenario */
#include <memcgrun.h>

#include <stdio.h>
#include <string.h>

static const char scenario[] = "page 64K\n"
                               "let max 16M\n"
                               "group /job max {max}\n"
                               "task app in /job\n"
                               "app write 50M\n"
                               "expect nobody killed\n";

/* Says whether this max is enough: an expectation that is not met has a status of its own. */
static enum memcgrun_status ask(const char *max)
{
    struct memcgrun_scenario_options options = MEMCGRUN_SCENARIO_OPTIONS_INIT;
    struct memcgrun_text out, err;
    char settings[32];
    enum memcgrun_status status;
    snprintf(settings, sizeof settings, "max=%s", max);
    options.settings = settings;
    status = memcgrun_simulate((const uint8_t *)scenario, strlen(scenario), &options, &out, &err);
    if (status == MEMCGRUN_OK || status == MEMCGRUN_DIFFERS)
        printf("%s: %s\n", max, status == MEMCGRUN_OK ? "enough" : "not enough");
    else
        fwrite(err.bytes, 1, err.len, stderr);
    memcgrun_text_free(&out);
    memcgrun_text_free(&err);
    return status;
}

int main(void)
{
    static const char *const maxima[] = {"32M", "48M", "64M"};
    enum memcgrun_status status = MEMCGRUN_OK;
    for (size_t i = 0; i < sizeof maxima / sizeof *maxima; i++)
        status = ask(maxima[i]);
    return status;
}
