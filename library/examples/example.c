/* Asks one question of the library: who is killed under a limit of two pages?
 * cc example.c $(pkg-config --cflags --libs memcgrun) -o example */
#include <memcgrun.h>

#include <stdio.h>
#include <string.h>

static const char script[] = "group /job\n"
                             "set /job memory.max 8192\n"
                             "task 1 /job\n"
                             "task 2 /job\n"
                             "1 write 0 0 1\n"
                             "1 write 1 0 1\n"
                             "2 write 0 0 1\n";

int main(void)
{
    struct memcgrun_options options = MEMCGRUN_OPTIONS_INIT;
    struct memcgrun_text out, err;
    options.labels = true;
    enum memcgrun_status status = memcgrun_schedule((const uint8_t *)script, strlen(script), &options, &out, &err);
    switch (status) {
    case MEMCGRUN_OK:
        fwrite(out.bytes, 1, out.len, stdout);
        break;
    case MEMCGRUN_NO_MEMORY:
        fputs("not enough memory\n", stderr);
        break;
    default:
        fwrite(err.bytes, 1, err.len, stderr);
    }
    memcgrun_text_free(&out);
    memcgrun_text_free(&err);
    return status;
}
