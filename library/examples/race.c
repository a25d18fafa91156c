/* Asks what can happen if a limit is lowered while a task exits: can another task be killed?
 * cc race.c $(pkg-config --cflags --libs memcgrun) -o race */
#include <memcgrun.h>

#include <stdio.h>
#include <string.h>

static const char script[] = "group /job\n"
                             "task 1 /job\n"
                             "task 2 /job\n"
                             "1 write 0 0 1\n"
                             "2 write 0 0 2\n"
                             "2 write 1 0 3\n"
                             "go\n"
                             "1 exit\n"
                             "set /job memory.max 8192\n";

int main(void)
{
    struct memcgrun_text out, err;
    enum memcgrun_status status = memcgrun_explore((const uint8_t *)script, strlen(script), NULL, &out, &err);
    if (status == MEMCGRUN_OK)
        puts(strstr((const char *)out.bytes, "\nkilled ") ? "a task can be killed" : "no task can be killed");
    else
        fwrite(err.bytes, 1, err.len, stderr);
    memcgrun_text_free(&out);
    memcgrun_text_free(&err);
    return status;
}
