/* real SCRIPT: carries a script of memcgrun out on the kernel that it runs on, in the virtual machine that init makes ready,
 * and prints what the kernel answers, a line for each answer:
 *
 *     NUMBER WORDS: ANSWER
 *
 * where NUMBER counts the lines of the script that aren't skipped, and WORDS are those of the line. Behind "  # " stands what
 * is for the reader alone.
 *
 * The script's root is the group /cg/s, each task is a process, and a page of the script is a chunk of memory, 8 MiB, or
 * what a line "#linux page AMOUNT" of the script says. Amounts of bytes are printed in pages of the script, with two decimals.
 * Limits get an eighth of a page on top, for what the kernel charges besides: page tables, stacks, memory of its own.
 * With a line "#linux root", memory.reclaim of / is that of the machine's root.
 * Files lie in /mnt. Swap is what is on, of which the script's root may use as many pages as the script says.
 *
 * docs/LINUX.md describes this, and docs/KERNEL.md has the answers. */
#define _GNU_SOURCE
#include <ctype.h>
#include <errno.h>
#include <fcntl.h>
#include <poll.h>
#include <sched.h>
#include <signal.h>
#include <stdarg.h>
#include <stdbool.h>
#include <stdio.h>
#include <stdlib.h>
#include <string.h>
#include <sys/mman.h>
#include <sys/mount.h>
#include <sys/prctl.h>
#include <sys/socket.h>
#include <sys/stat.h>
#include <sys/syscall.h>
#include <sys/wait.h>
#include <time.h>
#include <unistd.h>

#define ROOT "/cg/s"
#define REAL_PAGE 4096L /* a page of the kernel, and what an amount of a script takes for one */
#define PAGES 256L      /* virtual pages of a task that scripts may touch */
#define MAX_TASKS 64
#define MAX_WORDS 8
#define MAX_TEXT 65536
#define PATIENCE 60 /* seconds that a task may take for a line */

static long page = 8L << 20; /* bytes of a page of the script */
static long slack;           /* bytes on top of a limit */
static char *memory;         /* the virtual pages, mapped before there are tasks, and so at the same place in each */
static int log_file;         /* the kernel's log, which says who is killed */

/* ---- the line that is carried out, and its answers */

static int line_number;
static char *word[MAX_WORDS + 1];
static int words;

__attribute__((format(printf, 1, 2))) static void answer(const char *format, ...)
{
    va_list arguments;
    printf("%d", line_number);
    for (int i = 0; i < words; i++)
        printf(" %s", word[i]);
    printf(": ");
    va_start(arguments, format);
    vprintf(format, arguments);
    va_end(arguments);
    printf("\n");
}

static void answer_error(int error)
{
    if (error)
        answer("error %s", strerrorname_np(error));
}

__attribute__((noreturn)) static void give_up(const char *what)
{
    printf("# it can't go on: %s: %s\n", what, strerror(errno));
    exit(1);
}

/* ---- control files */

/* Writes the text in one call, and gives the error's number, or 0. */
static int write_text(const char *path, const char *text)
{
    int file = open(path, O_WRONLY | O_CLOEXEC);
    if (file < 0)
        return errno;
    int error = write(file, text, strlen(text)) < 0 ? errno : 0;
    close(file);
    return error;
}

/* Reads the whole file as a text, and gives the error's number, or 0. */
static int read_text(const char *path, char *text, size_t size)
{
    int file = open(path, O_RDONLY | O_CLOEXEC);
    size_t length = 0;
    ssize_t got = -1;
    if (file >= 0) {
        while (length < size - 1 && (got = read(file, text + length, size - 1 - length)) > 0)
            length += got;
    }
    int error = got < 0 ? errno : 0;
    text[length] = 0;
    if (file >= 0)
        close(file);
    return error;
}

/* The path of a group of the script, or of a file of its. Several can be in use at a time. */
static const char *path_of(const char *group, const char *file)
{
    static char paths[4][512];
    static int next;
    char *path = paths[next++ % 4];
    snprintf(path, sizeof paths[0], "%s%s/%s", ROOT, strcmp(group, "/") ? group : "", file);
    return path;
}

/* The path without its last name. */
static const char *parent_of(const char *group)
{
    static char parent[256];
    snprintf(parent, sizeof parent, "%s", group);
    char *slash = strrchr(parent, '/');
    if (slash)
        slash[slash == parent] = 0;
    return parent;
}

/* ---- a task: a process that does what it is sent */

enum action { WRITE, READ, FREE, FILE_WRITE, FILE_READ, FORK, EXIT };

struct request {
    enum action action;
    long page, offset;
    unsigned char byte;
    int child;
    char file[64];
};

struct reply {
    int error;
    bool mixed; /* not all pages of the kernel had the same byte */
    unsigned char byte;
    pid_t child;
};

struct task {
    int number;
    pid_t process; /* 0 before there is one */
    int channel[2]; /* the script's end, and the task's */
    bool dead, killed;
};

static struct task tasks[MAX_TASKS];
static int task_count;

static struct task *find_task(int number)
{
    for (int i = 0; i < task_count; i++)
        if (tasks[i].number == number)
            return &tasks[i];
    return NULL;
}

/* Channels are made for all tasks of the script before there are any, so that a child of a task has its own. */
static void add_task(int number)
{
    if (find_task(number))
        return;
    struct task *task = &tasks[task_count++];
    task->number = number;
    if (task_count == MAX_TASKS || socketpair(AF_UNIX, SOCK_SEQPACKET, 0, task->channel))
        give_up("a channel for a task");
}

static void note_byte(struct reply *reply, long at, unsigned char byte)
{
    if (at == 0)
        reply->byte = byte;
    else if (reply->byte != byte)
        reply->mixed = true;
}

static void access_memory(const struct request *request, struct reply *reply)
{
    volatile unsigned char *first = (unsigned char *)memory + request->page * page + request->offset;
    for (long at = 0; at < page; at += REAL_PAGE) {
        if (request->action == WRITE)
            first[at] = request->byte;
        else
            note_byte(reply, at, first[at]);
    }
}

/* Reads a whole page of the kernel, or writes one byte to it. */
static int access_file_page(int file, const struct request *request, long at, unsigned char *byte)
{
    static unsigned char bytes[REAL_PAGE];
    ssize_t done;
    if (request->action == FILE_WRITE) {
        done = pwrite(file, &request->byte, 1, at + request->offset) - 1;
    } else {
        done = pread(file, bytes, REAL_PAGE, at) - REAL_PAGE;
        *byte = bytes[request->offset];
    }
    return done ? (errno ? errno : EIO) : 0;
}

static void access_file(const struct request *request, struct reply *reply)
{
    char path[128];
    snprintf(path, sizeof path, "/mnt/%s", request->file);
    int file = open(path, O_RDWR | O_CLOEXEC);
    if (file < 0) {
        reply->error = errno;
        return;
    }
    posix_fadvise(file, 0, 0, POSIX_FADV_RANDOM);
    for (long at = 0; at < page && !reply->error; at += REAL_PAGE) {
        unsigned char byte = 0;
        errno = 0;
        reply->error = access_file_page(file, request, request->page * page + at, &byte);
        note_byte(reply, at, byte);
    }
    close(file);
}

__attribute__((noreturn)) static void be_task(int number);

/* The child is a child of whoever carries out the script, as each task is. */
static void fork_task(const struct request *request, struct reply *reply)
{
    long child = syscall(SYS_clone, CLONE_PARENT | SIGCHLD, 0, 0, 0, 0);
    if (child == 0)
        be_task(request->child);
    reply->child = child;
    reply->error = child < 0 ? errno : 0;
}

static void serve(const struct request *request, struct reply *reply)
{
    switch (request->action) {
    case WRITE:
    case READ:
        access_memory(request, reply);
        break;
    case FREE:
        if (madvise(memory + request->page * page, page, MADV_DONTNEED))
            reply->error = errno;
        break;
    case FILE_WRITE:
    case FILE_READ:
        access_file(request, reply);
        break;
    case FORK:
        fork_task(request, reply);
        break;
    case EXIT:
        _exit(0);
    }
}

static void be_task(int number)
{
    struct task *task = find_task(number);
    struct request request;
    struct reply reply = { 0 };
    char name[16];
    snprintf(name, sizeof name, "task %d", number);
    prctl(PR_SET_NAME, name);
    prctl(PR_SET_PDEATHSIG, SIGKILL);
    /* The first reply says that it is there. */
    while (send(task->channel[1], &reply, sizeof reply, 0) == sizeof reply &&
           recv(task->channel[1], &request, sizeof request, 0) == sizeof request) {
        memset(&reply, 0, sizeof reply);
        serve(&request, &reply);
    }
    _exit(1);
}

/* ---- who is killed, and who ended */

static void settle(void)
{
    usleep(30000);
}

static void bury(struct task *task, bool killed)
{
    task->dead = true;
    task->killed = killed;
    waitpid(task->process, NULL, 0);
}

static void note_kill(pid_t process)
{
    for (int i = 0; i < task_count; i++) {
        if (tasks[i].process != process || tasks[i].killed)
            continue;
        answer("killed %d", tasks[i].number);
        bury(&tasks[i], true);
    }
}

/* Kills are told in the order of the kernel's log, each once. */
static void tell_kills(void)
{
    static const char says[] = "Killed process ";
    char record[8192];
    ssize_t length;
    settle();
    while ((length = read(log_file, record, sizeof record - 1)) > 0 || (length < 0 && errno == EPIPE)) {
        record[length > 0 ? length : 0] = 0;
        char *killed = strstr(record, says);
        if (killed)
            note_kill(atoi(killed + sizeof says - 1));
    }
    for (int i = 0; i < task_count; i++) {
        int status;
        if (tasks[i].process && !tasks[i].dead && waitpid(tasks[i].process, &status, WNOHANG) > 0) {
            tasks[i].dead = tasks[i].killed = true;
            answer("killed %d  # by signal %d, which the log doesn't tell", tasks[i].number, WTERMSIG(status));
        }
    }
}

/* Waits for a reply, and says whether there was one: else the task has died. */
static bool wait_for(struct task *task, struct reply *reply)
{
    int life = syscall(SYS_pidfd_open, task->process, 0);
    struct pollfd waits[] = { { .fd = task->channel[0], .events = POLLIN }, { .fd = life, .events = POLLIN } };
    int ready = poll(waits, 2, PATIENCE * 1000);
    close(life);
    if (ready == 0)
        give_up("a task that doesn't answer");
    return recv(task->channel[0], reply, sizeof *reply, MSG_DONTWAIT) == sizeof *reply;
}

static bool ask(struct task *task, const struct request *request, struct reply *reply)
{
    return send(task->channel[0], request, sizeof *request, MSG_NOSIGNAL) == sizeof *request && wait_for(task, reply);
}

/* How many bytes a process has had read from devices. */
static long read_in(pid_t process)
{
    static const char key[] = "\nread_bytes: ";
    char path[64], text[1024];
    snprintf(path, sizeof path, "/proc/%d/io", process);
    char *value = read_text(path, text, sizeof text) ? NULL : strstr(text, key);
    return value ? atol(value + sizeof key - 1) : 0;
}

/* ---- the shell's lines */

static void make_group(void)
{
    int error = write_text(path_of(parent_of(word[1]), "cgroup.subtree_control"), "+memory");
    if (!error && mkdir(path_of(word[1], ""), 0755))
        error = errno;
    answer_error(error);
}

/* A parent without children may have tasks again, which the kernel allows where it has no controllers on for children. */
static void remove_group(void)
{
    struct stat parent;
    const char *above = parent_of(word[1]);
    if (rmdir(path_of(word[1], ""))) {
        answer_error(errno);
    } else if (strcmp(above, "/") && !stat(path_of(above, ""), &parent) && parent.st_nlink == 2) {
        write_text(path_of(above, "cgroup.subtree_control"), "-memory");
    }
}

static int move_task(const struct task *task, const char *group)
{
    char process[16];
    snprintf(process, sizeof process, "%d", task->process);
    return write_text(path_of(group, "cgroup.procs"), process);
}

static void start_task(void)
{
    struct task *task = find_task(atoi(word[1]));
    struct reply reply;
    fflush(stdout);
    task->process = fork();
    if (task->process == 0)
        be_task(task->number);
    if (task->process < 0 || !wait_for(task, &reply))
        give_up("a task's process");
    int error = move_task(task, word[2]);
    if (error) {
        kill(task->process, SIGKILL);
        bury(task, false);
    }
    answer_error(error);
}

static void attach_task(void)
{
    struct task *task = find_task(atoi(word[1]));
    answer_error(!task || task->dead ? ESRCH : move_task(task, word[2]));
}

static bool is_limit(const char *file)
{
    return !strcmp(file, "memory.max") || !strcmp(file, "memory.min") || !strcmp(file, "memory.low");
}

/* An amount of the script, as digits and a suffix, in bytes of the kernel; any other text as it stands. */
static void scale(const char *file, const char *amount, char *text, size_t size)
{
    char *end;
    long pages = strtol(amount, &end, 10) * (*end == 'K' ? 1024 : *end == 'M' ? 1024 * 1024 : 1) / REAL_PAGE;
    bool is_amount = isdigit((unsigned char)*amount) && (!*end || (strchr("KM", *end) && !end[1]));
    if (!is_amount || !strcmp(file, "memory.oom.group"))
        snprintf(text, size, "%s", amount);
    else
        snprintf(text, size, "%ld", pages * page + (is_limit(file) && pages ? slack : 0));
}

/* Whether the script has a line "#linux root". */
static bool reclaims_machine;

static void set_file(void)
{
    char text[64];
    bool of_machine = reclaims_machine && !strcmp(word[1], "/") && !strcmp(word[2], "memory.reclaim");
    scale(word[2], word[3], text, sizeof text);
    int error = write_text(of_machine ? "/cg/memory.reclaim" : path_of(word[1], word[2]), text);
    tell_kills();
    answer_error(error);
}

static double in_pages(long bytes)
{
    return (double)bytes / page;
}

/* Of the many keys of memory.stat those that memcgrun has, and of the events those that are the memory's. */
static void show_line(const char *file, char *line)
{
    char *value = strchr(line, ' ');
    if (!strncmp(file, "memory.events", 13)) {
        if (strncmp(line, "sock", 4))
            answer("%s", line);
    } else if (!strcmp(file, "memory.stat")) {
        if (!strncmp(line, "anon ", 5) || !strncmp(line, "file ", 5))
            answer("%.4s %.2f", line, in_pages(atol(value)));
    } else if (isdigit((unsigned char)*line) && strcmp(file, "memory.oom.group")) {
        long bytes = atol(line);
        answer("%.2f", in_pages(is_limit(file) && bytes > slack ? bytes - slack : bytes));
    } else {
        answer("%s", line);
    }
}

/* With LOOK=y, the generations of the machine's root and of each group of the script, a line each: "# lru GROUP", and for each
 * generation its number and its pages of memory and of files, as in " 3:4.00/0.50". */
static void show_generations(void)
{
    static char text[MAX_TEXT * 4];
    bool shown = false;
    if (read_text("/dbg/lru_gen", text, sizeof text))
        return;
    for (char *line = strtok(text, "\n"); line; line = strtok(NULL, "\n")) {
        char group[128];
        long number, age, anon, file;
        if (sscanf(line, "memcg %*d %127s", group) == 1) {
            if (shown)
                printf("\n");
            shown = !strcmp(group, "/") || !strcmp(group, "/s") || !strncmp(group, "/s/", 3);
            if (shown)
                printf("# lru %s", group);
        } else if (shown && sscanf(line, "%ld %ld %ld %ld", &number, &age, &anon, &file) == 4) {
            printf(" %ld:%.2f/%.2f", number, in_pages(anon * REAL_PAGE), in_pages(file * REAL_PAGE));
        }
    }
    if (shown)
        printf("\n");
}

static void show_file(void)
{
    static char text[MAX_TEXT];
    settle();
    int error = read_text(path_of(word[1], word[2]), text, sizeof text);
    for (char *line = strtok(text, "\n"); line; line = strtok(NULL, "\n"))
        show_line(word[2], line);
    answer_error(error);
    show_generations();
}

/* ---- a task's lines */

static bool read_request(struct request *request)
{
    static const struct { const char *name; enum action action; bool of_file; int words; } forms[] = {
        { "write", WRITE, false, 5 }, { "read", READ, false, 4 }, { "free", FREE, false, 3 }, { "fwrite", FILE_WRITE, true, 6 },
        { "fread", FILE_READ, true, 5 }, { "fork", FORK, false, 3 }, { "exit", EXIT, false, 2 },
    };
    for (size_t i = 0; i < sizeof forms / sizeof forms[0]; i++) {
        if (strcmp(word[1], forms[i].name) || words != forms[i].words)
            continue;
        int next = 2;
        memset(request, 0, sizeof *request);
        request->action = forms[i].action;
        if (forms[i].of_file)
            snprintf(request->file, sizeof request->file, "%s", word[next++]);
        request->child = request->page = next < words ? atol(word[next]) : 0;
        request->offset = next + 1 < words ? atol(word[next + 1]) : 0;
        request->byte = next + 2 < words ? atol(word[next + 2]) : 0;
        return request->page < PAGES && request->offset < REAL_PAGE;
    }
    return false;
}

static void begin_child(const struct request *request, const struct reply *reply)
{
    struct task *child = find_task(request->child);
    struct reply ready;
    child->process = reply->child;
    if (!wait_for(child, &ready))
        give_up("a child");
}

static void tell_byte(int number, const struct reply *reply, long bytes_in)
{
    char note[64] = "";
    if (bytes_in >= page / 20)
        snprintf(note, sizeof note, "  # %.2f read in", in_pages(bytes_in));
    if (reply->mixed)
        answer("%d mixed%s", number, note);
    else
        answer("%d %d%s", number, reply->byte, note);
}

static void run_task(void)
{
    struct task *task = find_task(atoi(word[0]));
    struct request request;
    struct reply reply = { 0 };
    if (!read_request(&request))
        give_up("a line that isn't understood");
    if (!task || !task->process || task->dead) {
        answer(task && task->killed ? "%s killed" : "%s ESRCH", word[0]);
        return;
    }
    long before = read_in(task->process);
    bool replied = ask(task, &request, &reply);
    if (request.action == EXIT) {
        bury(task, false);
    } else if (replied && request.action == FORK && !reply.error) {
        begin_child(&request, &reply);
    }
    tell_kills();
    if (task->killed)
        answer("%d killed", task->number);
    else if (reply.error)
        answer("%d %s", task->number, strerrorname_np(reply.error));
    else if (request.action == READ || request.action == FILE_READ)
        tell_byte(task->number, &reply, read_in(task->process) - before);
}

/* ---- the script */

/* Takes the line apart, and says whether it is one that isn't skipped. */
static bool split(char *line)
{
    words = 0;
    for (char *next = strtok(line, " \t\r\n"); next && words < MAX_WORDS; next = strtok(NULL, " \t\r\n"))
        word[words++] = next;
    word[words] = NULL;
    return words > 0 && word[0][0] != '#';
}

static void for_each_line(const char *path, void (*act)(bool counts))
{
    char line[1024];
    FILE *script = fopen(path, "re");
    if (!script)
        give_up(path);
    line_number = 0;
    while (fgets(line, sizeof line, script)) {
        bool counts = split(line);
        line_number += counts;
        if (words)
            act(counts);
    }
    fclose(script);
}

/* The first time through a script: what the machine has to have before the first line is carried out. */
static long swap_pages;
static bool recursive;

static void note_header(bool counts)
{
    if (!counts && words == 3 && !strcmp(word[0], "#linux") && !strcmp(word[1], "page"))
        page = atol(word[2]) * (strchr(word[2], 'M') ? 1 << 20 : 1 << 10);
    else if (!counts && words == 2 && !strcmp(word[0], "#linux") && !strcmp(word[1], "root"))
        reclaims_machine = true;
    else if (!strcmp(word[0], "swap"))
        swap_pages = atol(word[1]);
    else if (!strcmp(word[0], "recursiveprot"))
        recursive = true;
    else if (!strcmp(word[0], "task"))
        add_task(atoi(word[1]));
    else if (words == 3 && !strcmp(word[1], "fork"))
        add_task(atoi(word[2]));
}

/* A file of zeros on the disk, of which nothing is in memory. */
static void make_file(bool counts)
{
    static const char zeros[MAX_TEXT];
    char path[128];
    if (!counts || strcmp(word[0], "file"))
        return;
    snprintf(path, sizeof path, "/mnt/%s", word[1]);
    int file = open(path, O_WRONLY | O_CREAT | O_TRUNC | O_CLOEXEC, 0600);
    for (long left = atol(word[2]) * page; left > 0; left -= sizeof zeros)
        if (write(file, zeros, sizeof zeros) != sizeof zeros)
            give_up(path);
    fsync(file);
    close(file);
}

static void remove_file(bool counts)
{
    char path[128];
    if (!counts || strcmp(word[0], "file"))
        return;
    snprintf(path, sizeof path, "/mnt/%s", word[1]);
    unlink(path);
}

static void carry_out(bool counts)
{
    static const struct { const char *name; int words; void (*act)(void); } forms[] = {
        { "group", 2, make_group }, { "rmdir", 2, remove_group }, { "task", 3, start_task },
        { "attach", 3, attach_task }, { "set", 4, set_file }, { "cat", 3, show_file },
    };
    static const char *const header[] = { "frames", "swap", "file", "recursiveprot" };
    if (!counts)
        return;
    if (isdigit((unsigned char)word[0][0]) && words > 1) {
        run_task();
        return;
    }
    for (size_t i = 0; i < sizeof forms / sizeof forms[0]; i++) {
        if (!strcmp(word[0], forms[i].name) && words == forms[i].words) {
            forms[i].act();
            return;
        }
    }
    for (size_t i = 0; i < sizeof header / sizeof header[0]; i++)
        if (!strcmp(word[0], header[i]))
            return;
    give_up("a line that isn't understood");
}

static void begin(const char *script)
{
    char swap[32];
    for_each_line(script, note_header);
    slack = page / 8;
    if (mount("none", "/cg", "cgroup2", MS_REMOUNT, recursive ? "memory_recursiveprot" : ""))
        give_up("the options of the groups' file system");
    snprintf(swap, sizeof swap, "%ld", swap_pages * page);
    if (mkdir(ROOT, 0755) || write_text(ROOT "/memory.swap.max", swap))
        give_up(ROOT);
    memory = mmap(NULL, PAGES * page, PROT_READ | PROT_WRITE, MAP_PRIVATE | MAP_ANONYMOUS | MAP_NORESERVE, -1, 0);
    if (memory == MAP_FAILED)
        give_up("address space");
    for_each_line(script, make_file);
    sync();
    write_text("/proc/sys/vm/drop_caches", "3");
    log_file = open("/dev/kmsg", O_RDONLY | O_NONBLOCK | O_CLOEXEC);
    if (log_file < 0 || lseek(log_file, 0, SEEK_END) < 0)
        give_up("the kernel's log");
    settle();
}

/* What is left of tasks and files. The groups are removed by the init. */
static void end(const char *script)
{
    for (int i = 0; i < task_count; i++) {
        if (tasks[i].process && !tasks[i].dead) {
            kill(tasks[i].process, SIGKILL);
            bury(&tasks[i], false);
        }
    }
    for_each_line(script, remove_file);
}

int main(int count, char **arguments)
{
    if (count != 2)
        return 2;
    setvbuf(stdout, NULL, _IOLBF, 0);
    begin(arguments[1]);
    for_each_line(arguments[1], carry_out);
    end(arguments[1]);
    return 0;
}
