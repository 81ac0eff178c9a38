/* Fails, shortens, counts and records calls of the C library by the program that it is preloaded into. README.md beside
   it says what the variables HOSTILE, HOSTILE_REPORT, HOSTILE_RECORD and HOSTILE_EACH mean, and hostile.py sets them and
   reads the files. It needs no header and no compiler but the toolchain's clang, and runs on Linux on x86-64. */

typedef unsigned long size_t;
typedef long ssize_t;
typedef unsigned long number;

#define EACH_CALL(X)                                                                                                   \
    X(malloc) X(realloc) X(calloc) X(open) X(close) X(read) X(write) X(pread) X(pwrite) X(fsync) X(fdatasync)          \
    X(ftruncate) X(unlink) X(socket) X(bind) X(listen) X(connect) X(accept4) X(recv) X(send) X(poll) X(epoll_wait)     \
    X(epoll_ctl) X(getentropy) X(clock_gettime)

#define CALL(name) CALL_##name,
enum call { EACH_CALL(CALL) CALLS };

#define NAME(name) #name,
static const char *const names[CALLS] = {EACH_CALL(NAME)};

enum { RULES = 8, NAME_SIZE = 16, SIGABRT = 6, SIGKILL = 9, CLOCK_REALTIME = 0, PR_SET_PDEATHSIG = 1 };
enum { O_RDWR = 2, O_CREAT = 0100, O_TRUNC = 01000, O_APPEND = 02000, O_CLOEXEC = 02000000, AT_FDCWD = -100 };
enum { SEEK_SET = 0, SEEK_CUR = 1, SEEK_END = 2, F_DUPFD_CLOEXEC = 1030, HIGH = 500 /* a great descriptor */ };

/* The numbers of the system's calls. */
enum {
    SYS_read = 0, SYS_write = 1, SYS_close = 3, SYS_poll = 7, SYS_lseek = 8, SYS_mmap = 9, SYS_pread = 17,
    SYS_pwrite = 18, SYS_writev = 20, SYS_dup2 = 33, SYS_getpid = 39, SYS_sendfile = 40, SYS_socket = 41,
    SYS_connect = 42, SYS_sendto = 44, SYS_recvfrom = 45, SYS_bind = 49, SYS_listen = 50, SYS_wait4 = 61, SYS_kill = 62,
    SYS_fcntl = 72, SYS_fsync = 74, SYS_fdatasync = 75, SYS_ftruncate = 77, SYS_prctl = 157, SYS_clock_gettime = 228,
    SYS_exit_group = 231, SYS_epoll_wait = 232, SYS_epoll_ctl = 233, SYS_openat = 257, SYS_unlinkat = 263,
    SYS_accept4 = 288, SYS_getrandom = 318, SYS_memfd_create = 319
};

struct timespec { long seconds, nanoseconds; };
struct part { const void *bytes; size_t length; };

/* Calls of the heap; calls whose second argument is a place of bytes and whose third is their number; those of them
   that hand bytes over; and those whose fourth is an offset. */
#define BIT(name) (1UL << CALL_##name)
static const number HEAP = BIT(malloc) | BIT(realloc) | BIT(calloc);
static const number WITH_BYTES = BIT(read) | BIT(write) | BIT(pread) | BIT(pwrite) | BIT(recv) | BIT(send);
static const number HANDING_OVER = BIT(write) | BIT(pwrite) | BIT(send);
static const number AT_AN_OFFSET = BIT(pread) | BIT(pwrite);

/* What a rule does with a call. */
enum act { PASS, FAIL, SHORTEN, KILL, ADD, SET };

struct rule {
    number calls; /* a bit for each call */
    enum act act;
    long value;
    long step; /* above 0: each call so far from the one before is changed in a child process of its own */
    int is_onward; /* and there all later ones too */
};

/* The file of HOSTILE_REPORT, or memory of the same form. It is right at each moment, also after SIGKILL, and the first
   and last of a rule may be written anew while the program runs. */
struct report {
    struct { char name[NAME_SIZE]; number made, changed; } calls[CALLS];
    struct { number first, last, made, changed; } rules[RULES];
};

/* What HOSTILE_RECORD has before the data of a call. */
struct head {
    char name[NAME_SIZE];
    number number;
    long fd, offset, length, result, data;
};

/* What HOSTILE_EACH has before the output and the standard error of a child process. */
struct child {
    number number;
    long written, status, output, error; /* how much the program had written before; the status as wait has it; sizes */
};

extern char **environ;
int fork(void);
int *__errno_location(void);
void *__libc_malloc(size_t size);
void *__libc_realloc(void *old, size_t size);
void *__libc_calloc(size_t count, size_t size);
void __libc_free(void *place);

static struct rule rules[RULES];
static int rules_set;
static struct report untold;
static struct report *report = &untold;
static int recording = -1;
static int children = -1; /* the file of HOSTILE_EACH, and what the child processes write to */
static int child_output, child_error;
static int is_ready, is_child;

static long make(long number, long a, long b, long c, long d, long e, long f) {
    register long r10 __asm__("r10") = d;
    register long r8 __asm__("r8") = e;
    register long r9 __asm__("r9") = f;
    long result;
    __asm__ volatile("syscall" : "=a"(result)
                     : "a"(number), "D"(a), "S"(b), "d"(c), "r"(r10), "r"(r8), "r"(r9)
                     : "rcx", "r11", "memory");
    return result;
}

static size_t length_of(const char *text) {
    size_t length = 0;
    while (text[length] != 0)
        length++;
    return length;
}

static void give_up(const char *why, const char *what) {
    struct part parts[] = {{"hostile: ", 9}, {why, length_of(why)}, {": ", 2}, {what, length_of(what)}, {"\n", 1}};
    make(SYS_writev, 2, (long)parts, 5, 0, 0, 0);
    make(SYS_exit_group, 99, 0, 0, 0, 0, 0);
}

/* Whether the text begins with a word. It is behind the word then. */
static int takes(const char **text, const char *word) {
    const char *rest = *text;
    for (; *word != 0; word++, rest++)
        if (*rest != *word)
            return 0;
    *text = rest;
    return 1;
}

/* Whether the text begins with a number, which may be negative. It is behind it then. */
static int takes_number(const char **text, long *value) {
    const char *rest = *text;
    int is_negative = *rest == '-';
    long found = 0;
    rest += is_negative;
    if (*rest < '0' || *rest > '9')
        return 0;
    for (; *rest >= '0' && *rest <= '9'; rest++)
        found = found * 10 + (*rest - '0');
    *value = is_negative ? -found : found;
    *text = rest;
    return 1;
}

/* Whether the text begins with the name of a call, and with no longer word. It is behind it then. */
static int takes_name(const char **text, enum call *call) {
    for (int it = 0; it < CALLS; it++) {
        const char *rest = *text;
        if (takes(&rest, names[it]) && (*rest == ',' || *rest == ':')) {
            *text = rest;
            *call = it;
            return 1;
        }
    }
    return 0;
}

/* Whether the text begins with the name of an error, or with its number. It is behind it then. */
static int takes_error(const char **text, long *value) {
    static const struct { const char *name; long value; } errors[] = {
        {"EINTR", 4}, {"EIO", 5}, {"EBADF", 9}, {"EAGAIN", 11}, {"ENOMEM", 12}, {"EINVAL", 22}, {"EMFILE", 24},
        {"EFBIG", 27}, {"ENOSPC", 28}, {"EPIPE", 32}, {"ENOSYS", 38}, {"ECONNABORTED", 103}, {"ECONNRESET", 104},
        {"ENOBUFS", 105},
    };
    for (size_t it = 0; it < sizeof errors / sizeof *errors; it++)
        if (takes(text, errors[it].name)) {
            *value = errors[it].value;
            return 1;
        }
    return takes_number(text, value) && *value > 0;
}

static int takes_act(const char **text, struct rule *rule) {
    static const struct { const char *word; enum act act; } acts[] = {
        {"short=", SHORTEN}, {"add=", ADD}, {"set=", SET},
    };
    for (size_t it = 0; it < sizeof acts / sizeof *acts; it++)
        if (takes(text, acts[it].word)) {
            rule->act = acts[it].act;
            return takes_number(text, &rule->value);
        }
    if (takes(text, "kill")) {
        rule->act = KILL;
        return 1;
    }
    rule->act = FAIL;
    return takes_error(text, &rule->value);
}

/* Whether all calls of a rule can be treated as it says. */
static int is_possible(const struct rule *rule) {
    switch (rule->act) {
    case SHORTEN:
        return (rule->calls & ~WITH_BYTES) == 0;
    case ADD:
    case SET:
        return rule->calls == BIT(clock_gettime);
    case KILL:
        return (rule->calls & (HEAP | BIT(clock_gettime))) == 0;
    default:
        return 1;
    }
}

/* Whether the text begins with what tells the last call of a rule. It is behind it then. */
static int takes_last(const char **text, struct rule *rule, long first, long *last) {
    *last = first;
    if (takes(text, "-"))
        return takes_number(text, last) && *last >= first;
    if (takes(text, "/")) {
        *last = -1;
        if (!takes_number(text, &rule->step) || rule->step <= 0)
            return 0;
        rule->is_onward = takes(text, "+");
    } else if (takes(text, "+"))
        *last = -1;
    return 1;
}

/* Whether the text begins with a rule, CALL,CALL..:WHICH:WHAT, which is set then. The text is behind it. */
static int takes_rule(const char **text) {
    struct rule *rule = &rules[rules_set];
    long first, last;
    do {
        enum call call;
        if (!takes_name(text, &call))
            return 0;
        rule->calls |= 1UL << call;
    } while (takes(text, ","));
    if (!takes(text, ":") || !takes_number(text, &first) || first < 0 || !takes_last(text, rule, first, &last))
        return 0;
    if (!takes(text, ":") || !takes_act(text, rule) || !is_possible(rule) || (**text != 0 && **text != ' '))
        return 0;
    report->rules[rules_set].first = first;
    report->rules[rules_set].last = last;
    rules_set++;
    return 1;
}

static void set_rules(const char *all) {
    const char *text = all;
    for (;;) {
        while (takes(&text, " ")) {}
        if (*text == 0)
            return;
        if (rules_set == RULES || !takes_rule(&text))
            give_up("these are not rules", all);
    }
}

static const char *variable(const char *name) {
    for (char **it = environ; *it != 0; it++) {
        const char *text = *it;
        if (takes(&text, name) && takes(&text, "="))
            return text;
    }
    return 0;
}

static long opened(const char *name, long flags) {
    long fd = make(SYS_openat, AT_FDCWD, (long)name, flags | O_RDWR | O_CREAT | O_TRUNC | O_CLOEXEC, 0600, 0, 0);
    if (fd < 0)
        give_up("it cannot be written", name);
    return fd;
}

static void share_report(const char *name) {
    long fd = opened(name, 0), place;
    make(SYS_ftruncate, fd, sizeof *report, 0, 0, 0, 0);
    place = make(SYS_mmap, 0, sizeof *report, 3 /* read and write */, 1 /* shared */, fd, 0);
    if (place < 0 && place > -4096)
        give_up("it cannot be mapped", name);
    make(SYS_close, fd, 0, 0, 0, 0, 0);
    report = (struct report *)place;
}

/* A great descriptor in place of one, if there may be such: those of the program are as usual then. */
static int moved(long fd) {
    long high = make(SYS_fcntl, fd, F_DUPFD_CLOEXEC, HIGH, 0, 0, 0);
    if (high < 0)
        return fd;
    make(SYS_close, fd, 0, 0, 0, 0, 0);
    return high;
}

static void try_each(const char *name) {
    children = moved(opened(name, 0));
    child_output = moved(make(SYS_memfd_create, (long)"output", 0, 0, 0, 0, 0));
    child_error = moved(make(SYS_memfd_create, (long)"error", 0, 0, 0, 0, 0));
}

static void copy_name(char *to, enum call call) {
    for (size_t it = 0; it < NAME_SIZE && names[call][it] != 0; it++)
        to[it] = names[call][it];
}

__attribute__((constructor)) static void set_up(void) {
    const char *told = variable("HOSTILE_REPORT"), *record = variable("HOSTILE_RECORD"), *text = variable("HOSTILE");
    const char *each = variable("HOSTILE_EACH");
    if (told != 0)
        share_report(told);
    for (int it = 0; it < CALLS; it++)
        copy_name(report->calls[it].name, it);
    if (text != 0)
        set_rules(text);
    if (record != 0)
        recording = moved(opened(record, O_APPEND));
    if (each != 0)
        try_each(each);
    for (int it = 0; it < rules_set; it++)
        if (rules[it].step > 0 && each == 0)
            give_up("a rule with a step needs HOSTILE_EACH", text);
    is_ready = 1;
}

static int is_one_of(enum call call, number calls) {
    return calls >> call & 1;
}

static number count(number *counter) {
    return __atomic_add_fetch(counter, 1, __ATOMIC_SEQ_CST);
}

static long seek(int fd, long offset, int from) {
    return make(SYS_lseek, fd, offset, from, 0, 0, 0);
}

static void empty(int fd) {
    make(SYS_ftruncate, fd, 0, 0, 0, 0, 0);
    seek(fd, 0, SEEK_SET);
}

/* The process is a child: it has its own counts, output and place in the input, and the rule is for this call, and for
   the later ones if it says so. It ends with the program. */
static void become_child(int rule, number place) {
    long input = make(SYS_openat, AT_FDCWD, (long)"/proc/self/fd/0", O_CLOEXEC, 0, 0, 0);
    make(SYS_prctl, PR_SET_PDEATHSIG, SIGKILL, 0, 0, 0, 0);
    untold = *report;
    report = &untold;
    report->rules[rule].first = place;
    report->rules[rule].last = rules[rule].is_onward ? -1UL : place;
    rules[rule].step = 0;
    recording = -1;
    is_child = 1;
    make(SYS_dup2, child_output, 1, 0, 0, 0, 0);
    make(SYS_dup2, child_error, 2, 0, 0, 0, 0);
    if (input >= 0) {
        seek(input, seek(0, 0, SEEK_CUR), SEEK_SET);
        make(SYS_dup2, input, 0, 0, 0, 0, 0);
        make(SYS_close, input, 0, 0, 0, 0, 0);
    }
}

static void append(int fd, long size) {
    long from = 0;
    if (size > 0 && make(SYS_sendfile, children, fd, (long)&from, size, 0, 0) != size)
        give_up("it cannot be written", "HOSTILE_EACH");
}

/* Lets a child process go on from here to its end, and writes what came of it. It answers whether this is the child. */
static int is_in_a_child(int rule, number place) {
    struct child child = {.number = place, .written = seek(1, 0, SEEK_CUR)};
    struct part head = {&child, sizeof child};
    int process, status = -1;
    empty(child_output);
    empty(child_error);
    process = fork();
    if (process == 0) {
        become_child(rule, place);
        return 1;
    }
    if (process < 0 || make(SYS_wait4, process, (long)&status, 0, 0, 0, 0) != process)
        give_up("a child process", "it cannot be made, or waited for");
    child.status = status;
    child.output = seek(child_output, 0, SEEK_END);
    child.error = seek(child_error, 0, SEEK_END);
    if (make(SYS_writev, children, (long)&head, 1, 0, 0, 0) != (long)sizeof child)
        give_up("it cannot be written", "HOSTILE_EACH");
    append(child_output, child.output);
    append(child_error, child.error);
    return 0;
}

/* Whether a rule is for the call of such a number. Where it has a step, this is so in the child process alone. */
static int is_for(int rule, number place) {
    number first = report->rules[rule].first;
    if (place < first || place > report->rules[rule].last)
        return 0;
    return rules[rule].step <= 0 || ((place - first) % rules[rule].step == 0 && is_in_a_child(rule, place));
}

/* Counts a call, and answers the number of the rule for it, or -1. A rule counts each call that it names. */
static int rule_for(enum call call, number *made) {
    int found = -1;
    *made = count(&report->calls[call].made);
    for (int it = 0; it < rules_set; it++)
        if (is_one_of(call, rules[it].calls)) {
            number place = count(&report->rules[it].made);
            if (found < 0 && is_for(it, place))
                found = it;
        }
    return found;
}

static void count_change(enum call call, int rule) {
    count(&report->calls[call].changed);
    count(&report->rules[rule].changed);
}

/* Whether an allocation is refused. */
static int is_refused(enum call call) {
    number made;
    int rule = is_ready ? rule_for(call, &made) : -1;
    if (rule < 0 || rules[rule].act != FAIL)
        return 0;
    count_change(call, rule);
    *__errno_location() = rules[rule].value;
    return 1;
}

void *malloc(size_t size) {
    return is_refused(CALL_malloc) ? 0 : __libc_malloc(size);
}

void *realloc(void *old, size_t size) {
    return is_refused(CALL_realloc) ? 0 : __libc_realloc(old, size);
}

void *calloc(size_t items, size_t size) {
    return is_refused(CALL_calloc) ? 0 : __libc_calloc(items, size);
}

/* A child process frees nothing: nearly all that it has is shared with the program, and each page of it that is written
   is copied then, which takes ten times as long as all else that it does. */
void free(void *place) {
    if (!is_child)
        __libc_free(place);
}

static void end_by(long signal) {
    make(SYS_kill, make(SYS_getpid, 0, 0, 0, 0, 0, 0), signal, 0, 0, 0, 0);
}

/* Writes a call that was made, with its data, in one piece. */
static void record(enum call call, number made, long fd, long offset, long length, long result, const void *data,
                   long size) {
    struct head head = {{0}, made, fd, offset, length, result, size > 0 ? size : 0};
    struct part parts[] = {{&head, sizeof head}, {data, head.data}};
    copy_name(head.name, call);
    if (recording >= 0 && make(SYS_writev, recording, (long)parts, 2, 0, 0, 0) != (long)sizeof head + head.data)
        end_by(SIGABRT);
}

/* How many bytes a shortened call is asked for: some at most, or all but some, and one at least. */
static long shortened(long length, long value) {
    long found = value < 0 ? length + value : value;
    return found >= length ? length : found > 0 ? found : length > 0;
}

static long answer(long result) {
    if (result >= 0)
        return result;
    *__errno_location() = -result;
    return -1;
}

/* Makes a call of the system by the rules, records it, and answers as the C library does. */
static long pass(enum call call, long number_of_call, long fd, long b, long c, long d, long e) {
    number made;
    int rule = rule_for(call, &made);
    long asked = c, offset = call == CALL_ftruncate ? b : is_one_of(call, AT_AN_OFFSET) ? d : -1, result;
    enum act act = rule >= 0 ? rules[rule].act : PASS;
    if (act == SHORTEN && is_one_of(call, WITH_BYTES))
        c = shortened(c, rules[rule].value);
    if (act == FAIL || act == KILL || c != asked)
        count_change(call, rule);
    if (act == KILL)
        end_by(SIGKILL);
    result = act == FAIL ? -rules[rule].value : make(number_of_call, fd, b, c, d, e, 0);
    record(call, made, fd, offset, is_one_of(call, WITH_BYTES) ? asked : -1, result, (const void *)b,
           is_one_of(call, HANDING_OVER) ? result : 0);
    return answer(result);
}

ssize_t read(int fd, void *to, size_t length) { return pass(CALL_read, SYS_read, fd, (long)to, length, 0, 0); }
ssize_t write(int fd, const void *of, size_t length) { return pass(CALL_write, SYS_write, fd, (long)of, length, 0, 0); }
ssize_t pread(int fd, void *to, size_t length, long offset) {
    return pass(CALL_pread, SYS_pread, fd, (long)to, length, offset, 0);
}
ssize_t pwrite(int fd, const void *of, size_t length, long offset) {
    return pass(CALL_pwrite, SYS_pwrite, fd, (long)of, length, offset, 0);
}
int close(int fd) { return pass(CALL_close, SYS_close, fd, 0, 0, 0, 0); }
int fsync(int fd) { return pass(CALL_fsync, SYS_fsync, fd, 0, 0, 0, 0); }
int fdatasync(int fd) { return pass(CALL_fdatasync, SYS_fdatasync, fd, 0, 0, 0, 0); }
int ftruncate(int fd, long length) { return pass(CALL_ftruncate, SYS_ftruncate, fd, length, 0, 0, 0); }
int socket(int domain, int type, int protocol) { return pass(CALL_socket, SYS_socket, domain, type, protocol, 0, 0); }
int bind(int fd, const void *address, unsigned length) {
    return pass(CALL_bind, SYS_bind, fd, (long)address, length, 0, 0);
}
int listen(int fd, int backlog) { return pass(CALL_listen, SYS_listen, fd, backlog, 0, 0, 0); }
int connect(int fd, const void *address, unsigned length) {
    return pass(CALL_connect, SYS_connect, fd, (long)address, length, 0, 0);
}
int accept4(int fd, void *address, unsigned *length, int flags) {
    return pass(CALL_accept4, SYS_accept4, fd, (long)address, (long)length, flags, 0);
}
int poll(void *fds, size_t count_of_fds, int timeout) {
    return pass(CALL_poll, SYS_poll, (long)fds, count_of_fds, timeout, 0, 0);
}
int epoll_wait(int fd, void *events, int most, int timeout) {
    return pass(CALL_epoll_wait, SYS_epoll_wait, fd, (long)events, most, timeout, 0);
}
int epoll_ctl(int fd, int what, int other, void *event) {
    return pass(CALL_epoll_ctl, SYS_epoll_ctl, fd, what, other, (long)event, 0);
}
ssize_t recv(int fd, void *to, size_t length, int flags) {
    return pass(CALL_recv, SYS_recvfrom, fd, (long)to, length, flags, 0);
}
ssize_t send(int fd, const void *of, size_t length, int flags) {
    return pass(CALL_send, SYS_sendto, fd, (long)of, length, flags, 0);
}

/* A file that is opened or removed: its path is the data of the record. */
static int pass_path(enum call call, long number_of_call, long folder, const char *path, long flags, long mode) {
    number made;
    int rule = rule_for(call, &made);
    enum act act = rule >= 0 ? rules[rule].act : PASS;
    long result;
    if (act == FAIL || act == KILL)
        count_change(call, rule);
    if (act == KILL)
        end_by(SIGKILL);
    result = act == FAIL ? -rules[rule].value : make(number_of_call, folder, (long)path, flags, mode, 0, 0);
    record(call, made, folder, -1, -1, result, path, length_of(path));
    return answer(result);
}

int openat(int folder, const char *path, int flags, unsigned mode) {
    return pass_path(CALL_open, SYS_openat, folder, path, flags, mode);
}
int open(const char *path, int flags, unsigned mode) { return openat(AT_FDCWD, path, flags, mode); }
int unlink(const char *path) { return pass_path(CALL_unlink, SYS_unlinkat, AT_FDCWD, path, 0, 0); }

int getentropy(void *to, size_t length) {
    long result = pass(CALL_getentropy, SYS_getrandom, (long)to, length, 0, 0, 0);
    return result < 0 ? -1 : 0;
}

/* The clock is one call in which a rule may change the answer: by so many seconds, or to such a moment. */
int clock_gettime(int clock, struct timespec *now) {
    number made;
    int rule = rule_for(CALL_clock_gettime, &made);
    enum act act = rule >= 0 && (clock == CLOCK_REALTIME || rules[rule].act == FAIL) ? rules[rule].act : PASS;
    long result = act == FAIL ? -rules[rule].value : make(SYS_clock_gettime, clock, (long)now, 0, 0, 0, 0);
    if (act == ADD)
        now->seconds += rules[rule].value;
    else if (act == SET)
        now->seconds = rules[rule].value;
    if (act != PASS)
        count_change(CALL_clock_gettime, rule);
    return answer(result);
}
