/* Makes known what the system tells the program that this library is preloaded into. It needs no header, so that a
   compiler alone builds it, for Linux on x86-64 with the GNU C library.

   KNOWN_ENTROPY=HEX  what `getentropy` gives, over and over: 64 hexadecimal digits
   KNOWN_CLOCK=SECONDS the wall clock begins there, and tells another second at each look; at some it goes back
   KNOWN_MOMENT=FILE  the wall clock tells the second that the file has at the time of the look, in eight bytes
   KNOWN_SPEED=TIMES  the monotonic clock runs so many times as fast
   KNOWN_LOG=FILE     a record for each connection that was accepted, each piece of bytes that was received, each look
                     at the wall clock, and each piece that is about to be sent, in their order */

typedef unsigned long size_t;
typedef long ssize_t;

struct moment {
    long seconds, nanoseconds;
};

struct record {
    int kind;
    int port;
    long value;
};

enum { ACCEPTED = 1, RECEIVED = 2, TOLD = 3, SENDING = 4 };
enum { WALL = 0, MONOTONIC = 1 };
enum { READ_ONLY = 0, WRITE_ONLY = 1, CREATE = 0100, APPEND = 02000 };
enum { LONGEST_STEP = 31, STEP_BACK = 45, OFTEN = 16 };

char *getenv(const char *name);
int open(const char *name, int flags, ...);
ssize_t write(int file, const void *bytes, size_t count);
ssize_t pread(int file, void *bytes, size_t count, long place);
long strtol(const char *text, char **end, int base);
int getpeername(int socket, void *address, unsigned *length);
void *dlsym(void *library, const char *name);

#define NEXT ((void *)-1L)

static int log_file = -2;

/* Writes a record of a socket, whose peer's port it names. */
static void note(int kind, int socket, long value) {
    unsigned char address[128] = {0};
    unsigned length = sizeof address;
    struct record record = {kind, 0, value};
    if (log_file == -2) {
        const char *name = getenv("KNOWN_LOG");
        log_file = name ? open(name, WRITE_ONLY | CREATE | APPEND, 0600) : -1;
    }
    if (log_file < 0) {
        return;
    }
    if (socket >= 0 && getpeername(socket, address, &length) == 0) {
        record.port = address[2] << 8 | address[3];
    }
    write(log_file, &record, sizeof record);
}

static int digit(char c) {
    return c <= '9' ? c - '0' : c - 'a' + 10;
}

int getentropy(void *bytes, size_t count) {
    static int (*real)(void *, size_t);
    const char *digits = getenv("KNOWN_ENTROPY");
    unsigned char *to = bytes;
    if (!digits) {
        real = real ? real : (int (*)(void *, size_t))dlsym(NEXT, "getentropy");
        return real(bytes, count);
    }
    for (size_t place = 0; place < count; place++) {
        const char *from = digits + place % 32 * 2;
        to[place] = digit(from[0]) << 4 | digit(from[1]);
    }
    return 0;
}

/* The next second of a clock that moves on by up to half a minute, and steps back a little now and then. */
static long next_second(const char *begin) {
    static long now, looks;
    unsigned long drawn = ++looks * 2654435761UL >> 7;
    if (now == 0) {
        now = strtol(begin, 0, 10);
    } else {
        now += drawn % LONGEST_STEP;
    }
    return drawn % OFTEN == 0 ? now - STEP_BACK : now;
}

/* The second that a file has. */
static long second_in(const char *name) {
    static int file = -1;
    long second = 0;
    file = file >= 0 ? file : open(name, READ_ONLY);
    pread(file, &second, sizeof second, 0);
    return second;
}

int clock_gettime(int clock, struct moment *time) {
    static int (*real)(int, struct moment *);
    static struct moment first;
    const char *begin = getenv("KNOWN_CLOCK"), *kept = getenv("KNOWN_MOMENT"), *speed = getenv("KNOWN_SPEED");
    real = real ? real : (int (*)(int, struct moment *))dlsym(NEXT, "clock_gettime");
    if (clock == WALL && (begin || kept)) {
        time->seconds = kept ? second_in(kept) : next_second(begin);
        time->nanoseconds = 0;
        note(TOLD, -1, time->seconds);
        return 0;
    }
    int status = real(clock, time);
    if (clock == MONOTONIC && speed && status == 0) {
        if (first.seconds == 0) {
            first = *time;
        }
        long age = (time->seconds - first.seconds) * 1000000000 + time->nanoseconds - first.nanoseconds;
        age *= strtol(speed, 0, 10);
        time->seconds = first.seconds + age / 1000000000;
        time->nanoseconds = age % 1000000000;
    }
    return status;
}

int accept4(int listener, void *address, unsigned *length, int flags) {
    static int (*real)(int, void *, unsigned *, int);
    real = real ? real : (int (*)(int, void *, unsigned *, int))dlsym(NEXT, "accept4");
    int socket = real(listener, address, length, flags);
    if (socket >= 0) {
        note(ACCEPTED, socket, 0);
    }
    return socket;
}

ssize_t recv(int socket, void *bytes, size_t count, int flags) {
    static ssize_t (*real)(int, void *, size_t, int);
    real = real ? real : (ssize_t (*)(int, void *, size_t, int))dlsym(NEXT, "recv");
    ssize_t got = real(socket, bytes, count, flags);
    if (got > 0) {
        note(RECEIVED, socket, got);
    }
    return got;
}

ssize_t send(int socket, const void *bytes, size_t count, int flags) {
    static ssize_t (*real)(int, const void *, size_t, int);
    real = real ? real : (ssize_t (*)(int, const void *, size_t, int))dlsym(NEXT, "send");
    note(SENDING, socket, count);
    return real(socket, bytes, count, flags);
}
