/* Asks a server on the loopback on several connections at once, and prints how many replies came and how soon.

       asks PORT THREADS CONNECTIONS SECONDS REQUESTS [WRITES]

   REQUESTS is a file of requests that are sent over and over again. Each has its length before it, in four bytes, the
   lowest first. On each connection a request is sent when the reply to the one before is there. Each reply has to be a
   200 with a Content-Length. The threads share the connections. If there are WRITES, a further thread sends these on
   one more connection.

   It prints in one line: the replies that came in time, all replies, and the 50th, 99th and 99.9th percentile and the
   greatest of the nanoseconds from a request to the end of its reply, the percentiles to 1/128; the same six of WRITES,
   which are 0 without them; and which part of the time the busiest thread used its processor. A reply that is
   otherwise, or does not come, ends it with status 1. */

#define _GNU_SOURCE
#include <arpa/inet.h>
#include <fcntl.h>
#include <netinet/tcp.h>
#include <pthread.h>
#include <stdint.h>
#include <stdio.h>
#include <stdlib.h>
#include <string.h>
#include <strings.h>
#include <sys/epoll.h>
#include <sys/socket.h>
#include <time.h>
#include <unistd.h>

enum { ROOM = 65536, PATIENCE = 20, EVENTS = 64, MOST_THREADS = 16, STEPS = 128, PLACES = 58 * STEPS };

struct requests {
    int count;
    const char **texts;
    uint32_t *lengths;
};

struct connection {
    int socket;
    uint64_t sent_at;
    size_t length;
    char room[ROOM + 1];
};

/* A thread: every `step`th of the requests is its own, from `next` on. */
struct worker {
    pthread_t thread;
    const struct requests *requests;
    struct connection *connections;
    int count, next, step;
    uint64_t in_time, all, greatest, times[PLACES];
    double busy;
};

static uint64_t until;

static void fail(const char *why)
{
    fprintf(stderr, "asks: %s\n", why);
    exit(1);
}

static void check(int ok, const char *what)
{
    if (!ok) {
        perror(what);
        exit(1);
    }
}

static uint64_t now(clockid_t clock)
{
    struct timespec time;
    clock_gettime(clock, &time);
    return (uint64_t)time.tv_sec * 1000000000u + (uint64_t)time.tv_nsec;
}

/* Where a time is counted: each one below 256 has its own place, and each power of two above has STEPS. */
static int place_of(uint64_t time)
{
    int shift = time < 2 * STEPS ? 0 : 56 - __builtin_clzll(time);
    return shift * STEPS + (int)(time >> shift);
}

/* The least time that is counted at a place. */
static uint64_t time_at(int place)
{
    int shift = place < 2 * STEPS ? 0 : place / STEPS - 1;
    return (uint64_t)(place - shift * STEPS) << shift;
}

static struct requests read_requests(const char *path)
{
    FILE *file = fopen(path, "rb");
    struct requests found = {0};
    uint32_t length;
    check(file != NULL, path);
    while (fread(&length, sizeof length, 1, file) == 1) {
        char *text = malloc(length);
        found.texts = realloc(found.texts, (size_t)(found.count + 1) * sizeof *found.texts);
        found.lengths = realloc(found.lengths, (size_t)(found.count + 1) * sizeof *found.lengths);
        check(text && found.texts && found.lengths && fread(text, 1, length, file) == length, path);
        found.texts[found.count] = text;
        found.lengths[found.count++] = length;
    }
    fclose(file);
    if (found.count == 0)
        fail("there are no requests");
    return found;
}

static void connect_to(int port, struct connection *connection)
{
    struct sockaddr_in address = {.sin_family = AF_INET, .sin_port = htons((uint16_t)port),
                                  .sin_addr.s_addr = htonl(INADDR_LOOPBACK)};
    int one = 1, fd = socket(AF_INET, SOCK_STREAM, 0);
    check(fd >= 0 && connect(fd, (struct sockaddr *)&address, sizeof address) == 0, "connect");
    check(setsockopt(fd, IPPROTO_TCP, TCP_NODELAY, &one, sizeof one) == 0, "TCP_NODELAY");
    check(fcntl(fd, F_SETFL, O_NONBLOCK) == 0, "O_NONBLOCK");
    connection->socket = fd;
}

static void ask(struct worker *worker, struct connection *connection, uint64_t at)
{
    const struct requests *requests = worker->requests;
    ssize_t length = requests->lengths[worker->next];
    connection->sent_at = at;
    connection->length = 0;
    check(write(connection->socket, requests->texts[worker->next], (size_t)length) == length, "a request is sent");
    worker->next = (worker->next + worker->step) % requests->count;
}

/* Whether a whole reply is there. */
static int is_whole(struct connection *connection)
{
    char *text = connection->room;
    text[connection->length] = 0;
    char *end = strstr(text, "\r\n\r\n");
    if (!end)
        return 0;
    if (strncmp(text, "HTTP/1.1 200", 12) != 0)
        fail(text);
    for (char *line = text; line < end; line = strstr(line, "\r\n") + 2)
        if (strncasecmp(line, "Content-Length:", 15) == 0) {
            size_t whole = (size_t)(end + 4 - text) + strtoul(line + 15, NULL, 10);
            if (connection->length > whole || whole > ROOM)
                fail("a reply is too long");
            return connection->length == whole;
        }
    fail("a reply has no Content-Length");
    return 0;
}

/* Reads what has come, and counts a reply that is whole; whether the connection waits for no more. */
static int is_over(struct worker *worker, struct connection *connection)
{
    ssize_t length = read(connection->socket, connection->room + connection->length, ROOM - connection->length);
    if (length <= 0)
        fail("a connection broke");
    connection->length += (size_t)length;
    if (!is_whole(connection))
        return 0;
    uint64_t at = now(CLOCK_MONOTONIC), taken = at - connection->sent_at;
    worker->times[place_of(taken)]++;
    worker->all++;
    if (taken > worker->greatest)
        worker->greatest = taken;
    if (at > until)
        return 1;
    worker->in_time++;
    ask(worker, connection, at);
    return 0;
}

static void *work(void *given)
{
    struct worker *worker = given;
    struct epoll_event events[EVENTS];
    int poll = epoll_create1(0), waiting = worker->count;
    uint64_t begin = now(CLOCK_MONOTONIC), used = now(CLOCK_THREAD_CPUTIME_ID);
    check(poll >= 0, "epoll");
    for (int place = 0; place < worker->count; place++) {
        struct connection *connection = &worker->connections[place];
        struct epoll_event event = {.events = EPOLLIN, .data.ptr = connection};
        check(epoll_ctl(poll, EPOLL_CTL_ADD, connection->socket, &event) == 0, "epoll");
        ask(worker, connection, now(CLOCK_MONOTONIC));
    }
    while (waiting > 0) {
        int count = epoll_wait(poll, events, EVENTS, 1000);
        for (int place = 0; place < count; place++)
            waiting -= is_over(worker, events[place].data.ptr);
        if (now(CLOCK_MONOTONIC) > until + PATIENCE * 1000000000ull)
            fail("a reply did not come");
    }
    used = now(CLOCK_THREAD_CPUTIME_ID) - used;
    worker->busy = (double)used / (double)(now(CLOCK_MONOTONIC) - begin);
    close(poll);
    return NULL;
}

static struct worker *worker_of(int port, const struct requests *requests, int count, int place, int step)
{
    struct worker *worker = calloc(1, sizeof *worker);
    struct connection *connections = calloc((size_t)count, sizeof *connections);
    check(worker && connections, "memory");
    worker->requests = requests;
    worker->connections = connections;
    worker->count = count;
    worker->next = place % requests->count;
    worker->step = step;
    for (int number = 0; number < count; number++)
        connect_to(port, &connections[number]);
    return worker;
}

/* The time that a part of all replies did not exceed. */
static uint64_t percentile(const struct worker *sum, double part)
{
    uint64_t counted = 0;
    for (int place = 0; place < PLACES; place++) {
        counted += sum->times[place];
        if (counted > 0 && (double)counted >= part * (double)sum->all)
            return time_at(place);
    }
    return sum->greatest;
}

static void tell(struct worker **workers, int count)
{
    static struct worker sum;
    memset(&sum, 0, sizeof sum);
    for (int number = 0; number < count; number++) {
        sum.in_time += workers[number]->in_time;
        sum.all += workers[number]->all;
        if (workers[number]->greatest > sum.greatest)
            sum.greatest = workers[number]->greatest;
        for (int place = 0; place < PLACES; place++)
            sum.times[place] += workers[number]->times[place];
    }
    printf("%lu %lu %lu %lu %lu %lu ", sum.in_time, sum.all, percentile(&sum, 0.5), percentile(&sum, 0.99),
           percentile(&sum, 0.999), sum.greatest);
}

int main(int count, char **words)
{
    if (count < 6)
        fail("usage: asks PORT THREADS CONNECTIONS SECONDS REQUESTS [WRITES]");
    int port = atoi(words[1]), threads = atoi(words[2]), connections = atoi(words[3]), all = 0;
    struct requests requests = read_requests(words[5]), writes = {0};
    struct worker *workers[MOST_THREADS + 1];
    if (threads < 1 || threads > MOST_THREADS || connections < threads)
        fail("there are too few threads or connections, or too many threads");
    for (; all < threads; all++)
        workers[all] = worker_of(port, &requests, connections / threads + (all < connections % threads), all, threads);
    if (count > 6) {
        writes = read_requests(words[6]);
        workers[all++] = worker_of(port, &writes, 1, 0, 1);
    }
    until = now(CLOCK_MONOTONIC) + (uint64_t)(atof(words[4]) * 1e9);
    for (int number = 0; number < all; number++)
        check(pthread_create(&workers[number]->thread, NULL, work, workers[number]) == 0, "a thread");
    double busy = 0;
    for (int number = 0; number < all; number++) {
        pthread_join(workers[number]->thread, NULL);
        busy = workers[number]->busy > busy ? workers[number]->busy : busy;
    }
    tell(workers, threads);
    tell(workers + threads, all - threads);
    printf("%.3f\n", busy);
    return 0;
}
