/* Answers requests on the loopback by bytes that are always the same: what a server of one thread can do at most.

       answers READ WRITE [FILE MANY KEPT]

   Each piece that comes is taken for one request, of which nothing is parsed. It is answered by what the file READ has,
   if it begins with G as in GET, and else by what WRITE has. It prints the port that it listens on.

   With a FILE (and WITH_SQLITE), C's SQLite makes the statements of each request first. FILE is the database of a
   broker with MANY secrets of KEPT versions, which are as many as are kept. A request is one transaction, which asks
   what has ended, and gets each row that it needs once: the clock, the root token, the mount, the policy, the key, and
   the version that is read. A write puts a version and the key, and deletes the oldest version. The texts and the sizes
   of the values are those of brokerd. */

#define _GNU_SOURCE
#include <arpa/inet.h>
#include <netinet/tcp.h>
#include <signal.h>
#include <sys/epoll.h>
#include <sys/prctl.h>
#include <sys/socket.h>
#include <unistd.h>

#ifdef WITH_SQLITE
#include "statements.h"

static char root[64];
static int many, kept, *versions;

/* Makes the statements of a request, whose secret has its number behind `/key`. */
static void state(const char *request, int is_read)
{
    const char *found = strstr(request, "/key");
    int number = found ? atoi(found + 4) : -1;
    char key[64], version[96];
    check(number >= 0 && number < many, "the number of a secret");
    snprintf(key, sizeof key, "secret/team/key%06d", number);
    begin_request(root);
    must_get(MOUNT, "secret");
    got(POLICY, "root");
    must_get(KV_KEY, key);
    if (is_read) {
        snprintf(version, sizeof version, "%s\n%020d", key, versions[number]);
        must_get(KV_VERSION, version);
    } else {
        snprintf(version, sizeof version, "%s\n%020d", key, ++versions[number]);
        put_row(KV_VERSION, version, "", 0, 43);
        put_row(KV_KEY, key, "", 0, 38);
        snprintf(version, sizeof version, "%s\n%020d", key, versions[number] - kept);
        bind_key(drop, KV_VERSION, version);
        run(drop);
        check(sqlite3_changes(database) == 1, "the oldest version is not there");
    }
    run(commit);
}

static void open_store(char **words)
{
    open_database(words[0], 0);
    find_root(root);
    many = atoi(words[1]);
    kept = atoi(words[2]);
    versions = malloc((size_t)many * sizeof *versions);
    check(versions != NULL, "memory");
    for (int number = 0; number < many; number++)
        versions[number] = kept;
}
#else
#include <stdio.h>
#include <stdlib.h>
#include <string.h>

static void check(int ok, const char *what)
{
    if (!ok) {
        perror(what);
        exit(1);
    }
}
#endif

enum { ROOM = 8192, EVENTS = 512 };

struct reply {
    char text[ROOM];
    size_t length;
};

static struct reply read_reply(const char *path)
{
    struct reply found;
    FILE *file = fopen(path, "rb");
    check(file != NULL, path);
    found.length = fread(found.text, 1, sizeof found.text, file);
    fclose(file);
    return found;
}

/* Listens on a free port, and prints it. */
static int listener(void)
{
    struct sockaddr_in address = {.sin_family = AF_INET, .sin_addr.s_addr = htonl(INADDR_LOOPBACK)};
    socklen_t size = sizeof address;
    int fd = socket(AF_INET, SOCK_STREAM | SOCK_NONBLOCK, 0);
    check(fd >= 0 && bind(fd, (struct sockaddr *)&address, size) == 0 && listen(fd, EVENTS) == 0, "listen");
    check(getsockname(fd, (struct sockaddr *)&address, &size) == 0, "the port");
    printf("%d\n", ntohs(address.sin_port));
    fflush(stdout);
    return fd;
}

static void accept_all(int poll, int from)
{
    int one = 1, fd;
    while ((fd = accept4(from, NULL, NULL, SOCK_NONBLOCK)) >= 0) {
        struct epoll_event event = {.events = EPOLLIN, .data.fd = fd};
        setsockopt(fd, IPPROTO_TCP, TCP_NODELAY, &one, sizeof one);
        check(epoll_ctl(poll, EPOLL_CTL_ADD, fd, &event) == 0, "epoll");
    }
}

static void answer(int fd, const struct reply *reads, const struct reply *writes)
{
    char request[ROOM + 1];
    ssize_t length = read(fd, request, ROOM);
    if (length <= 0) {
        close(fd);
        return;
    }
    int is_read = request[0] == 'G';
    const struct reply *reply = is_read ? reads : writes;
#ifdef WITH_SQLITE
    request[length] = 0;
    if (versions)
        state(request, is_read);
#endif
    if (write(fd, reply->text, reply->length) != (ssize_t)reply->length)
        close(fd);
}

int main(int count, char **words)
{
    struct epoll_event events[EVENTS];
    signal(SIGPIPE, SIG_IGN);
    prctl(PR_SET_PDEATHSIG, SIGKILL);
    check(count >= 3, "usage: answers READ WRITE [FILE MANY KEPT]");
    struct reply reads = read_reply(words[1]), writes = read_reply(words[2]);
#ifdef WITH_SQLITE
    if (count > 5)
        open_store(words + 3);
#endif
    int from = listener(), poll = epoll_create1(0);
    struct epoll_event event = {.events = EPOLLIN, .data.fd = from};
    check(epoll_ctl(poll, EPOLL_CTL_ADD, from, &event) == 0, "epoll");
    for (;;) {
        int found = epoll_wait(poll, events, EVENTS, -1);
        for (int place = 0; place < found; place++)
            if (events[place].data.fd == from)
                accept_all(poll, from);
            else
                answer(events[place].data.fd, &reads, &writes);
    }
}
