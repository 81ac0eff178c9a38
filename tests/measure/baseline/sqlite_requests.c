/* The statements of requests to a broker, over its database and the C library of SQLite.

       sqlite_requests FILE KIND MANY REQUESTS [memory]

   FILE is the database of a broker with MANY secrets and tokens (many_rows.py). Each request is one transaction of the
   statements that brokerd makes for it, with the same texts and values of the same sizes (statements.h). With `memory`
   the database is copied into memory first. It prints the seconds and the processor seconds that the requests took. */

#include "statements.h"

/* An identifier, as many_rows.py makes those of a place: `offset` is 1 for a token, and 2 for its accessor. */
static void identify(char text[37], unsigned long long place, int offset)
{
    const unsigned __int128 spread = (unsigned __int128)0x9E3779B97F4A7C1ull << 64 | 0x5F39CC0605CEDC83ull;
    unsigned __int128 word = (unsigned __int128)(place + 1) * spread << 4 | offset;
    unsigned long long high = (unsigned long long)(word >> 64), low = (unsigned long long)word;
    snprintf(text, 37, "%08llx-%04llx-%04llx-%04llx-%012llx", high >> 32, high >> 16 & 0xffff, high & 0xffff, low >> 48,
             low & 0xffffffffffffull);
}

static void permit(void)
{
    got(POLICY, "root");
}

static void end_request(const char *root)
{
    must_get(TOKEN, root);
    run(commit);
}

static void read_secret(const char *root, const char *key, const char *version)
{
    begin_request(root);
    must_get(MOUNT, "secret");
    permit();
    must_get(KV_KEY, key);
    must_get(KV_VERSION, version);
    end_request(root);
}

static void write_secret(const char *root, const char *key, const char *version)
{
    begin_request(root);
    must_get(MOUNT, "secret");
    must_get(KV_KEY, key);
    permit();
    must_get(MOUNT, "secret");
    must_get(KV_KEY, key);
    put_row(KV_VERSION, version, "", 0, 43);
    put_row(KV_KEY, key, "", 0, 25);
    end_request(root);
}

static void look_up_token(const char *root, const char *token)
{
    begin_request(root);
    permit();
    must_get(TOKEN, token);
    end_request(root);
}

static void create_token(const char *root, const char *token, const char *accessor)
{
    begin_request(root);
    permit();
    got(USED, token + 4);
    got(USED, accessor);
    must_get(TOKEN, root);
    permit();
    put_row(TOKEN, token, root, (long long)time(NULL) + 2764800, 93);
    put_row(ACCESSOR, accessor, token, 0, 9);
    put_row(USED, accessor, "", 0, 1);
    put_row(USED, token + 4, "", 0, 1);
    end_request(root);
}

static void ask(const char *kind, const char *root, int many, int number)
{
    int place = (int)((long long)number * 7919 % many);
    char key[64], version[96], token[48] = "hvs.", accessor[37];
    snprintf(key, sizeof key, "secret/team/key%06d", place);
    snprintf(version, sizeof version, "%s\n%020d", key, strcmp(kind, "write") ? 1 : 2);
    if (strcmp(kind, "create") == 0)
        place = many + number;
    identify(token + 4, place, 1);
    identify(accessor, place, 2);
    if (strcmp(kind, "read") == 0)
        read_secret(root, key, version);
    else if (strcmp(kind, "write") == 0)
        write_secret(root, key, version);
    else if (strcmp(kind, "look_up") == 0)
        look_up_token(root, token);
    else
        create_token(root, token, accessor);
}

static double seconds_of(clockid_t clock)
{
    struct timespec now;
    clock_gettime(clock, &now);
    return (double)now.tv_sec + (double)now.tv_nsec / 1e9;
}

int main(int count, char **words)
{
    check(count >= 5, "usage: sqlite_requests FILE KIND MANY REQUESTS [memory]");
    int many = atoi(words[3]), requests = atoi(words[4]);
    open_database(words[1], count > 5);
    char root[64];
    find_root(root);
    double wall = seconds_of(CLOCK_MONOTONIC), used = seconds_of(CLOCK_PROCESS_CPUTIME_ID);
    for (int number = 0; number < requests; number++)
        ask(words[2], root, many, number);
    used = seconds_of(CLOCK_PROCESS_CPUTIME_ID) - used;
    printf("%.6f %.6f\n", seconds_of(CLOCK_MONOTONIC) - wall, used);
    return 0;
}
