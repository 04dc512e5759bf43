/* client.c: asks two servers in turn, each at a Unix socket, one connection for each request, and tells how long each kind took.
 *
 *   client SOCKET OTHER ROUNDS SETTINGS all      in each round a PATCH of one setting, its commit, a plan of what is owed then, a POST /set of
 *                                                the setting, a GET /verify, and a GET of the setting
 *   client SOCKET OTHER ROUNDS SETTINGS get      in each round the GET alone
 *
 * The settings are `settings.load.k0` and so on, and are taken in no order. For each kind it prints the median of the microseconds from the
 * connect to the last byte, of the one server and of the other, and those of the first and of the last tenth of the one's. ROUNDS is 10 or
 * more. It ends with exit status 1 at an answer of the first server that isn't of success; what the other answers is passed over. */
#include <stdio.h>
#include <stdlib.h>
#include <string.h>
#include <sys/socket.h>
#include <sys/un.h>
#include <time.h>
#include <unistd.h>

enum { KINDS = 6, SERVERS = 2, ROOM = 1 << 20, STEP = 7919 };

static char room[ROOM];

static double now(void)
{
    struct timespec time;
    clock_gettime(CLOCK_MONOTONIC, &time);
    return time.tv_sec + time.tv_nsec / 1e9;
}

static void fail(const char *what)
{
    fprintf(stderr, "client: %s\n", what);
    exit(1);
}

/* One connection: how many seconds it takes, and whether it was answered with success. */
static double ask(const struct sockaddr_un *place, const char *request, int *is_fine)
{
    size_t size = strlen(request), taken = 0;
    double start = now();
    int socket_fd = socket(AF_UNIX, SOCK_STREAM, 0);
    if (socket_fd < 0 || connect(socket_fd, (const struct sockaddr *)place, sizeof *place))
        fail("no connection");
    if (write(socket_fd, request, size) != (ssize_t)size)
        fail("the request was cut short");
    for (ssize_t more; taken < ROOM && (more = read(socket_fd, room + taken, ROOM - taken)) > 0;)
        taken += more;
    close(socket_fd);
    double seconds = now() - start;
    *is_fine = taken > 12 && memcmp(room, "HTTP/1.1 20", 11) == 0;
    return seconds;
}

static void request_of(char *into, size_t size, int kind, long round, long settings)
{
    long key = round * STEP % settings;
    char body[64];
    switch (kind) {
    case 0:
        snprintf(body, sizeof body, "{\"load\":{\"k%ld\":%ld}}", key, (round * STEP + 1) % 1000000);
        snprintf(into, size, "PATCH /settings?tx=bench HTTP/1.1\r\nContent-Length: %zu\r\n\r\n%s", strlen(body), body);
        break;
    case 1:
        snprintf(into, size, "POST /tx/commit?tx=bench HTTP/1.1\r\n\r\n");
        break;
    case 2:
        snprintf(into, size, "GET /plan HTTP/1.1\r\n\r\n");
        break;
    case 3:
        snprintf(body, sizeof body, "{\"load\":{\"k%ld\":%ld}}", key, (round * STEP + 2) % 1000000);
        snprintf(into, size, "POST /set HTTP/1.1\r\nContent-Length: %zu\r\n\r\n%s", strlen(body), body);
        break;
    case 4:
        snprintf(into, size, "GET /verify HTTP/1.1\r\n\r\n");
        break;
    default:
        snprintf(into, size, "GET /settings?keys=settings.load.k%ld HTTP/1.1\r\n\r\n", key);
    }
}

static int by_size(const void *a, const void *b)
{
    double x = *(const double *)a, y = *(const double *)b;
    return (x > y) - (x < y);
}

static double median(double *taken, long count)
{
    qsort(taken, count, sizeof *taken, by_size);
    return taken[count / 2];
}

int main(int count, char **words)
{
    if (count != 6 || atol(words[3]) < 10) {
        fprintf(stderr, "usage: client SOCKET OTHER ROUNDS SETTINGS all|get\n");
        return 2;
    }
    struct sockaddr_un places[SERVERS] = { { .sun_family = AF_UNIX }, { .sun_family = AF_UNIX } };
    long rounds = atol(words[3]), settings = atol(words[4]);
    int first = strcmp(words[5], "get") == 0 ? KINDS - 1 : 0, is_fine;
    double *taken = calloc(KINDS * SERVERS * rounds, sizeof *taken);
    for (int server = 0; server < SERVERS; server++)
        strncpy(places[server].sun_path, words[1 + server], sizeof places[server].sun_path - 1);
    for (long i = 0; i < rounds * KINDS * SERVERS; i++) {
        char request[512];
        int server = i % SERVERS, kind = i / SERVERS % KINDS;
        long round = i / SERVERS / KINDS;
        if (kind < first)
            continue;
        request_of(request, sizeof request, kind, round, settings);
        taken[(kind * SERVERS + server) * rounds + round] = ask(&places[server], request, &is_fine);
        if (server == 0 && !is_fine)
            fail(request);
    }
    for (int kind = first; kind < KINDS; kind++) {
        double *mine = taken + kind * SERVERS * rounds;
        double early = median(mine, rounds / 10), late = median(mine + rounds - rounds / 10, rounds / 10);
        printf("%.1f %.1f %.1f %.1f ", median(mine, rounds) * 1e6, median(mine + rounds, rounds) * 1e6, early * 1e6, late * 1e6);
    }
    printf("\n");
    return 0;
}
