/* crowd.c: clients of one server at once, at a Unix socket, next to others that say nothing.
 *
 *   crowd SOCKET CLIENTS EACH SILENT     SILENT clients connect and send nothing; then CLIENTS ask for the job at once, each EACH times,
 *                                        one connection for each request
 *
 * It prints the lost replies, the microseconds of a request by the clock, and the least, the median, the 99th part in a hundred and the most
 * of the microseconds that a client waited from its connect to the last byte. */
#include <pthread.h>
#include <stdio.h>
#include <stdlib.h>
#include <string.h>
#include <sys/socket.h>
#include <sys/un.h>
#include <time.h>
#include <unistd.h>

enum { ROOM = 1 << 16, STACK = 1 << 18 };

static const char request[] = "GET /job HTTP/1.1\r\nHost: localhost\r\n\r\n";
static struct sockaddr_un place = {.sun_family = AF_UNIX};
static pthread_barrier_t begin;
static double *waited;
static long each;
static int lost;

static double now(void)
{
    struct timespec time;
    clock_gettime(CLOCK_MONOTONIC, &time);
    return time.tv_sec + time.tv_nsec / 1e9;
}

static int connected(void)
{
    int client = socket(AF_UNIX, SOCK_STREAM | SOCK_CLOEXEC, 0);
    if (client < 0 || connect(client, (const struct sockaddr *)&place, sizeof place)) {
        perror("crowd");
        exit(1);
    }
    return client;
}

/* One request: whether a whole reply of success came. */
static int ask(void)
{
    char room[ROOM];
    size_t taken = 0;
    ssize_t more;
    int client = connected();
    int sent = write(client, request, sizeof request - 1) == sizeof request - 1;
    while (sent && taken < ROOM && (more = read(client, room + taken, ROOM - taken)) > 0)
        taken += more;
    close(client);
    return sent && more == 0 && taken > 12 && memcmp(room, "HTTP/1.1 200", 12) == 0;
}

static void *client_of(void *first)
{
    double *mine = first;
    pthread_barrier_wait(&begin);
    for (long at = 0; at < each; at++) {
        double start = now();
        if (!ask())
            __atomic_add_fetch(&lost, 1, __ATOMIC_RELAXED);
        mine[at] = now() - start;
    }
    return NULL;
}

static int by_size(const void *one, const void *other)
{
    double a = *(const double *)one, b = *(const double *)other;
    return (a > b) - (a < b);
}

int main(int count, char **words)
{
    if (count != 5) {
        fputs("crowd SOCKET CLIENTS EACH SILENT\n", stderr);
        return 2;
    }
    strncpy(place.sun_path, words[1], sizeof place.sun_path - 1);
    long clients = atol(words[2]), silent = atol(words[4]);
    each = atol(words[3]);
    for (long at = 0; at < silent; at++)
        connected();
    long all = clients * each;
    waited = calloc(all, sizeof *waited);
    pthread_t *threads = calloc(clients, sizeof *threads);
    pthread_attr_t small;
    pthread_attr_init(&small);
    pthread_attr_setstacksize(&small, STACK);
    pthread_barrier_init(&begin, NULL, clients + 1);
    for (long at = 0; at < clients; at++)
        pthread_create(&threads[at], &small, client_of, waited + at * each);
    pthread_barrier_wait(&begin);
    double start = now();
    for (long at = 0; at < clients; at++)
        pthread_join(threads[at], NULL);
    double seconds = now() - start;
    qsort(waited, all, sizeof *waited, by_size);
    printf("%d %.1f %.0f %.0f %.0f %.0f\n", lost, seconds / all * 1e6, waited[0] * 1e6, waited[all / 2] * 1e6, waited[all * 99 / 100] * 1e6,
           waited[all - 1] * 1e6);
    return 0;
}
