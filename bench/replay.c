/* replay.c: makes the system calls of a list, one a line, in the working folder, and tells how many seconds they took.
 *
 *   replay LIST            makes the calls of the list
 *   replay LIST SOCKET     the same, where the calls `A` accept a connection at this socket
 *
 * A line is a letter and its operands, split by tabs; bench/device.py makes the lists out of a trace of the program. Files get as
 * many bytes as the program gave them, whatever those were. Errors are passed over: the program met them too. */
#define _GNU_SOURCE
#include <fcntl.h>
#include <stdio.h>
#include <stdlib.h>
#include <string.h>
#include <sys/socket.h>
#include <sys/stat.h>
#include <sys/syscall.h>
#include <sys/time.h>
#include <sys/un.h>
#include <time.h>
#include <unistd.h>

enum { FDS = 4096, PARTS = 4, ROOM = 1 << 24 };

struct call {
    char letter;
    int fd;
    long size;
    char *path;
    char *other;
};

static char room[ROOM];
static int fds[FDS];

static struct call read_call(char *line)
{
    struct call call = { line[0], -1, 0, NULL, NULL };
    char *parts[PARTS] = { NULL };
    int count = 0;
    for (char *part = strtok(line + 1, "\t\n"); part && count < PARTS; part = strtok(NULL, "\t\n"))
        parts[count++] = part;
    switch (call.letter) {
    case 'O':
        call.fd = atoi(parts[0]);
        call.size = atol(parts[1]);
        call.path = strdup(parts[2]);
        break;
    case 'N':
        call.path = strdup(parts[0]);
        call.other = strdup(parts[1]);
        break;
    case 'U': case 'M': case 'D': case 'S':
        call.path = strdup(parts[0]);
        break;
    default:
        call.fd = atoi(parts[0]);
        call.size = parts[1] ? atol(parts[1]) : 0;
    }
    return call;
}

static void make(struct call *call, int listener)
{
    struct stat stat_room;
    struct timeval patience = { 10, 0 };
    int fd = call->fd >= 0 ? fds[call->fd % FDS] : -1;
    long size = call->size < ROOM ? call->size : ROOM;
    switch (call->letter) {
    case 'A': fds[call->fd % FDS] = accept4(listener, NULL, NULL, SOCK_CLOEXEC); break;
    case 'O': fds[call->fd % FDS] = open(call->path, (int)call->size, 0666); break;
    case 'R': (void)!read(fd, room, size); break;
    case 'W': (void)!write(fd, room, size); break;
    case 'F': fsync(fd); break;
    case 'C': close(fd); break;
    case 'P': setsockopt(fd, SOL_SOCKET, SO_RCVTIMEO, &patience, sizeof patience); break;
    case 'H': shutdown(fd, (int)call->size); break;
    case 'G': syscall(SYS_getdents64, fd, room, size); break;
    case 'N': rename(call->path, call->other); break;
    case 'U': unlink(call->path); break;
    case 'M': mkdir(call->path, 0777); break;
    case 'D': rmdir(call->path); break;
    case 'S': lstat(call->path, &stat_room); break;
    }
}

static int listen_at(const char *place)
{
    struct sockaddr_un address = { .sun_family = AF_UNIX };
    strncpy(address.sun_path, place, sizeof address.sun_path - 1);
    int listener = socket(AF_UNIX, SOCK_STREAM | SOCK_CLOEXEC, 0);
    if (bind(listener, (struct sockaddr *)&address, sizeof address) || listen(listener, 16)) {
        perror(place);
        exit(1);
    }
    return listener;
}

int main(int count, char **words)
{
    FILE *list = count > 1 ? fopen(words[1], "r") : NULL;
    if (!list) {
        fprintf(stderr, "usage: replay LIST [SOCKET]\n");
        return 2;
    }
    struct call *calls = NULL;
    size_t many = 0, space = 0;
    char line[16384];
    while (fgets(line, sizeof line, list)) {
        if (many == space) {
            space = space ? 2 * space : 1024;
            calls = realloc(calls, space * sizeof *calls);
        }
        calls[many++] = read_call(line);
    }
    int listener = count > 2 ? listen_at(words[2]) : -1;
    struct timespec start, end;
    clock_gettime(CLOCK_MONOTONIC, &start);
    for (size_t i = 0; i < many; i++)
        make(&calls[i], listener);
    clock_gettime(CLOCK_MONOTONIC, &end);
    printf("%.6f\n", (end.tv_sec - start.tv_sec) + (end.tv_nsec - start.tv_nsec) / 1e9);
    return 0;
}
