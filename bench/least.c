/* least.c: the least that some work can do, and how many microseconds that took.
 *
 *   least change FILE ROUNDS    writes eight bytes over the beginning of the file and flushes them, so often; prints the median
 *   least read FOLDER           reads each file below the folder
 *   least copy FOLDER OTHER     copies each file below the folder, flushing each, and then each folder; OTHER is made */
#define _GNU_SOURCE
#include <dirent.h>
#include <fcntl.h>
#include <stdio.h>
#include <stdlib.h>
#include <string.h>
#include <sys/stat.h>
#include <time.h>
#include <unistd.h>

static char room[1 << 20];

static double now(void)
{
    struct timespec time;
    clock_gettime(CLOCK_MONOTONIC, &time);
    return time.tv_sec * 1e6 + time.tv_nsec / 1e3;
}

static void check(int holds, const char *what)
{
    if (!holds) {
        perror(what);
        exit(1);
    }
}

static int by_size(const void *one, const void *other)
{
    double a = *(const double *)one, b = *(const double *)other;
    return (a > b) - (a < b);
}

static void change(const char *place, long rounds)
{
    double *times = calloc(rounds, sizeof *times);
    int file = open(place, O_WRONLY);
    check(file >= 0 && times, place);
    for (long at = 0; at < rounds; at++) {
        double start = now();
        check(pwrite(file, "12345678", 8, 0) == 8 && fdatasync(file) == 0, place);
        times[at] = now() - start;
    }
    qsort(times, rounds, sizeof *times, by_size);
    printf("%f\n", times[rounds / 2]);
}

/* Reads the file at the name in the folder, and copies it to the other folder, where there is one. */
static void take(int folder, const char *name, int other)
{
    int file = openat(folder, name, O_RDONLY), copy = -1;
    check(file >= 0, name);
    if (other >= 0)
        check((copy = openat(other, name, O_WRONLY | O_CREAT | O_EXCL, 0600)) >= 0, name);
    for (ssize_t size; (size = read(file, room, sizeof room)) > 0;)
        check(copy < 0 || write(copy, room, size) == size, name);
    check(copy < 0 || fsync(copy) == 0, name);
    close(copy);
    close(file);
}

static void walk(int folder, int other)
{
    DIR *entries = fdopendir(folder);
    check(entries != NULL, "folder");
    for (struct dirent *entry; (entry = readdir(entries));) {
        if (entry->d_type == DT_REG)
            take(folder, entry->d_name, other);
        if (entry->d_type != DT_DIR || entry->d_name[0] == '.')
            continue;
        if (other >= 0)
            check(mkdirat(other, entry->d_name, 0700) == 0, entry->d_name);
        walk(openat(folder, entry->d_name, O_RDONLY | O_DIRECTORY), other < 0 ? -1 : openat(other, entry->d_name, O_RDONLY | O_DIRECTORY));
    }
    check(other < 0 || fsync(other) == 0, "fsync");
    close(other);
    closedir(entries);
}

int main(int count, char **words)
{
    double start = now();
    if (count == 4 && !strcmp(words[1], "change")) {
        change(words[2], atol(words[3]));
        return 0;
    }
    if (count == 3 && !strcmp(words[1], "read")) {
        walk(open(words[2], O_RDONLY | O_DIRECTORY), -1);
    } else if (count == 4 && !strcmp(words[1], "copy")) {
        check(mkdir(words[3], 0700) == 0, words[3]);
        walk(open(words[2], O_RDONLY | O_DIRECTORY), open(words[3], O_RDONLY | O_DIRECTORY));
    } else {
        fprintf(stderr, "usage: least change FILE ROUNDS | read FOLDER | copy FOLDER OTHER\n");
        return 2;
    }
    printf("%f\n", now() - start);
    return 0;
}
