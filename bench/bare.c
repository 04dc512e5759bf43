/* bare.c: the least that a server can do: for each of so many connections an accept, a read, a write of so many bytes and a close.
 *
 *   bare SOCKET CONNECTIONS BYTES */
#include <stdio.h>
#include <stdlib.h>
#include <string.h>
#include <sys/socket.h>
#include <sys/un.h>
#include <unistd.h>

static char taken[1 << 16], given[1 << 22] = "HTTP/1.1 200 OK\r\n";

int main(int count, char **words)
{
    struct sockaddr_un address = { .sun_family = AF_UNIX };
    if (count != 4) {
        fprintf(stderr, "usage: bare SOCKET CONNECTIONS BYTES\n");
        return 2;
    }
    long connections = atol(words[2]), bytes = atol(words[3]);
    strncpy(address.sun_path, words[1], sizeof address.sun_path - 1);
    int listener = socket(AF_UNIX, SOCK_STREAM, 0);
    if (bytes > (long)sizeof given || bind(listener, (struct sockaddr *)&address, sizeof address) || listen(listener, 16)) {
        perror(words[1]);
        return 1;
    }
    for (long i = 0; i < connections; i++) {
        int client = accept(listener, NULL, NULL);
        if (read(client, taken, sizeof taken) < 0 || write(client, given, bytes) != bytes)
            return 1;
        close(client);
    }
    return 0;
}
