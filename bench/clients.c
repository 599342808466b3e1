/* Clients that send values to a server over the loopback, each a process that opens one connection after another, as
   senders do: it sends one frame, reads the reply to its end, and closes.
   usage: clients PORT CLIENTS VALUES SECONDS    prints how many values were answered as processed */
#include <arpa/inet.h>
#include <netinet/in.h>
#include <netinet/tcp.h>
#include <stdio.h>
#include <stdlib.h>
#include <string.h>
#include <sys/mman.h>
#include <sys/socket.h>
#include <sys/wait.h>
#include <time.h>
#include <unistd.h>

static double now(void) {
    struct timespec t;
    clock_gettime(CLOCK_MONOTONIC, &t);
    return t.tv_sec + t.tv_nsec / 1e9;
}

/* A frame of so many values of the item with this number. */
static char *frame(int item, int values, size_t *size) {
    char *bytes = malloc(64 + (size_t)values * 64), *at = bytes + 13;
    at += sprintf(at, "{\"request\":\"sender data\",\"data\":[");
    for (int i = 0; i < values; i++)
        at += sprintf(at, "%s{\"host\":\"h\",\"key\":\"k%d\",\"value\":\"%d\"}", i ? "," : "", item, i);
    at += sprintf(at, "]}");
    *size = at - bytes;
    unsigned length = *size - 13;
    memcpy(bytes, "ZBXD\1", 5);
    memcpy(bytes + 5, &length, 4);
    memset(bytes + 9, 0, 4);
    return bytes;
}

/* Sends a frame over a connection of its own. Answers whether the reply counts all of its values as processed. */
static int sent(const struct sockaddr_in *server, const char *bytes, size_t size, const char *wanted) {
    char reply[512];
    size_t got = 0;
    int one = 1, connection = socket(AF_INET, SOCK_STREAM, 0);
    setsockopt(connection, IPPROTO_TCP, TCP_NODELAY, &one, sizeof one);
    if (connect(connection, (const struct sockaddr *)server, sizeof *server) == 0) {
        while (size > 0) {
            ssize_t wrote = send(connection, bytes, size, MSG_NOSIGNAL);
            if (wrote <= 0) break;
            bytes += wrote;
            size -= wrote;
        }
        for (ssize_t read; got < sizeof reply - 1 && (read = recv(connection, reply + got, sizeof reply - 1 - got, 0)) > 0;)
            got += read;
    }
    close(connection);
    return memmem(reply, got, wanted, strlen(wanted)) != NULL;
}

int main(int count, char **words) {
    if (count != 5) return fprintf(stderr, "usage: clients PORT CLIENTS VALUES SECONDS\n"), 2;
    int clients = atoi(words[2]), values = atoi(words[3]);
    struct sockaddr_in server = {.sin_family = AF_INET, .sin_port = htons(atoi(words[1]))};
    server.sin_addr.s_addr = htonl(INADDR_LOOPBACK);
    long *all = mmap(NULL, clients * sizeof *all, PROT_READ | PROT_WRITE, MAP_SHARED | MAP_ANONYMOUS, -1, 0), total = 0;
    double end = now() + atof(words[4]);
    for (int client = 0; client < clients; client++) {
        if (fork() != 0) continue;
        size_t size;
        char *bytes = frame(client, values, &size), wanted[32];
        sprintf(wanted, "processed: %d;", values);
        while (now() < end)
            if (sent(&server, bytes, size, wanted)) all[client] += values;
        _exit(0);
    }
    while (wait(NULL) > 0) {}
    for (int client = 0; client < clients; client++) total += all[client];
    printf("%ld\n", total);
    return 0;
}
