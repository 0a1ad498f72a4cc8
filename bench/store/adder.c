// Clients that add features by lists, each over a connection of its own, and look at each reply.
// adder SOCKET CLIENTS LISTS SIZE TOGETHER FIRST
// Each client makes LISTS lists of SIZE additions at random places, sends TOGETHER of them at once, and waits for their replies. The ids
// rise from FIRST, those of each client apart. A reply that is neither `staged` nor `applied V` ends it with status 1.
// It prints lists a second, and the 50th and the 99th percentile of the time from a send to its last reply, in microseconds.
#include <pthread.h>
#include <stdio.h>
#include <stdlib.h>
#include <string.h>
#include <sys/socket.h>
#include <sys/un.h>
#include <time.h>
#include <unistd.h>

enum { MOST_CLIENTS = 64, SIDE = 10000000 };

static const char *path;
static int lists, size, together;
static pthread_barrier_t start;

struct client {
    pthread_t thread;
    unsigned long long first, random;
    double *times, begun, ended;
    int count;
};

static double now(void) {
    struct timespec t;
    clock_gettime(CLOCK_MONOTONIC, &t);
    return t.tv_sec + t.tv_nsec * 1e-9;
}

static void fail(const char *what) {
    fprintf(stderr, "adder: %s\n", what);
    exit(1);
}

static void send_all(int peer, const char *bytes, size_t count) {
    while (count > 0) {
        ssize_t sent = send(peer, bytes, count, MSG_NOSIGNAL);
        if (sent <= 0) fail("the server is gone");
        bytes += sent;
        count -= sent;
    }
}

static void read_replies(int peer, int replies) {
    static __thread char bytes[1 << 16], line[256];
    size_t length = 0;
    while (replies > 0) {
        ssize_t got = recv(peer, bytes, sizeof bytes, 0);
        if (got <= 0) fail("the server is gone");
        for (ssize_t i = 0; i < got; i++) {
            if (bytes[i] != '\n') {
                if (length < sizeof line - 1) line[length++] = bytes[i];
                continue;
            }
            line[length] = 0;
            length = 0;
            if (strcmp(line, "staged") && strncmp(line, "applied ", 8) && strncmp(line, "hello ", 6)) fail(line);
            replies--;
        }
    }
}

static int coordinate(struct client *client) {
    client->random = client->random * 6364136223846793005u + 1442695040888963407u;
    return (int)((client->random >> 33) % (2 * SIDE + 1)) - SIDE;
}

static void *add(void *argument) {
    struct client *client = argument;
    int peer = socket(AF_UNIX, SOCK_STREAM, 0);
    struct sockaddr_un address = {.sun_family = AF_UNIX};
    strncpy(address.sun_path, path, sizeof address.sun_path - 1);
    if (connect(peer, (void *)&address, sizeof address)) fail("no server");
    send_all(peer, "HELLO north\n", 12);
    read_replies(peer, 1);
    client->times = malloc(lists * sizeof(double));
    char *request = malloc((size_t)together * (size + 1) * 80);
    unsigned long long id = client->first;
    pthread_barrier_wait(&start);
    client->begun = now();
    for (int done = 0; done < lists; done += together) {
        int now_together = lists - done < together ? lists - done : together;
        size_t length = 0;
        for (int list = 0; list < now_together; list++) {
            for (int i = 0; i < size; i++) {
                int x = coordinate(client), y = coordinate(client);
                length += sprintf(request + length, "ADD %llu mast POINT (%d %d)\n", id++, x, y);
            }
            length += sprintf(request + length, "COMMIT\n");
        }
        double sent = now();
        send_all(peer, request, length);
        read_replies(peer, now_together * (size + 1));
        client->times[client->count++] = (now() - sent) * 1e6;
    }
    client->ended = now();
    send_all(peer, "BYE\n", 4);
    close(peer);
    return 0;
}

static int compare(const void *one, const void *other) {
    double a = *(double *)one, b = *(double *)other;
    return (a > b) - (a < b);
}

int main(int count, char **words) {
    if (count != 7) return 2;
    path = words[1];
    int clients = atoi(words[2]);
    lists = atoi(words[3]);
    size = atoi(words[4]);
    together = atoi(words[5]);
    unsigned long long first = strtoull(words[6], 0, 10);
    if (clients < 1 || clients > MOST_CLIENTS) return 2;
    static struct client all[MOST_CLIENTS];
    pthread_barrier_init(&start, 0, clients);
    for (int i = 0; i < clients; i++) {
        all[i].first = first + (unsigned long long)i * lists * size;
        all[i].random = all[i].first;
        pthread_create(&all[i].thread, 0, add, &all[i]);
    }
    double begun = 0, ended = 0;
    int sends = 0;
    for (int i = 0; i < clients; i++) {
        pthread_join(all[i].thread, 0);
        if (i == 0 || all[i].begun < begun) begun = all[i].begun;
        if (all[i].ended > ended) ended = all[i].ended;
        sends += all[i].count;
    }
    double *times = malloc(sends * sizeof(double));
    for (int i = 0, filled = 0; i < clients; filled += all[i++].count) memcpy(times + filled, all[i].times, all[i].count * sizeof(double));
    qsort(times, sends, sizeof(double), compare);
    printf("%.1f %.1f %.1f\n", (double)clients * lists / (ended - begun), times[sends / 2], times[sends * 99 / 100]);
}
