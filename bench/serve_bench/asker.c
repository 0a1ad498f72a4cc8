// Clients that ask, each over a connection of its own, and wait for the answer before they ask again.
// asker SOCKET CLIENTS SECONDS BATCH FILE [HELLO]
// The lines of FILE are asked in turn, BATCH at a time; HELLO is a line asked first, beside the time that is taken. A line that ends
// with a backslash is one request with the line behind it: both are sent at once. The reply `rows N` has N lines behind it. It prints
// requests a second, the 50th and the 99th percentile of a batch in microseconds, and the mean bytes of what a request is answered.
#define _GNU_SOURCE
#include <pthread.h>
#include <stdio.h>
#include <stdlib.h>
#include <string.h>
#include <sys/socket.h>
#include <sys/un.h>
#include <time.h>
#include <unistd.h>

enum { MOST_CLIENTS = 64, MOST_TIMES = 1 << 21 };

struct request {
    char *text;
    size_t length;
    int replies;
};

static char *path, *hello;
static struct request *requests_of_file;
static size_t request_count;
static int batch;
static double seconds;

struct client {
    int number;
    double *times, took;
    size_t count, requests, bytes;
};

static double now(void) {
    struct timespec t;
    clock_gettime(CLOCK_MONOTONIC, &t);
    return t.tv_sec + t.tv_nsec * 1e-9;
}

static void fail(const char *what) {
    perror(what);
    exit(1);
}

// Reads until so many replies are whole, and answers how many bytes they had.
static size_t read_replies(int peer, int replies) {
    static __thread char bytes[1 << 20];
    static __thread char head[32];
    size_t head_length = 0, total = 0;
    long rows = 0;
    while (replies > 0) {
        ssize_t got = recv(peer, bytes, sizeof bytes, 0);
        if (got <= 0) fail("recv");
        total += got;
        for (ssize_t i = 0; i < got; i++) {
            if (bytes[i] != '\n') {
                if (head_length < sizeof head - 1) head[head_length++] = bytes[i];
                continue;
            }
            head[head_length] = 0;
            if (rows > 0) rows--;
            else if (!strncmp(head, "rows ", 5)) rows = atol(head + 5);
            if (rows == 0) replies--;
            head_length = 0;
        }
    }
    return total;
}

static void send_all(int peer, const char *bytes, size_t count) {
    while (count > 0) {
        ssize_t sent = send(peer, bytes, count, MSG_NOSIGNAL);
        if (sent <= 0) fail("send");
        bytes += sent;
        count -= sent;
    }
}

static void *ask(void *argument) {
    struct client *client = argument;
    int peer = socket(AF_UNIX, SOCK_STREAM, 0);
    struct sockaddr_un address = {.sun_family = AF_UNIX};
    strncpy(address.sun_path, path, sizeof address.sun_path - 1);
    if (connect(peer, (void *)&address, sizeof address)) fail("connect");
    if (hello) {
        send_all(peer, hello, strlen(hello));
        send_all(peer, "\n", 1);
        read_replies(peer, 1);
    }
    client->times = malloc(MOST_TIMES * sizeof(double));
    char *request = malloc(1 << 22);
    size_t at = client->number * 7919;
    double begun = now(), last = begun;
    while (last - begun < seconds && client->count < MOST_TIMES) {
        size_t length = 0;
        int replies = 0;
        for (int i = 0; i < batch; i++, at++) {
            struct request *next = &requests_of_file[at % request_count];
            memcpy(request + length, next->text, next->length);
            length += next->length;
            replies += next->replies;
        }
        double start = now();
        send_all(peer, request, length);
        client->bytes += read_replies(peer, replies);
        last = now();
        client->times[client->count++] = (last - start) * 1e6;
        client->requests += batch;
    }
    client->took = last - begun;
    close(peer);
    return 0;
}

static int compare(const void *one, const void *other) {
    double a = *(double *)one, b = *(double *)other;
    return (a > b) - (a < b);
}

// Adds a line to the last request, if that goes on, or else to a new one. Whether the request goes on behind it.
static int add_line(char *line, size_t length, int goes_on) {
    static size_t room;
    if (length > 0 && line[length - 1] == '\n') length--;
    int more = length > 0 && line[length - 1] == '\\';
    if (more) length--;
    if (!goes_on) {
        if (request_count == room)
            requests_of_file = realloc(requests_of_file, (room = room ? 2 * room : 1024) * sizeof *requests_of_file);
        requests_of_file[request_count++] = (struct request){0};
    }
    struct request *last = &requests_of_file[request_count - 1];
    last->text = realloc(last->text, last->length + length + 1);
    memcpy(last->text + last->length, line, length);
    last->length += length;
    last->text[last->length++] = '\n';
    last->replies++;
    return more;
}

static void read_requests(const char *name) {
    FILE *file = fopen(name, "r");
    if (!file) fail(name);
    char *line = 0;
    size_t room = 0;
    ssize_t length;
    int goes_on = 0;
    while ((length = getline(&line, &room, file)) > 0) goes_on = add_line(line, length, goes_on);
    free(line);
    fclose(file);
}

int main(int count, char **words) {
    if (count < 6) return 2;
    path = words[1];
    int clients = atoi(words[2]);
    seconds = atof(words[3]);
    batch = atoi(words[4]);
    read_requests(words[5]);
    hello = count > 6 ? words[6] : 0;
    pthread_t threads[MOST_CLIENTS];
    struct client all[MOST_CLIENTS] = {0};
    for (int i = 0; i < clients; i++) {
        all[i].number = i;
        pthread_create(&threads[i], 0, ask, &all[i]);
    }
    size_t batches = 0, requests = 0, bytes = 0;
    double rate = 0;
    for (int i = 0; i < clients; i++) {
        pthread_join(threads[i], 0);
        batches += all[i].count;
        requests += all[i].requests;
        bytes += all[i].bytes;
        rate += all[i].requests / all[i].took;
    }
    double *times = malloc(batches * sizeof(double));
    size_t filled = 0;
    for (int i = 0; i < clients; i++) {
        memcpy(times + filled, all[i].times, all[i].count * sizeof(double));
        filled += all[i].count;
    }
    qsort(times, batches, sizeof(double), compare);
    printf("%.0f %.2f %.2f %.1f\n", rate, times[batches / 2], times[batches * 99 / 100], (double)bytes / requests);
}
