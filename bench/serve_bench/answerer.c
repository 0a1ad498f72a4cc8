// What a server can be at best: a thread for each connection, which answers each line with so many bytes.
// answerer SOCKET BYTES
#define _GNU_SOURCE
#include <pthread.h>
#include <stdio.h>
#include <stdlib.h>
#include <string.h>
#include <sys/socket.h>
#include <sys/un.h>
#include <unistd.h>

static char *answer;
static size_t answer_bytes;

static int send_all(int peer, const char *bytes, size_t count) {
    while (count > 0) {
        ssize_t sent = send(peer, bytes, count, MSG_NOSIGNAL);
        if (sent <= 0) return -1;
        bytes += sent;
        count -= sent;
    }
    return 0;
}

static void *serve(void *argument) {
    int peer = (int)(long)argument;
    char *read_bytes = malloc(65536);
    size_t most = 1 << 20, room = most > answer_bytes ? most : answer_bytes;
    char *out = malloc(room);
    for (;;) {
        ssize_t got = recv(peer, read_bytes, 65536, 0);
        if (got <= 0) break;
        size_t filled = 0;
        for (ssize_t i = 0; i < got; i++) {
            if (read_bytes[i] != '\n') continue;
            if (filled + answer_bytes > room) {
                if (send_all(peer, out, filled)) goto done;
                filled = 0;
            }
            memcpy(out + filled, answer, answer_bytes);
            filled += answer_bytes;
        }
        if (send_all(peer, out, filled)) break;
    }
done:
    close(peer);
    free(read_bytes);
    free(out);
    return 0;
}

int main(int count, char **words) {
    if (count != 3) return 2;
    answer_bytes = atol(words[2]);
    answer = malloc(answer_bytes);
    memset(answer, 'x', answer_bytes);
    answer[answer_bytes - 1] = '\n';
    int listener = socket(AF_UNIX, SOCK_STREAM, 0);
    struct sockaddr_un address = {.sun_family = AF_UNIX};
    strncpy(address.sun_path, words[1], sizeof address.sun_path - 1);
    if (bind(listener, (void *)&address, sizeof address) || listen(listener, 128)) return 1;
    printf("listening %s\n", words[1]);
    fflush(stdout);
    for (;;) {
        int peer = accept(listener, 0, 0);
        if (peer < 0) continue;
        pthread_t thread;
        pthread_create(&thread, 0, serve, (void *)(long)peer);
        pthread_detach(thread);
    }
}
