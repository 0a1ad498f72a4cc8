/* A client of a landmap server, in C11 and POSIX: cc -o client client.c && ./client SOCKET < LINES
   Sends the session lines of its standard input, and prints the replies. Ends with status 1 where the server is gone. */
#define _POSIX_C_SOURCE 200809L
#include <signal.h>
#include <stdio.h>
#include <stdlib.h>
#include <string.h>
#include <sys/socket.h>
#include <sys/un.h>
#include <unistd.h>

/* A connection to the server at a path, to read from and to write to; status 1 where there is none. */
static void connect_to(const char *path, FILE **replies, FILE **lines) {
    struct sockaddr_un address = {.sun_family = AF_UNIX};
    int peer = socket(AF_UNIX, SOCK_STREAM, 0);
    if (strlen(path) < sizeof address.sun_path) strcpy(address.sun_path, path);
    if (peer < 0 || connect(peer, (struct sockaddr *)&address, sizeof address) != 0) {
        perror(path);
        exit(1);
    }
    *replies = fdopen(peer, "r");
    *lines = fdopen(dup(peer), "w");
}

/* The lines behind a first line: N behind `rows N` and `rolled N`, none behind any other. */
static unsigned long long rows_behind(const char *first) {
    unsigned long long count = 0;
    if (sscanf(first, "rows %llu", &count) != 1) sscanf(first, "rolled %llu", &count);
    return count;
}

/* The next line of the server, which has a line feed unless the server is gone: then status 1. */
static char *next_line(FILE *replies, char **line, size_t *room) {
    ssize_t length = getline(line, room, replies);
    if (length < 1 || (*line)[length - 1] != '\n') {
        fputs("the server is gone: whether the last line was done, a new SEARCH shows\n", stderr);
        exit(1);
    }
    return *line;
}

int main(int count, char **words) {
    FILE *replies, *lines;
    char *line = NULL, *reply = NULL;
    size_t line_room = 0, reply_room = 0;
    if (count != 2) return 2;
    signal(SIGPIPE, SIG_IGN);
    connect_to(words[1], &replies, &lines);
    while (getline(&line, &line_room, stdin) > 0) {
        fprintf(lines, "%s%s", line, strchr(line, '\n') ? "" : "\n");
        fflush(lines);
        unsigned long long rows = rows_behind(next_line(replies, &reply, &reply_room));
        fputs(reply, stdout);
        if (strcmp(reply, "bye\n") == 0) break;
        while (rows-- > 0) fputs(next_line(replies, &reply, &reply_room), stdout);
    }
    return fflush(stdout) != 0;
}
