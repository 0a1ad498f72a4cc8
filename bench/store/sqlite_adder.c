// The same lists by SQLite, in the process that asks: each list is a transaction that adds SIZE rows to a table of features and a row to
// one of records. Write-ahead log, synchronous FULL, as the store of landmap; a connection for each client.
// sqlite_adder FILE CLIENTS LISTS SIZE FIRST
// It prints lists a second, and the 50th and the 99th percentile of a list in microseconds.
#include <pthread.h>
#include <sqlite3.h>
#include <stdio.h>
#include <stdlib.h>
#include <string.h>
#include <time.h>

enum { MOST_CLIENTS = 64, SIDE = 10000000 };

static const char *path;
static int lists, size;
static pthread_barrier_t start;

struct client {
    pthread_t thread;
    unsigned long long first, random;
    double *times, begun, ended;
};

static double now(void) {
    struct timespec t;
    clock_gettime(CLOCK_MONOTONIC, &t);
    return t.tv_sec + t.tv_nsec * 1e-9;
}

static void need(int got, int wanted, sqlite3 *base) {
    if (got == wanted) return;
    fprintf(stderr, "sqlite_adder: %s\n", base ? sqlite3_errmsg(base) : "no memory");
    exit(1);
}

static sqlite3 *opened(void) {
    sqlite3 *base;
    need(sqlite3_open(path, &base), SQLITE_OK, base);
    sqlite3_busy_timeout(base, 60000);
    need(sqlite3_exec(base, "PRAGMA journal_mode = WAL; PRAGMA synchronous = FULL", 0, 0, 0), SQLITE_OK, base);
    return base;
}

static sqlite3_stmt *prepared(sqlite3 *base, const char *text) {
    sqlite3_stmt *statement;
    need(sqlite3_prepare_v2(base, text, -1, &statement, 0), SQLITE_OK, base);
    return statement;
}

static void run(sqlite3 *base, sqlite3_stmt *statement) {
    need(sqlite3_step(statement), SQLITE_DONE, base);
    sqlite3_reset(statement);
}

static int coordinate(struct client *client) {
    client->random = client->random * 6364136223846793005u + 1442695040888963407u;
    return (int)((client->random >> 33) % (2 * SIDE + 1)) - SIDE;
}

static void *add(void *argument) {
    struct client *client = argument;
    sqlite3 *base = opened();
    sqlite3_stmt *begin = prepared(base, "BEGIN IMMEDIATE"), *commit = prepared(base, "COMMIT");
    sqlite3_stmt *feature = prepared(base, "INSERT INTO feature VALUES (?1, ?2, 'north', 'mast', ?3)");
    sqlite3_stmt *record = prepared(base, "INSERT INTO record (line) VALUES (?1)");
    client->times = malloc(lists * sizeof(double));
    char *line = malloc(200 + (size_t)size * 100), shape[64];
    unsigned long long id = client->first;
    pthread_barrier_wait(&start);
    client->begun = now();
    for (int list = 0; list < lists; list++) {
        double sent = now();
        int length = sprintf(line, "{\"changes\":[");
        run(base, begin);
        for (int i = 0; i < size; i++, id++) {
            sprintf(shape, "POINT (%d %d)", coordinate(client), coordinate(client));
            sqlite3_bind_int64(feature, 1, id);
            sqlite3_bind_int64(feature, 2, id);
            sqlite3_bind_text(feature, 3, shape, -1, SQLITE_TRANSIENT);
            run(base, feature);
            length += sprintf(line + length, "%s{\"class\":\"mast\",\"id\":%llu,\"shape\":\"%s\",\"what\":\"add\"}", i ? "," : "", id, shape);
        }
        sprintf(line + length, "],\"kind\":\"applied\",\"number\":%llu,\"seat\":1,\"subject\":\"north\",\"version\":%llu}", id, id);
        sqlite3_bind_text(record, 1, line, -1, SQLITE_TRANSIENT);
        run(base, record);
        run(base, commit);
        client->times[list] = (now() - sent) * 1e6;
    }
    client->ended = now();
    return 0;
}

static int compare(const void *one, const void *other) {
    double a = *(double *)one, b = *(double *)other;
    return (a > b) - (a < b);
}

int main(int count, char **words) {
    if (count != 6) return 2;
    path = words[1];
    int clients = atoi(words[2]);
    lists = atoi(words[3]);
    size = atoi(words[4]);
    unsigned long long first = strtoull(words[5], 0, 10);
    if (clients < 1 || clients > MOST_CLIENTS) return 2;
    sqlite3 *base = opened();
    const char *tables = "CREATE TABLE IF NOT EXISTS feature (id INTEGER PRIMARY KEY, version INTEGER NOT NULL, office TEXT NOT NULL, class TEXT NOT NULL, shape TEXT NOT NULL) STRICT;"
                         "CREATE TABLE IF NOT EXISTS record (number INTEGER PRIMARY KEY, line TEXT NOT NULL) STRICT";
    need(sqlite3_exec(base, tables, 0, 0, 0), SQLITE_OK, base);
    static struct client all[MOST_CLIENTS];
    pthread_barrier_init(&start, 0, clients);
    for (int i = 0; i < clients; i++) {
        all[i].first = first + (unsigned long long)i * lists * size;
        all[i].random = all[i].first;
        pthread_create(&all[i].thread, 0, add, &all[i]);
    }
    double begun = 0, ended = 0, *times = malloc((size_t)clients * lists * sizeof(double));
    for (int i = 0; i < clients; i++) {
        pthread_join(all[i].thread, 0);
        if (i == 0 || all[i].begun < begun) begun = all[i].begun;
        if (all[i].ended > ended) ended = all[i].ended;
        memcpy(times + (size_t)i * lists, all[i].times, lists * sizeof(double));
    }
    int sum = clients * lists;
    qsort(times, sum, sizeof(double), compare);
    printf("%.1f %.1f %.1f\n", sum / (ended - begun), times[sum / 2], times[sum * 99 / 100]);
}
