/* Clients that ask and wait for the answer, all in one thread, for tools/bench/serve.

   bench-load PORT lift KIOSKS CARS SECONDS FLOORS    kiosks call; cars go where they are sent and stop there, and an idle one stops at the
                                                      next floor; prints three rows: both, letters, stops
   bench-load PORT alone KIOSKS CARS SECONDS FLOORS   the cars tell where they are and ask no more: ends once all are full; prints letters
   bench-load PORT redis CLIENTS SECONDS              clients set a key each; prints one row
   bench-load PORT greet COUNT KIOSKS                 connections one after another, each greeted; prints nothing

   A row: how many answers, how many refusals among the rest, p50 and p99 of the waiting times in microseconds, and the seconds it took.
   An answer that is none of those that may come ends it with status 1. */
#define _GNU_SOURCE
#include <arpa/inet.h>
#include <errno.h>
#include <netinet/tcp.h>
#include <stdio.h>
#include <stdlib.h>
#include <string.h>
#include <sys/epoll.h>
#include <sys/socket.h>
#include <time.h>
#include <unistd.h>

enum { REFUSED_US = 10000, MOST = 1 << 24 };
enum role { KIOSK, CAR, SETTER, BOTH };

struct client {
    int socket;
    enum role role;
    int index;
    long number;          /* of the command that is asked */
    int floor, up;        /* where a car is */
    int is_stop;          /* whether a car asked a stop, and not its place */
    double asked, wakes;  /* when it asked; when a refused kiosk asks again, else 0 */
    char line[256];
    size_t length;
};

struct row {
    float *delays;
    size_t count, refused;
};

static struct row rows[4];
static int floors = 1, is_alone, is_over;

static double now(void) {
    struct timespec time;
    clock_gettime(CLOCK_MONOTONIC, &time);
    return time.tv_sec * 1e6 + time.tv_nsec / 1e3;
}

static void fail(const char *what, const char *told) {
    fprintf(stderr, "bench-load: %s %s\n", what, told);
    exit(1);
}

static int connected(int port) {
    struct sockaddr_in address = {.sin_family = AF_INET, .sin_port = htons(port), .sin_addr.s_addr = htonl(INADDR_LOOPBACK)};
    int one = 1, handle = socket(AF_INET, SOCK_STREAM, 0);
    if (handle < 0 || connect(handle, (struct sockaddr *)&address, sizeof address) < 0) fail("no connection:", strerror(errno));
    setsockopt(handle, IPPROTO_TCP, TCP_NODELAY, &one, sizeof one);
    return handle;
}

static void say(int handle, const char *text) {
    size_t length = strlen(text);
    if (send(handle, text, length, 0) != (ssize_t)length) fail("not sent:", text);
}

/* Reads the answer to a first line, a byte at a time. */
static void greeted(int handle, char *line, size_t room) {
    size_t length = 0;
    while (length + 1 < room && recv(handle, line + length, 1, 0) == 1 && line[length] != '\n') length++;
    line[length] = 0;
    if (strncmp(line, "READY ", 6) != 0) fail("a greeting:", line);
}

static void keep(struct row *row, double took) {
    if (row->count < MOST) row->delays[row->count++] = took;
}

static void record(enum role role, double took) {
    keep(&rows[role], took);
    if (role != SETTER) keep(&rows[BOTH], took);
}

static void ask(struct client *client) {
    char text[64];
    int own = client->index % floors;
    if (client->role == KIOSK) {
        snprintf(text, sizeof text, "CALL %ld %d\n", client->number, (own + 1 + (int)(client->number % (floors - 1))) % floors);
    } else if (client->role == SETTER) {
        snprintf(text, sizeof text, "SET k%d %ld\r\n", client->index, client->number);
    } else if (client->is_stop) {
        snprintf(text, sizeof text, "STOP %ld %d %s\n", client->number, client->floor, client->up ? "up" : "down");
    } else {
        snprintf(text, sizeof text, "PLACE %d %s\n", client->floor, client->up ? "up" : "down");
    }
    client->wakes = 0;
    client->asked = now();
    say(client->socket, text);
}

/* A car goes where it is sent, and an idle one to the next floor, turning at the ends: so it always has a stop to tell. */
static void go_on(struct client *car, const char *line, double time) {
    char way[8];
    if (car->is_stop) {
        record(CAR, time - car->asked);
        car->number++;
    }
    car->is_stop = sscanf(line, "NEXT %d %7s", &car->floor, way) == 2;
    if (car->is_stop) {
        car->up = way[0] == 'u';
        ask(car);
    } else if (strcmp(line, "IDLE") == 0) {
        if (is_alone) return;
        car->is_stop = 1;
        if (car->floor == (car->up ? floors - 1 : 0)) car->up = !car->up;
        car->floor += car->up ? 1 : -1;
        ask(car);
    } else {
        fail("a car's answer:", line);
    }
}

static void answered(struct client *client, const char *line) {
    double time = now();
    if (client->role == CAR) {
        go_on(client, line, time);
        return;
    }
    if (strncmp(line, client->role == KIOSK ? "CAR " : "+OK", 3) == 0) {
        record(client->role, time - client->asked);
        client->number++;
    } else if (client->role == KIOSK && strcmp(line, "NO 3") == 0) {
        rows[KIOSK].refused++;
        is_over = is_alone && rows[KIOSK].count > 0;
        client->wakes = time + REFUSED_US;
        return;
    } else {
        fail("an answer:", line);
    }
    ask(client);
}

static void hear(struct client *client) {
    ssize_t got = recv(client->socket, client->line + client->length, sizeof client->line - 1 - client->length, 0);
    if (got <= 0) fail("the server", "closed a connection");
    client->length += got;
    client->line[client->length] = 0;
    if (client->line[client->length - 1] != '\n') return;
    client->line[strcspn(client->line, "\r\n")] = 0;
    client->length = 0;
    answered(client, client->line);
}

static void begin(struct client *client, int epoll, int port, enum role role, int index) {
    char line[64];
    struct epoll_event event = {.events = EPOLLIN, .data.ptr = client};
    *client = (struct client){.socket = connected(port), .role = role, .index = index, .number = 1, .floor = index % floors, .up = 1};
    if (role != SETTER) {
        snprintf(line, sizeof line, role == KIOSK ? "KIOSK %d\n" : "CAR %c\n", role == KIOSK ? index : 'A' + index);
        say(client->socket, line);
        greeted(client->socket, line, sizeof line);
        client->number = strtol(line + 6, NULL, 10) + 1;
    }
    epoll_ctl(epoll, EPOLL_CTL_ADD, client->socket, &event);
}

/* The answer is how many seconds it took. */
static double run(struct client *clients, int count, int epoll, double seconds) {
    struct epoll_event events[64];
    double start = now(), end = start + seconds * 1e6;
    for (int i = 0; i < count; i++) ask(&clients[i]);
    for (double time = now(); time < end && !is_over; time = now()) {
        int ready = epoll_wait(epoll, events, 64, 1);
        for (int i = 0; i < ready; i++) hear(events[i].data.ptr);
        time = now();
        for (int i = 0; i < count; i++)
            if (clients[i].wakes && clients[i].wakes <= time) ask(&clients[i]);
    }
    double took = (now() - start) / 1e6;
    for (int i = 0; i < count; i++) close(clients[i].socket);
    return took;
}

static int is_above(const void *a, const void *b) {
    float x = *(const float *)a, y = *(const float *)b;
    return (x > y) - (x < y);
}

static void print(enum role role, double took) {
    struct row *row = &rows[role];
    qsort(row->delays, row->count, sizeof *row->delays, is_above);
    printf("%zu %zu %.1f %.1f %.3f\n", row->count, row->refused, row->count ? row->delays[row->count / 2] : 0,
           row->count ? row->delays[row->count * 99 / 100] : 0, took);
}

static void greet(int port, int count, int kiosks) {
    char line[64];
    for (int i = 0; i < count; i++) {
        int handle = connected(port);
        snprintf(line, sizeof line, "KIOSK %d\n", i % kiosks);
        say(handle, line);
        greeted(handle, line, sizeof line);
        shutdown(handle, SHUT_WR);
        while (recv(handle, line, sizeof line, 0) > 0) {}
        close(handle);
    }
}

int main(int count, char **words) {
    if (count < 5) fail("words:", "PORT lift|alone|redis|greet ..");
    int port = atoi(words[1]), first = atoi(words[3]);
    if (strcmp(words[2], "greet") == 0) {
        greet(port, first, atoi(words[4]));
        return 0;
    }
    is_alone = strcmp(words[2], "alone") == 0;
    int is_lift = is_alone || strcmp(words[2], "lift") == 0, car_count = is_lift ? atoi(words[4]) : 0, epoll = epoll_create1(0);
    if (is_lift) {
        if (count < 7) fail("words:", "PORT lift|alone KIOSKS CARS SECONDS FLOORS");
        floors = atoi(words[6]);
    }
    struct client *clients = calloc(first + car_count, sizeof *clients);
    for (int i = 0; i < 4; i++) rows[i].delays = malloc(MOST * sizeof(float));
    for (int i = 0; i < car_count; i++) begin(&clients[i], epoll, port, CAR, i);
    for (int i = 0; i < first; i++) begin(&clients[car_count + i], epoll, port, is_lift ? KIOSK : SETTER, i);
    double took = run(clients, first + car_count, epoll, atof(words[is_lift ? 5 : 4]));
    if (is_lift && !is_alone) print(BOTH, took);
    print(is_lift ? KIOSK : SETTER, took);
    if (is_lift && !is_alone) print(CAR, took);
    return 0;
}
