/* A car that drives by its building's own times, and asks liftd where to.
 * Build: cc -o car car.c
 * Usage: car PORT LETTER BUILDING FLOOR up|down [IDLES [SPEED [HOME]]]
 * BUILDING is the file of the building's text, FLOOR and the direction where the car is. While it has nothing to do it waits at HOME,
 * the floor with the most kiosks where none is named. It ends once it has been told IDLE so often, where IDLES is above 0, and drives
 * SPEED times as fast as the text says. Its status is then 0; 1 where the group has no such car, or the car another building; 3 where
 * it is told SPENT.
 * With - in place of the port it says on its standard output what it does, and is told on its standard input what comes of it: so
 * liftd-traffic measures it, in simulated time. It does what driving.py does. */
#include <arpa/inet.h>
#include <poll.h>
#include <signal.h>
#include <stdio.h>
#include <stdlib.h>
#include <string.h>
#include <sys/socket.h>
#include <time.h>
#include <unistd.h>

enum { FLOORS = 64, CARS = 16, LEAD_MS = 100, IDLE_MS = 1000, ANSWER_MS = 75000, AGAIN_S = 1, NONE = -1 };

/* What a car is told: a stop, that it has nothing to do (floor NONE), or nothing in time. */
struct stop { int floor; char dir[8]; int is_answered; };

/* The building, as far as this car needs it */
static int floors, serves[FLOORS], home;
static double flight[FLOORS][FLOORS], door_ms;

/* The car */
static const char *letter;
static int port, is_simulated, idles, here;
static char direction[8];
static double speed = 1;

/* The next number of a text from *at on, and where it ends; 0 at the end of a list */
static int number_in(const char **at, double *number) {
    while (**at && !(**at >= '0' && **at <= '9') && **at != ']') {
        if (**at == '#') *at += strcspn(*at, "\n");
        else ++*at;
    }
    if (**at < '0' || **at > '9') return 0;
    char digits[32];
    int count = 0;
    for (; (**at >= '0' && **at <= '9') || **at == '_'; ++*at)
        if (**at != '_' && count < 31) digits[count++] = **at;
    digits[count] = 0;
    *number = atof(digits);
    return 1;
}

/* What stands behind a key at the begin of a line, from a place of the text to another; none where the key doesn't stand there */
static const char *behind(const char *key, const char *from, const char *end) {
    for (const char *line = from; line && line < end; line = strchr(line, '\n'), line = line ? line + 1 : NULL) {
        size_t length = strlen(key), blank = strspn(line, " \t");
        const char *after = line + blank + length;
        if (strncmp(line + blank, key, length) == 0 && *(after += strspn(after, " \t")) == '=') return after + 1;
    }
    return NULL;
}

/* Reads what this car needs of a building's text, written as liftd-building and the examples write it. */
static int read_building(const char *path, int car) {
    static char text[1048577];
    FILE *file = fopen(path, "r");
    if (!file) return 0;
    text[fread(text, 1, sizeof text - 1, file)] = 0;
    fclose(file);
    const char *cars = strstr(text, "[[cars]]"), *end = text + strlen(text), *at;
    double number;
    if (!cars || !(at = behind("floors", text, cars)) || !number_in(&at, &number)) return 0;
    floors = (int)number;
    if (floors < 2 || floors > FLOORS || !(at = behind("door_ms", text, cars)) || !number_in(&at, &door_ms)) return 0;
    if (!(at = behind("flight", text, cars))) return 0;
    for (int i = 0; i < floors; i++, at++)
        for (int j = 0; j < floors; j++)
            if (!number_in(&at, &flight[i][j])) return 0;
    for (int it = 0; it < car; it++)
        if (!(cars = strstr(cars + 1, "[[cars]]"))) return 0;
    const char *next = strstr(cars + 1, "[[cars]]");
    at = behind("serves", cars, next ? next : end);
    for (int floor = 0; floor < floors; floor++) serves[floor] = !at;
    while (at && number_in(&at, &number))
        if (number < floors) serves[(int)number] = 1;
    int kiosks[FLOORS] = {0};
    if (!(at = behind("kiosks", text, end))) return 0;
    while (number_in(&at, &number))
        if (number < floors) kiosks[(int)number]++;
    home = NONE;
    for (int floor = 0; floor < floors; floor++)
        if (serves[floor] && (home == NONE || kiosks[floor] > kiosks[home])) home = floor;
    return home != NONE;
}

/* The clock */

static double simulated_ms;

static double real_ms(void) {
    struct timespec time;
    clock_gettime(CLOCK_MONOTONIC, &time);
    return time.tv_sec * 1e3 + time.tv_nsec / 1e6;
}

static double now_ms(void) { return is_simulated ? simulated_ms : real_ms() * speed; }

static void wait_until(double ms) {
    if (is_simulated) {
        char line[80];
        printf("AT %.3f\n", ms);
        if (!fgets(line, sizeof line, stdin) || sscanf(line, "NOW %lf", &simulated_ms) != 1) exit(0);
    } else {
        double left = (ms - now_ms()) / speed;
        if (left > 0) usleep((useconds_t)(left * 1000));
    }
}

/* The connection */

static int stream = -1, is_owed;
static long last;
static char heard[80];

static void disconnect(void) {
    if (stream >= 0) close(stream);
    stream = -1, is_owed = 0;
}

static int say(const char *line) {
    heard[0] = 0, is_owed = 1;
    return dprintf(stream, "%s\n", line) > 0;
}

/* Whether the answer has come by then; one that doesn't come in time stays owed. -1: the connection is lost. */
static int hear(double until) {
    size_t length;
    while (!strchr(heard, '\n')) {
        struct pollfd ready = {.fd = stream, .events = POLLIN};
        double left = until - real_ms();
        if (poll(&ready, 1, left > 0 ? (int)left + 1 : 0) <= 0) return 0;
        length = strlen(heard);
        ssize_t count = read(stream, heard + length, sizeof heard - 1 - length);
        if (count <= 0) return -1;
        heard[length + (size_t)count] = 0;
    }
    is_owed = 0;
    if (strcmp(heard, "SPENT\n") == 0) {
        fputs("car: SPENT: this car has asked as often as it may since liftd was started; it has to be started again\n", stderr);
        exit(3);
    }
    return 1;
}

static int connected(double until) {
    struct sockaddr_in address = {.sin_family = AF_INET, .sin_port = htons((unsigned short)port)};
    char line[80];
    address.sin_addr.s_addr = htonl(INADDR_LOOPBACK);
    stream = socket(AF_INET, SOCK_STREAM, 0);
    snprintf(line, sizeof line, "CAR %s", letter);
    if (connect(stream, (struct sockaddr *)&address, sizeof address) != 0 || !say(line) || hear(until) != 1) return disconnect(), 0;
    if (strcmp(heard, "BAD\n") == 0) {
        fprintf(stderr, "car: the group has no car %s\n", letter);
        exit(1);
    }
    if (sscanf(heard, "READY %ld", &last) != 1) return disconnect(), 0; /* BUSY or LATE: the seat is in use */
    return 1;
}

/* Asks a line once, until then: 1 where it is answered. */
static int tried(const char *line, double until) {
    if (stream < 0 && !connected(until)) return 0;
    if (is_owed && hear(until) != 1) return 0;
    if (!say(line)) return disconnect(), 0;
    int came = hear(until);
    if (came != 1) return came < 0 ? disconnect() : (void)0, 0;
    if (strncmp(heard, "NEXT", 4) == 0 || strcmp(heard, "IDLE\n") == 0) return 1;
    int reason;
    if (sscanf(heard, "NO %d", &reason) == 1 && (reason < 4 || reason > 6)) {
        fprintf(stderr, "car: %s is refused, reason %d: is the building of the group another one?\n", line, reason);
        exit(1);
    }
    return disconnect(), 0; /* UNKNOWN, LATE or a number that isn't the next: connect again, which tells the last one */
}

static struct stop told(const char *line) {
    struct stop stop = {.floor = NONE, .is_answered = 1};
    if (sscanf(line, "NEXT %d %7s", &stop.floor, stop.dir) != 2) stop.floor = NONE;
    return stop;
}

/* Asks a command; `number` is 0 of a PLACE. With patience it gives up after so many ms, and the car drives on. */
static struct stop ask(const char *word, long number, int floor, const char *dir, int patience) {
    char line[80];
    double until = real_ms() + patience;
    for (;;) {
        if (number) snprintf(line, sizeof line, "%s %ld %d %s", word, number, floor, dir);
        else snprintf(line, sizeof line, "%s %d %s", word, floor, dir);
        if (is_simulated) {
            puts(line);
            if (!fgets(heard, sizeof heard, stdin)) exit(0);
            break;
        }
        if (tried(line, patience ? until : real_ms() + ANSWER_MS)) break;
        if (patience) return (struct stop){.is_answered = 0};
        disconnect();
        sleep(AGAIN_S);
        if (last > number && number) number = last + 1; /* that number was another stop's */
    }
    if (number > last) last = number;
    return told(heard);
}

static struct stop place(int floor, int patience, struct stop before) {
    struct stop stop = ask("PLACE", 0, floor, direction, patience);
    return stop.is_answered ? stop : before;
}

/* Driving */

/* How long before it stands at a floor it has to brake: half the shortest flight there. */
static double braking_ms(int floor) {
    double least = 1e9;
    for (int from = 0; from < floors; from++)
        if (from != floor && flight[from][floor] < least) least = flight[from][floor];
    return least / 2;
}

/* It flies towards a stop, or home where it has none, and gives the next stop as it is once it stands. Without an answer in time it does
 * as it was told last. */
static struct stop fly(struct stop stop) {
    int origin = here, goal = stop.floor == NONE ? home : stop.floor, way = goal > origin ? 1 : -1, floor = origin;
    double since = now_ms();
    strcpy(direction, way > 0 ? "up" : "down");
    for (int next = origin + way; next >= 0 && next < floors; next += way) {
        if (!serves[next]) continue;
        floor = next;
        for (int again = 0; again < 2; again++) { /* as soon as it can stop there next, and just before it has to brake or to pass */
            if (again) wait_until(since + flight[origin][floor] - braking_ms(floor) - LEAD_MS);
            stop = place(floor, LEAD_MS, stop);
            goal = stop.floor == NONE ? home : stop.floor;
        }
        if ((goal - floor) * way <= 0) break;
    }
    wait_until(since + flight[origin][floor]);
    here = floor;
    return place(here, LEAD_MS, stop); /* as it stands, before it shows a direction or opens */
}

/* The doors open, and passengers leave and board; it reports the stop before they close, and keeps them open while the next is here. */
static struct stop exchange(struct stop stop) {
    wait_until(now_ms() + door_ms);
    while (stop.floor == here) {
        strcpy(direction, stop.dir);
        if (!is_simulated) printf("stop %ld: floor %d %s\n", last + 1, here, direction), fflush(stdout);
        stop = ask("STOP", last + 1, here, direction, 0);
    }
    return stop;
}

int main(int count, char **words) {
    if (count < 6 || count > 9) return fputs("usage: car PORT|- LETTER BUILDING FLOOR up|down [IDLES [SPEED [HOME]]]\n", stderr), 2;
    signal(SIGPIPE, SIG_IGN); /* a line to a connection that is gone fails, and doesn't end the car */
    port = atoi(words[1]), letter = words[2], here = atoi(words[4]);
    is_simulated = strcmp(words[1], "-") == 0;
    snprintf(direction, sizeof direction, "%s", words[5]);
    if (count > 6) idles = atoi(words[6]);
    if (count > 7) speed = atof(words[7]);
    if (is_simulated) setvbuf(stdout, NULL, _IOLBF, 0);
    if (!read_building(words[3], letter[0] - 'A')) return fprintf(stderr, "car: %s isn't a building with car %s\n", words[3], letter), 1;
    if (count > 8) home = atoi(words[8]);
    struct stop stop = {.floor = NONE};
    stop = place(here, 0, stop);
    for (;;) {
        if (stop.floor == NONE && --idles == 0) return 0;
        if (stop.floor == here) stop = exchange(stop);
        else if (stop.floor != NONE || here != home) stop = fly(stop);
        else wait_until(now_ms() + IDLE_MS), stop = place(here, 0, stop);
    }
}
