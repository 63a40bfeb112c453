/* A kiosk: asks for floors, one after another, and prints each car's letter.
 * Build: cc -o kiosk kiosk.c      Usage: kiosk PORT KIOSK FLOOR .. */
#include <arpa/inet.h>
#include <signal.h>
#include <stdio.h>
#include <stdlib.h>
#include <string.h>
#include <sys/socket.h>
#include <sys/time.h>
#include <unistd.h>

static FILE *lines;

/* Sends a line and reads its answer; 0 where the connection is gone. */
static int tell(const char *line, char *answer, int room) {
    return fprintf(lines, "%s\n", line) > 0 && fflush(lines) == 0 && fgets(answer, room, lines) != NULL;
}

/* Connects until the greeting comes, and returns the last number that is in. */
static long connect_to(int port, int kiosk) {
    struct sockaddr_in address = {.sin_family = AF_INET, .sin_port = htons(port)};
    char line[80], answer[80];
    struct timeval wait = {.tv_sec = 75}; /* for each answer */
    long last;
    address.sin_addr.s_addr = htonl(INADDR_LOOPBACK);
    snprintf(line, sizeof line, "KIOSK %d", kiosk);
    for (;; usleep(200000)) { /* BUSY, LATE or no connection yet */
        int stream = socket(AF_INET, SOCK_STREAM, 0);
        if (lines) fclose(lines);
        lines = NULL;
        if (connect(stream, (struct sockaddr *)&address, sizeof address) != 0) {
            close(stream);
            continue;
        }
        setsockopt(stream, SOL_SOCKET, SO_RCVTIMEO, &wait, sizeof wait);
        lines = fdopen(stream, "r+");
        if (!lines || !tell(line, answer, sizeof answer)) continue;
        if (sscanf(answer, "READY %ld", &last) == 1) return last;
        if (strcmp(answer, "BAD\n") == 0) {
            fputs("no such kiosk\n", stderr);
            exit(1);
        }
    }
}

int main(int count, char **words) {
    if (count < 4) return fputs("usage: kiosk PORT KIOSK FLOOR ..\n", stderr), 2;
    signal(SIGPIPE, SIG_IGN); /* a line to a connection that is gone fails, and doesn't end the kiosk */
    int port = atoi(words[1]), kiosk = atoi(words[2]), reason;
    long last = connect_to(port, kiosk);
    char line[80], answer[80], ticket[32] = "", letter;
    for (int at = 3; at < count; at++, ticket[0] = 0)
        for (;;) { /* the number stays the same until the call is answered, so it is never asked twice over */
            snprintf(line, sizeof line, "CALL %ld %d%s", last + 1, atoi(words[at]), ticket);
            if (!tell(line, answer, sizeof answer)) { usleep(200000); connect_to(port, kiosk); continue; }
            if (sscanf(answer, "CAR %c", &letter) == 1) { printf("floor %s: car %c\n", words[at], letter); last++; break; }
            if (sscanf(answer, "NO %d", &reason) == 1) {
                if (reason >= 4 && reason <= 6) { last = connect_to(port, kiosk); continue; } /* the greeting tells the last number */
                printf("floor %s: refused, reason %d\n", words[at], reason);
                break;
            }
            if (sscanf(answer, "WAIT %d", &reason) == 1) { /* a queue in front, as that of proxy.py: ask again with the ticket */
                snprintf(ticket, sizeof ticket, " 1 %d", reason);
                sleep(1);
                continue;
            }
            if (strcmp(answer, "SPENT\n") == 0) {
                fputs("kiosk: SPENT: it has asked as often as it may since liftd was started; it has to be started again\n", stderr);
                return 3;
            }
            usleep(200000); /* UNKNOWN, LATE: ask again with this number, and not at once */
            connect_to(port, kiosk);
        }
    return 0;
}
