/* A client of a served folder, to measure the server by: GETATTR of the root by one client that waits for
 * each answer, beside a bare exchange of as many bytes both ways with a process that only answers.
 *
 *   served ask PORT CALLS ROUNDS OWN OTHER
 *                                     the medians of the rounds' microseconds, by turns: of the server, bare;
 *                                     and the least of each.
 *                                     It runs on the processor OWN alone, and the process that only answers on
 *                                     OTHER; the server is to be bound to OTHER too
 *   served idle PORT SESSIONS SECONDS stands still with so many sessions
 */
#define _GNU_SOURCE
#include <arpa/inet.h>
#include <netinet/in.h>
#include <netinet/tcp.h>
#include <sched.h>
#include <stdint.h>
#include <stdio.h>
#include <stdlib.h>
#include <string.h>
#include <sys/socket.h>
#include <time.h>
#include <unistd.h>

enum { CALL = 64, ANSWER = 116, ROUNDS_MOST = 1000 };

static void fail(const char *what)
{
    perror(what);
    exit(1);
}

static struct sockaddr_in here(int port)
{
    struct sockaddr_in at = { .sin_family = AF_INET, .sin_port = htons((uint16_t)port) };
    at.sin_addr.s_addr = htonl(INADDR_LOOPBACK);
    return at;
}

static int prompt(int link)
{
    int one = 1;
    setsockopt(link, IPPROTO_TCP, TCP_NODELAY, &one, sizeof one);
    return link;
}

static int dial(int port)
{
    struct sockaddr_in at = here(port);
    int link = socket(AF_INET, SOCK_STREAM, 0);
    if (link < 0 || connect(link, (struct sockaddr *)&at, sizeof at))
        fail("connect");
    return prompt(link);
}

static int give(int link, const unsigned char *from, size_t count)
{
    for (ssize_t done; count; from += done, count -= (size_t)done)
        if ((done = write(link, from, count)) <= 0)
            return 0;
    return 1;
}

static int take(int link, unsigned char *into, size_t count)
{
    for (ssize_t done; count; into += done, count -= (size_t)done)
        if ((done = read(link, into, count)) <= 0)
            return 0;
    return 1;
}

static void put(unsigned char *at, uint32_t word)
{
    word = htonl(word);
    memcpy(at, &word, 4);
}

/* GETATTR of the root, under xid 1. */
static void getattr(unsigned char *call)
{
    static const uint32_t words[] = { 0x80000000 | (CALL - 4), 1, 0, 2, 100003, 3, 1, 0, 0, 0, 0, 16,
                                      0x4C423031, 0, 0, 1 };
    for (size_t i = 0; i < sizeof words / 4; i++)
        put(call + 4 * i, words[i]);
}

/* This process runs on one processor alone. */
static void bind_to(int processor)
{
    cpu_set_t set;
    CPU_ZERO(&set);
    CPU_SET(processor, &set);
    if (sched_setaffinity(0, sizeof set, &set))
        fail("sched_setaffinity");
}

/* A process on this processor that answers each call by as many bytes as a server does. */
static int bare(int processor)
{
    struct sockaddr_in at = here(0);
    socklen_t size = sizeof at;
    int listener = socket(AF_INET, SOCK_STREAM, 0);
    if (bind(listener, (struct sockaddr *)&at, sizeof at) || listen(listener, 1) ||
        getsockname(listener, (struct sockaddr *)&at, &size))
        fail("listen");
    if (fork() == 0) {
        unsigned char call[CALL], answer[ANSWER] = { 0 };
        bind_to(processor);
        int link = prompt(accept(listener, NULL, NULL));
        while (take(link, call, CALL) && give(link, answer, ANSWER))
            ;
        _exit(0);
    }
    close(listener);
    return dial(ntohs(at.sin_port));
}

static double timed(int link, long calls)
{
    unsigned char call[CALL], answer[ANSWER];
    struct timespec from, to;
    getattr(call);
    clock_gettime(CLOCK_MONOTONIC, &from);
    for (long i = 0; i < calls; i++)
        if (!give(link, call, CALL) || !take(link, answer, ANSWER))
            fail("an exchange");
    clock_gettime(CLOCK_MONOTONIC, &to);
    return (double)(to.tv_sec - from.tv_sec) * 1e6 + (double)(to.tv_nsec - from.tv_nsec) / 1e3;
}

static int is_more(const void *one, const void *other)
{
    double a = *(const double *)one, b = *(const double *)other;
    return (a > b) - (a < b);
}

static double median(double *times, int count)
{
    qsort(times, (size_t)count, sizeof *times, is_more);
    return times[count / 2];
}

static void ask(int port, long calls, int rounds, int own, int other)
{
    double served[ROUNDS_MOST], plain[ROUNDS_MOST];
    int server = dial(port), beside = bare(other);
    bind_to(own);
    for (int i = 0; i < rounds; i++) {
        served[i] = timed(server, calls);
        plain[i] = timed(beside, calls);
    }
    double half = median(served, rounds), half_bare = median(plain, rounds);
    printf("%.0f %.0f %.0f %.0f\n", half, half_bare, served[0], plain[0]);
}

static void idle(int port, int sessions, unsigned seconds)
{
    unsigned char call[CALL], answer[ANSWER];
    getattr(call);
    for (int i = 0; i < sessions; i++) {
        int link = dial(port);
        if (!give(link, call, CALL) || !take(link, answer, ANSWER))
            fail("an exchange");
    }
    puts("stands");
    fflush(stdout);
    sleep(seconds);
}

int main(int count, char **words)
{
    if (count == 7 && !strcmp(words[1], "ask") && atoi(words[4]) > 0 && atoi(words[4]) <= ROUNDS_MOST)
        ask(atoi(words[2]), atol(words[3]), atoi(words[4]), atoi(words[5]), atoi(words[6]));
    else if (count == 5 && !strcmp(words[1], "idle"))
        idle(atoi(words[2]), atoi(words[3]), (unsigned)atoi(words[4]));
    else
        return 2;
    return 0;
}
