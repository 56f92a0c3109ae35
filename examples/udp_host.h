/* What a program with one UDP socket needs around an endpoint: its arguments, a clock, waiting, and
 * the round of hellos. Faults end the program with one line and a status. */
#ifndef UDP_HOST_H
#define UDP_HOST_H

#ifndef _GNU_SOURCE
#define _GNU_SOURCE /* ppoll */
#endif
#include "fennelhammer.h"
#include "fh_hello.h"
#include <arpa/inet.h>
#include <errno.h>
#include <poll.h>
#include <signal.h>
#include <stdio.h>
#include <sys/random.h>
#include <time.h>

/* The status where a file, a secret or a socket is at fault, where the arguments are, where there
 * is no peer or the connection is lost, and behind Ctrl-C. */
enum { FAULT = 1, USAGE = 2, LOST = 3, INTERRUPTED = 130 };

/* Nanoseconds: a second, how long a receiver waits for a sender, how long either waits for a hello
 * that is right once the other is there, and after which time a sender repeats its own. */
#define SECOND 1000000000ull
#define LONGEST_WAIT (60 * SECOND)
#define HELLO_WAIT (5 * SECOND)
#define HELLO_AGAIN (SECOND / 4)

/* What the arguments say, opened. */
typedef struct udp_host {
    bool sending;
    int socket;
    struct sockaddr_in at; /* Where the receiver is. */
    FILE *file;
    uint8_t secret[FH_HELLO_SECRET];
    uint8_t random[FH_HELLO_ID + FH_HELLO_RANDOM], seed[FH_SEED_LENGTH];
} udp_host;

/* Whether Ctrl-C came. */
static volatile sig_atomic_t interrupted;

static void on_interrupt(int signal) { interrupted = signal; }

/* Says what is wrong, in one line, and why where that isn't empty. */
static void say(const char *what, const char *why) {
    fprintf(stderr, "udp_file: %s%s%s\n", what, *why ? ": " : "", why);
}

static void die(int status, const char *what, const char *why) {
    say(what, why);
    exit(status);
}

/* The answer of a call that fails only where memory lacks. */
static int64_t must(int64_t answer) {
    if (answer < 0) die(FAULT, fh_error_text(answer), "");
    return answer;
}

/* What packet protection answered; where memory lacked, the program ends. */
static int of_keys(int answer) {
    if (answer == FH_SEAL_FAILED) die(FAULT, "out of memory", "");
    return answer;
}

/* Closes the file: the status to end with, where all else ended with this one. */
static int end_with(int status, FILE *file) {
    if (fclose(file) == 0 || status != 0) return status;
    say("FILE can't be written", strerror(errno));
    return FAULT;
}

/* The time, in nanoseconds. */
static uint64_t now(void) {
    struct timespec time;
    clock_gettime(CLOCK_MONOTONIC, &time);
    return (uint64_t)time.tv_sec * SECOND + (uint64_t)time.tv_nsec;
}

/* Waits until a datagram is there, a time has come, or Ctrl-C: whether a datagram is there. */
static bool wait_until(int socket, uint64_t until) {
    uint64_t at = now(), left = until > at ? until - at : 0;
    struct timespec wait = {(time_t)(left / SECOND % (1 << 30)), (long)(left % SECOND)};
    struct pollfd waited = {socket, POLLIN, 0};
    return ppoll(&waited, 1, &wait, NULL) > 0;
}

/* Reads a secret from a file of exactly FH_HELLO_SECRET bytes. */
static void read_secret(const char *path, uint8_t *secret) {
    uint8_t bytes[FH_HELLO_SECRET + 1];
    FILE *file = fopen(path, "rb");
    if (!file) die(FAULT, path, strerror(errno));
    size_t len = fread(bytes, 1, sizeof bytes, file);
    if (ferror(file)) die(FAULT, path, strerror(errno));
    if (len < FH_HELLO_SECRET) die(FAULT, path, "too short for a secret, which has 32 bytes");
    if (len > FH_HELLO_SECRET) die(FAULT, path, "too long for a secret, which has 32 bytes");
    memcpy(secret, bytes, FH_HELLO_SECRET);
    fclose(file);
}

/* A UDP socket that sends nothing in fragments, as path MTU discovery wants it; a receiver's is
 * bound to the address. */
static int open_socket(const udp_host *host, const char *port) {
    int large = 4 << 20, probe = IP_PMTUDISC_PROBE, opened = socket(AF_INET, SOCK_DGRAM, 0);
    if (opened < 0) die(FAULT, "socket", strerror(errno));
    /* A system that refuses either carries datagrams all the same: it loses more, or finds out
     * less of the path. */
    setsockopt(opened, SOL_SOCKET, SO_RCVBUF, &large, sizeof large);
    setsockopt(opened, IPPROTO_IP, IP_MTU_DISCOVER, &probe, sizeof probe);
    if (!host->sending && bind(opened, (const struct sockaddr *)&host->at, sizeof host->at))
        die(FAULT, port, strerror(errno));
    return opened;
}

/* Reads the arguments, and opens what they name: a receiver's file last, since that empties it. */
static udp_host begin(int argc, char **argv) {
    udp_host host = {.sending = argc == 6 && strcmp(argv[1], "send") == 0};
    if (!host.sending && !(argc == 6 && strcmp(argv[1], "receive") == 0))
        die(USAGE, "usage: udp_file send|receive ADDRESS PORT FILE SECRET", "");
    char *end;
    unsigned long port = strtoul(argv[3], &end, 10);
    if (*argv[3] < '0' || *argv[3] > '9' || *end || port < 1 || port > 65535)
        die(USAGE, argv[3], "not a port");
    host.at = (struct sockaddr_in){.sin_family = AF_INET, .sin_port = htons((uint16_t)port)};
    if (inet_pton(AF_INET, argv[2], &host.at.sin_addr) != 1)
        die(USAGE, argv[2], "not an IPv4 address");
    read_secret(argv[5], host.secret);
    if (getrandom(host.random, sizeof host.random, 0) < 0 ||
        getrandom(host.seed, sizeof host.seed, 0) < 0)
        die(FAULT, "getrandom", strerror(errno));
    sigaction(SIGINT, &(struct sigaction){.sa_handler = on_interrupt}, NULL);
    host.socket = open_socket(&host, argv[3]);
    host.file = fopen(argv[4], host.sending ? "rb" : "wb");
    if (!host.file) die(FAULT, argv[4], strerror(errno));
    return host;
}

/* Why no peer was met. */
static void not_met(bool sending, bool refused) {
    if (interrupted) die(INTERRUPTED, "interrupted", "");
    if (sending) die(LOST, "no answer in 5 seconds: no receiver, or one with another secret", "");
    die(LOST, refused ? "whoever came has another secret" : "nobody came in 60 seconds", "");
}

/* Tells the own hello, reads the peer's, and connects the socket to the peer. A sender tells its
 * hello again and again, and a receiver once it has the sender's. What is no hello by this secret
 * is skipped; of what comes only a hello by another one shortens the wait. */
static void meet(const udp_host *host, const fh_hello *own, fh_hello *peers) {
    uint8_t bytes[FH_HELLO_MAX + 1];
    uint64_t end = now() + (host->sending ? HELLO_WAIT : LONGEST_WAIT);
    struct sockaddr *at = (struct sockaddr *)&(struct sockaddr_in){0};
    socklen_t size = sizeof host->at;
    bool met = false, refused = false;
    while (!met && !interrupted && now() < end) {
        if (host->sending)
            sendto(host->socket, own->bytes, own->len, 0, (const struct sockaddr *)&host->at, size);
        if (!wait_until(host->socket, host->sending ? now() + HELLO_AGAIN : end)) continue;
        ssize_t len = recvfrom(host->socket, bytes, sizeof bytes, 0, at, &size);
        if (len < 0 || !fh_hello_is(!host->sending, bytes, (size_t)len)) continue;
        met = !of_keys(fh_hello_read(peers, !host->sending, host->secret, bytes, (size_t)len));
        if (!met && !refused && now() + HELLO_WAIT < end) end = now() + HELLO_WAIT;
        refused |= !met;
    }
    if (!met) not_met(host->sending, refused);
    if (connect(host->socket, at, size)) die(FAULT, "connect", strerror(errno));
    if (!host->sending) send(host->socket, own->bytes, own->len, 0);
}

#endif
