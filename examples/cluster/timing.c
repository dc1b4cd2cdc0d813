/* Asks a server for the time over UDP on 127.0.0.1 and tells how many answers a second it gave, and how many were lost.
 *
 *     cc -O2 -o timing examples/cluster/timing.c
 *     ./timing gradsync PORT REQUESTS IN_FLIGHT      the time request of docs/FORMATS.md
 *     ./timing ntp PORT REQUESTS IN_FLIGHT           a client's packet of NTP version 4
 *
 * IN_FLIGHT requests are under way at any time; an answer that is not there within half a second counts as lost. Clocks
 * of gradsync must not fall from answer to answer; the program ends with 1 where they do. */
#include <arpa/inet.h>
#include <poll.h>
#include <stdint.h>
#include <stdio.h>
#include <stdlib.h>
#include <string.h>
#include <sys/socket.h>
#include <time.h>
#include <unistd.h>

static double now(void)
{
    struct timespec t;
    clock_gettime(CLOCK_MONOTONIC, &t);
    return t.tv_sec + t.tv_nsec / 1e9;
}

static void put64(unsigned char *at, uint64_t number)
{
    for (int i = 0; i < 8; i++)
        at[i] = number >> (56 - 8 * i);
}

static uint64_t get64(const unsigned char *at)
{
    uint64_t number = 0;
    for (int i = 0; i < 8; i++)
        number = number << 8 | at[i];
    return number;
}

int main(int argc, char **argv)
{
    if (argc != 5 || (strcmp(argv[1], "gradsync") != 0 && strcmp(argv[1], "ntp") != 0)) {
        fprintf(stderr, "usage: timing gradsync|ntp PORT REQUESTS IN_FLIGHT\n");
        return 2;
    }
    int ntp = strcmp(argv[1], "ntp") == 0;
    long all = atol(argv[3]), in_flight = atol(argv[4]);
    size_t asks = ntp ? 48 : 16, answers = ntp ? 48 : 24;
    struct sockaddr_in to = {.sin_family = AF_INET, .sin_port = htons(atoi(argv[2]))};
    to.sin_addr.s_addr = htonl(INADDR_LOOPBACK);
    int sock = socket(AF_INET, SOCK_DGRAM, 0);
    if (sock < 0 || connect(sock, (struct sockaddr *)&to, sizeof to) != 0) {
        perror("timing");
        return 2;
    }
    long sent = 0, answered = 0, lost = 0, under_way = 0, foreign = 0, fell = 0;
    uint64_t last = 0;
    double begun = now();
    while (answered + lost < all) {
        while (under_way < in_flight && sent < all) {
            unsigned char ask[48] = {0};
            if (ntp) {
                ask[0] = 0x23; /* version 4, client */
                put64(ask + 40, sent + 1); /* the transmit time, which comes back as origin */
            } else {
                memcpy(ask, "GCSQ", 4);
                put64(ask + 8, sent + 1);
            }
            sent++;
            if (send(sock, ask, asks, 0) == (ssize_t)asks)
                under_way++;
            else
                lost++; /* nobody has the port */
        }
        struct pollfd one = {.fd = sock, .events = POLLIN};
        if (poll(&one, 1, 500) <= 0) {
            lost += under_way;
            under_way = 0;
            continue;
        }
        unsigned char got[128];
        ssize_t length;
        while ((length = recv(sock, got, sizeof got, MSG_DONTWAIT)) >= 0) {
            uint64_t number = length == (ssize_t)answers ? get64(got + (ntp ? 24 : 8)) : 0;
            if (number < 1 || number > (uint64_t)sent) {
                foreign++;
                continue;
            }
            if (!ntp) {
                uint64_t clock = get64(got + 16);
                fell += clock < last;
                last = clock;
            }
            answered++;
            if (under_way > 0)
                under_way--;
        }
    }
    double took = now() - begun;
    printf("%s: %ld answered, %ld lost, %ld foreign, %ld fell, %.3f s, %.0f a second\n", argv[1], answered, lost,
           foreign, fell, took, answered / took);
    close(sock);
    return fell > 0 || foreign > 0;
}
