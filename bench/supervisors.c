/* The supervisors of bench/host.py, quick enough not to be what is measured: each listens on a port of loopback, greets, then keeps so many
   requests for the aggregated status in flight and answers all that it gets. Prints the ports; when all are Up it counts for so many
   seconds and prints the messages of both ways, the seconds, and the messages from the beginning; then it ends. */
#define _GNU_SOURCE
#include <arpa/inet.h>
#include <netinet/tcp.h>
#include <poll.h>
#include <stdarg.h>
#include <stdio.h>
#include <stdlib.h>
#include <string.h>
#include <sys/socket.h>
#include <time.h>
#include <unistd.h>

enum { MOST = 4, IN_FLIGHT = 8, ROOM = 1 << 17 };

struct link {
    int listener, stream, up;
    size_t held, written;
    char in[ROOM], out[ROOM];
};

static struct link links[MOST];
static const char *site, *sxl;
static long messages;
static unsigned long identity;

static double now(void)
{
    struct timespec t;
    clock_gettime(CLOCK_MONOTONIC, &t);
    return (double)t.tv_sec + (double)t.tv_nsec / 1e9;
}

static void fail(const char *what)
{
    perror(what);
    exit(1);
}

__attribute__((format(printf, 2, 3))) static void put(struct link *link, const char *form, ...)
{
    va_list words;
    va_start(words, form);
    link->written += (size_t)vsnprintf(link->out + link->written, ROOM - link->written, form, words);
    va_end(words);
    if (link->written + 1 >= ROOM) exit(3);
    link->out[link->written++] = '\f';
    messages++;
}

static void head(char *text, const char *kind)
{
    identity++;
    sprintf(text, "\"mType\":\"rSMsg\",\"type\":\"%s\",\"mId\":\"%08lx-0000-4000-8000-%012lx\"", kind, identity & 0xffffffff, identity);
}

static void ask(struct link *link)
{
    char text[128];
    head(text, "AggregatedStatusRequest");
    put(link, "{%s,\"cId\":\"%s\"}", text, site);
}

static void beat(struct link *link)
{
    char text[128], moment[32];
    time_t seconds = time(NULL);
    strftime(moment, sizeof moment, "%Y-%m-%dT%H:%M:%S.000Z", gmtime(&seconds));
    head(text, "Watchdog");
    put(link, "{%s,\"wTs\":\"%s\"}", text, moment);
}

static int is(const char *packet, const char *kind)
{
    const char *found = strstr(packet, "\"type\":\"");
    return found && !strncmp(found + 8, kind, strlen(kind)) && found[8 + strlen(kind)] == '"';
}

static void take(struct link *link, const char *packet)
{
    char text[128];
    messages++;
    if (is(packet, "MessageAck")) return;
    if (is(packet, "MessageNotAck")) {
        fprintf(stderr, "supervisors: %s\n", packet);
        exit(1);
    }
    const char *id = strstr(packet, "\"mId\":\"");
    if (!id) exit(1);
    put(link, "{\"mType\":\"rSMsg\",\"type\":\"MessageAck\",\"oMId\":\"%.36s\"}", id + 7);
    if (is(packet, "Version")) {
        head(text, "Version");
        put(link, "{%s,\"RSMP\":[{\"vers\":\"3.2\"}],\"siteId\":[{\"sId\":\"%s\"}],\"SXL\":\"%s\"}", text, site, sxl);
    } else if (is(packet, "Watchdog")) {
        beat(link);
    } else if (is(packet, "AggregatedStatus")) {
        for (int left = link->up ? 1 : IN_FLIGHT; left > 0; left--) ask(link);
        link->up = 1;
    }
}

static void read_some(struct link *link)
{
    ssize_t count = read(link->stream, link->in + link->held, ROOM - 1 - link->held);
    if (count <= 0) fail("a connection is gone");
    link->held += (size_t)count;
    char *from = link->in, *end;
    while ((end = memchr(from, '\f', link->held - (size_t)(from - link->in)))) {
        *end = 0;
        if (*from) take(link, from);
        from = end + 1;
    }
    link->held -= (size_t)(from - link->in);
    memmove(link->in, from, link->held);
    for (size_t sent = 0; sent < link->written;) {
        count = write(link->stream, link->out + sent, link->written - sent);
        if (count < 0) fail("write");
        sent += (size_t)count;
    }
    link->written = 0;
}

static void listen_on(struct link *link)
{
    struct sockaddr_in address = {.sin_family = AF_INET, .sin_addr.s_addr = htonl(INADDR_LOOPBACK)};
    socklen_t length = sizeof address;
    link->listener = socket(AF_INET, SOCK_STREAM, 0);
    if (bind(link->listener, (struct sockaddr *)&address, length) || listen(link->listener, 1)) fail("listen");
    getsockname(link->listener, (struct sockaddr *)&address, &length);
    printf("%u ", ntohs(address.sin_port));
}

int main(int count, char **words)
{
    if (count != 5) return 2;
    int number = atoi(words[1]), one = 1;
    double seconds = atof(words[2]), began = 0, rest = 0;
    long before = 0;
    site = words[3];
    sxl = words[4];
    if (number < 1 || number > MOST) return 2;
    for (int i = 0; i < number; i++) listen_on(&links[i]);
    printf("\n");
    fflush(stdout);
    for (int i = 0; i < number; i++) {
        links[i].stream = accept(links[i].listener, NULL, NULL);
        if (links[i].stream < 0) fail("accept");
        setsockopt(links[i].stream, IPPROTO_TCP, TCP_NODELAY, &one, sizeof one);
    }
    for (;;) {
        struct pollfd polled[MOST];
        int up = 0;
        for (int i = 0; i < number; i++) {
            polled[i] = (struct pollfd){.fd = links[i].stream, .events = POLLIN};
            up += links[i].up;
        }
        if (up == number && !rest) rest = now() + 0.5;
        if (rest && !began && now() >= rest) {
            before = messages;
            began = now();
        }
        if (began && now() - began >= seconds) break;
        if (poll(polled, (nfds_t)number, 1000) < 0) fail("poll");
        for (int i = 0; i < number; i++)
            if (polled[i].revents) read_some(&links[i]);
    }
    printf("%ld %.3f %ld\n", messages - before, now() - began, messages);
    return 0;
}
