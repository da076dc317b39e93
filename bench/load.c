// Clients that each send to a queue of their own and take from it, client-individual, over one epoll: what `bench/load` runs.
// usage: load PORT PID CLIENTS MESSAGES BODY WINDOW WAITING [transactions]
// WAITING messages lie in other queues meanwhile, 4,000 in each. With `transactions` each answer and the SEND behind it are one.
#define _GNU_SOURCE
#include <arpa/inet.h>
#include <errno.h>
#include <fcntl.h>
#include <netinet/tcp.h>
#include <stdint.h>
#include <stdio.h>
#include <stdlib.h>
#include <string.h>
#include <sys/epoll.h>
#include <time.h>
#include <unistd.h>

typedef struct {
    int socket, number;
    char *in, *out;
    size_t held, room, from, to, space;
    long sent, taken;
} Client;

static int port, in_transactions;
static long body_length, window, each;
static uint64_t *waits;
static long waited;

static void fail(const char *what) {
    perror(what);
    exit(1);
}

static uint64_t now(void) {
    struct timespec time;
    clock_gettime(CLOCK_MONOTONIC, &time);
    return (uint64_t)time.tv_sec * 1000000000u + (uint64_t)time.tv_nsec;
}

static char *place(Client *client, size_t length) {
    if (client->to + length > client->space) {
        client->space = (client->to + length) * 2;
        client->out = realloc(client->out, client->space);
        if (!client->out) fail("realloc");
    }
    return client->out + client->to;
}

static void put(Client *client, const char *octets, size_t length) {
    memcpy(place(client, length), octets, length);
    client->to += length;
}

static void put_frame(Client *client, const char *frame) {
    put(client, frame, strlen(frame) + 1);
}

// The header of a transaction, or nothing outside of one.
static const char *transaction(int is_in, long number) {
    static char header[64];
    if (!is_in) return "";
    sprintf(header, "transaction:%ld\n", number);
    return header;
}

static void send_message(Client *client, const char *queue, int is_in) {
    char head[192];
    int length = sprintf(head, "SEND\ndestination:/queue/%s.%d\n%scontent-length:%ld\n\n", queue, client->number,
                         transaction(is_in, client->sent), body_length);
    put(client, head, (size_t)length);
    char *body = place(client, (size_t)body_length + 1);
    memset(body, 'b', (size_t)body_length);
    sprintf(body, "%020lu", (unsigned long)now());
    body[20] = 'b';
    body[body_length] = 0;
    client->to += (size_t)body_length + 1;
}

// Answers a message, and sends the next.
static void go_on(Client *client, const char *ack, int length) {
    char text[512];
    int is_in = in_transactions && client->sent < each;
    if (is_in) {
        sprintf(text, "BEGIN\ntransaction:%ld\n\n", client->sent);
        put_frame(client, text);
    }
    sprintf(text, "ACK\nid:%.*s\n%s\n", length, ack, transaction(is_in, client->sent));
    put_frame(client, text);
    if (client->sent == each) return;
    send_message(client, "load", is_in);
    if (is_in) {
        sprintf(text, "COMMIT\ntransaction:%ld\n\n", client->sent);
        put_frame(client, text);
    }
    client->sent++;
}

static void flush_out(Client *client) {
    while (client->from < client->to) {
        ssize_t count = write(client->socket, client->out + client->from, client->to - client->from);
        if (count < 0 && errno == EAGAIN) return;
        if (count < 0) fail("write");
        client->from += (size_t)count;
    }
    client->from = client->to = 0;
}

// Handles the frame that begins the octets, or a line end between frames: its length, or 0 where it isn't whole.
static size_t handle(Client *client, char *octets, size_t length) {
    if (length && *octets == '\n') return 1;
    char *end = memmem(octets, length, "\n\n", 2);
    if (!end) return 0;
    char *size = memmem(octets, (size_t)(end - octets), "\ncontent-length:", 16);
    size_t body = size ? strtoul(size + 16, NULL, 10) : 0;
    size_t whole = (size_t)(end - octets) + 2 + body + 1;
    if (whole > length) return 0;
    if (!memcmp(octets, "ERROR", 5)) {
        fprintf(stderr, "%.*s\n", (int)(end - octets), octets);
        exit(1);
    }
    if (!memcmp(octets, "MESSAGE", 7)) {
        char *ack = memmem(octets, (size_t)(end - octets) + 1, "\nack:", 5) + 5;
        waits[waited++] = now() - strtoul(end + 2, NULL, 10);
        client->taken++;
        go_on(client, ack, (int)((char *)memchr(ack, '\n', 300) - ack));
    }
    return whole;
}

static void read_in(Client *client) {
    for (;;) {
        if (client->room - client->held < 65536) {
            client->room = client->room * 2 + 131072;
            client->in = realloc(client->in, client->room);
            if (!client->in) fail("realloc");
        }
        ssize_t count = read(client->socket, client->in + client->held, client->room - client->held);
        if (count < 0 && errno == EAGAIN) return;
        if (count <= 0) fail("read");
        client->held += (size_t)count;
        size_t at = 0, step;
        while ((step = handle(client, client->in + at, client->held - at))) at += step;
        memmove(client->in, client->in + at, client->held - at);
        client->held -= at;
        if ((size_t)count < 65536) return;
    }
}

static double processor(const char *pid) {
    char path[64], line[1024];
    unsigned long user, system;
    sprintf(path, "/proc/%s/stat", pid);
    FILE *file = fopen(path, "r");
    if (!file || !fgets(line, sizeof line, file)) fail(path);
    fclose(file);
    sscanf(strrchr(line, ')') + 2, "%*c %*d %*d %*d %*d %*d %*u %*u %*u %*u %*u %lu %lu", &user, &system);
    return (double)(user + system) / (double)sysconf(_SC_CLK_TCK);
}

static double resident(const char *pid) {
    char path[64];
    long pages;
    sprintf(path, "/proc/%s/statm", pid);
    FILE *file = fopen(path, "r");
    if (!file || fscanf(file, "%*d %ld", &pages) != 1) fail(path);
    fclose(file);
    return (double)pages * (double)sysconf(_SC_PAGESIZE) / 1048576.0;
}

static int by_size(const void *a, const void *b) {
    uint64_t x = *(const uint64_t *)a, y = *(const uint64_t *)b;
    return x < y ? -1 : x > y;
}

// Writes what a client holds, and waits for the RECEIPT that it asks for.
static void wait_receipt(Client *client) {
    char told[4096];
    size_t held = 0;
    flush_out(client);
    while (!memmem(told, held, "receipt-id:s\n\n", 15)) {
        ssize_t more = held < sizeof told ? read(client->socket, told + held, sizeof told - held) : 0;
        if (more <= 0) fail("read");
        held += (size_t)more;
    }
}

// Opens a session. A login is asked for by others, which take `host` for one of theirs, too.
static void open_client(Client *client, int number) {
    int one = 1;
    struct sockaddr_in address = {.sin_family = AF_INET, .sin_port = htons((uint16_t)port), .sin_addr.s_addr = htonl(INADDR_LOOPBACK)};
    client->number = number;
    client->socket = socket(AF_INET, SOCK_STREAM, 0);
    if (connect(client->socket, (struct sockaddr *)&address, sizeof address)) fail("connect");
    setsockopt(client->socket, IPPROTO_TCP, TCP_NODELAY, &one, sizeof one);
    put_frame(client, "CONNECT\naccept-version:1.2\nhost:/\nlogin:guest\npasscode:guest\n\n");
}

static void subscribe(Client *client, int poll) {
    char text[256];
    sprintf(text, "SUBSCRIBE\nid:0\ndestination:/queue/load.%d\nack:client-individual\nreceipt:s\n\n", client->number);
    put_frame(client, text);
    wait_receipt(client);
    fcntl(client->socket, F_SETFL, O_NONBLOCK);
    struct epoll_event event = {.events = EPOLLIN | EPOLLOUT | EPOLLET, .data.ptr = client};
    epoll_ctl(poll, EPOLL_CTL_ADD, client->socket, &event);
}

// Leaves messages in queues that nobody takes from.
static void fill(long count) {
    static Client client;
    open_client(&client, 0);
    for (long k = 0; k < count; k++) {
        client.number = (int)(k / 4000);
        send_message(&client, "waiting", 0);
        if (client.to > 1000000) flush_out(&client);
    }
    put_frame(&client, "BEGIN\ntransaction:last\nreceipt:s\n\n");
    wait_receipt(&client);
}

// Has all clients send and take until all is taken.
static void exchange(Client *clients, int count, int poll) {
    for (int k = 0; k < count; k++) {
        for (; clients[k].sent < window && clients[k].sent < each; clients[k].sent++) send_message(&clients[k], "load", 0);
        flush_out(&clients[k]);
    }
    struct epoll_event events[256];
    while (waited < each * count) {
        int ready = epoll_wait(poll, events, 256, 10000);
        if (ready <= 0) fail("epoll_wait");
        for (int k = 0; k < ready; k++) {
            Client *client = events[k].data.ptr;
            if (events[k].events & EPOLLIN) read_in(client);
            flush_out(client);
        }
    }
}

int main(int argc, char **argv) {
    if (argc < 8) return fprintf(stderr, "usage: load PORT PID CLIENTS MESSAGES BODY WINDOW WAITING [transactions]\n"), 2;
    int count = atoi(argv[3]), poll = epoll_create1(0);
    long waiting = atol(argv[7]);
    port = atoi(argv[1]);
    each = atol(argv[4]) / count;
    body_length = atol(argv[5]) < 24 ? 24 : atol(argv[5]);
    window = atol(argv[6]);
    in_transactions = argc > 8;
    waits = malloc(sizeof *waits * (size_t)(each * count));
    Client *clients = calloc((size_t)count, sizeof *clients);
    double rest = resident(argv[2]);
    if (waiting) fill(waiting);
    double filled = resident(argv[2]);
    for (int k = 0; k < count; k++) {
        open_client(&clients[k], k);
        subscribe(&clients[k], poll);
    }
    double before = processor(argv[2]);
    uint64_t start = now();
    exchange(clients, count, poll);
    double seconds = (double)(now() - start) / 1e9;
    usleep(50000);
    double used = processor(argv[2]) - before;
    qsort(waits, (size_t)waited, sizeof *waits, by_size);
    printf("%4d clients, bodies of %6ld, window %4ld, %6ld waiting%s: %8.0f messages a second, %6.2f s of processor for 100,000, "
           "round trip %6.0f us, 99 of 100 in %6.0f us, the longest %6.0f us, memory %5.1f, %5.1f, %5.1f MiB\n",
           count, body_length, window, waiting, in_transactions ? ", transactions" : "", (double)waited / seconds,
           used * 1e5 / (double)waited, (double)waits[waited / 2] / 1e3, (double)waits[waited * 99 / 100] / 1e3,
           (double)waits[waited - 1] / 1e3, rest, filled, resident(argv[2]));
    return 0;
}
