/* Posts OTLP to a gateway or to the service, and prints how long it took. Built with -pthread -lz -lssl -lcrypto.
 *
 *     load PORT CLIENTS REQUESTS POINTS SERIES KIND ENCODING CONNECTIONS FROM [PERIOD]
 *
 * CLIENTS threads, each a sender of its own, post so many requests together, of so many points each, as fast as they are
 * answered; or each once in PERIOD microseconds, and what is late counts as waiting for its answer. The SERIES are shared out among the senders; KIND is sum or histogram (11 buckets), with
 * deltas unless cumulative- is before it; ENCODING is json,
 * protobuf or gzip, which is packed protobuf; CONNECTIONS is each, one for each request, or kept, and each-tls or kept-tls over
 * TLS, by whatever certificate: a connection that is made anew shakes hands wholly. A sender's points go
 * round its series and on in time, so a second run begins at the point FROM of each sender, where the first one ended.
 * ENCODING may also be grpc: protobuf over HTTP/2, on connections that are kept, whatever CONNECTIONS says.
 * All requests are written before the first is posted. Prints, separated by blanks: requests, those that were not answered
 * 200, seconds, the median and the 99th percentile of a request in microseconds, from before its connection is made, or
 * before it is sent on one that is kept, until its answer has ended, and the bytes of all bodies. */
#define _GNU_SOURCE
#include <arpa/inet.h>
#include <netinet/in.h>
#include <netinet/tcp.h>
#include <openssl/ssl.h>
#include <pthread.h>
#include <stdio.h>
#include <stdlib.h>
#include <string.h>
#include <sys/socket.h>
#include <time.h>
#include <unistd.h>
#include <zlib.h>

#ifndef IP_BIND_ADDRESS_NO_PORT
#define IP_BIND_ADDRESS_NO_PORT 24
#endif

enum { HEAD_ROOM = 1024, POINT_ROOM = 768, BODY_ROOM = 2048, ANSWER_ROOM = 4096, MOST_CLIENTS = 1000, BUCKETS = 11 };
enum { WITH_GZIP_HEAD = 15 + 16 };
#define FIRST_TIME 1700000000000000000ull
#define SECOND 1000000000ull

struct text { char *bytes; size_t length; };

struct client {
    pthread_t thread;
    int number, socket_;
    SSL *tls;
    long requests, failed;
    size_t bytes;
    struct text *posts;
    double *took;
};

static int port, is_histogram, is_cumulative, is_protobuf, is_packed, is_kept, is_grpc;
static SSL_CTX *tls;
static long clients, points, series, from;
static double period;
static pthread_barrier_t prepared;

static double now(void) {
    struct timespec at;
    clock_gettime(CLOCK_MONOTONIC, &at);
    return at.tv_sec + at.tv_nsec * 1e-9;
}

static void stop(const char *why) {
    perror(why);
    exit(1);
}

static void *room(size_t length) {
    void *made = malloc(length);
    if (!made) stop("malloc");
    return made;
}

/* What a sender's point of this number is: of which of all series, its span, its value, and of a histogram how many times the
 * counts of a delta. */
struct place { long route; unsigned long long start, end, value, times; };

static struct place place_of(int sender, long number) {
    long own = (series + clients - 1 - sender) / clients, turn = number / own, route = number % own * clients + sender;
    unsigned long long start = FIRST_TIME + route * 1000003ull % SECOND, end = start + (turn + 1) * SECOND;
    unsigned long long value = (route * 31 + turn * 7919) % 1000;
    if (is_cumulative) return (struct place){ route, start, end, turn * 1000 + value, (turn + 1) * (1 + route * 31 % 997) };
    return (struct place){ route, end - SECOND, end, value, 1 };
}

/* JSON */

static int put_point(char *to, int sender, long number) {
    struct place at = place_of(sender, number);
    int length = sprintf(to,
        "{\"attributes\":[{\"key\":\"http.request.method\",\"value\":{\"stringValue\":\"GET\"}},"
        "{\"key\":\"http.response.status_code\",\"value\":{\"intValue\":\"200\"}},"
        "{\"key\":\"http.route\",\"value\":{\"stringValue\":\"/api/v1/customers/%ld/orders\"}}],"
        "\"startTimeUnixNano\":\"%llu\",\"timeUnixNano\":\"%llu\",", at.route, at.start, at.end);
    if (!is_histogram) return length + sprintf(to + length, "\"asInt\":\"%llu\"}", at.value);
    length += sprintf(to + length, "\"count\":\"%llu\",\"sum\":%llu,\"bucketCounts\":[", 66 * at.times, 5120 * at.times);
    for (int bucket = 0; bucket < BUCKETS; bucket++)
        length += sprintf(to + length, "%s\"%llu\"", bucket ? "," : "", (bucket + 1) * at.times);
    return length + sprintf(to + length, "],\"explicitBounds\":[0,5,10,25,50,75,100,250,500,1000]}");
}

static size_t put_json(char *body, int sender, long first) {
    int at = sprintf(body,
        "{\"resourceMetrics\":[{\"resource\":{\"attributes\":["
        "{\"key\":\"service.name\",\"value\":{\"stringValue\":\"orders\"}},"
        "{\"key\":\"service.instance.id\",\"value\":{\"stringValue\":\"orders-%d\"}},"
        "{\"key\":\"host.name\",\"value\":{\"stringValue\":\"host-%d.example.org\"}}]},"
        "\"scopeMetrics\":[{\"scope\":{\"name\":\"io.opentelemetry.http\",\"version\":\"2.9.0\"},\"metrics\":[", sender, sender);
    at += sprintf(body + at, is_histogram
        ? "{\"name\":\"http.server.request.duration\",\"unit\":\"ms\",\"histogram\":{\"aggregationTemporality\":%d,\"dataPoints\":["
        : "{\"name\":\"http.server.request.count\",\"unit\":\"{request}\",\"sum\":{\"aggregationTemporality\":%d,"
          "\"isMonotonic\":true,\"dataPoints\":[", 1 + is_cumulative);
    for (long point = 0; point < points; point++) {
        if (point > 0) body[at++] = ',';
        at += put_point(body + at, sender, first + point);
    }
    return at + sprintf(body + at, "]}}]}]}]}");
}

/* Protobuf: each function writes a field at `to` and gives its length. */

static size_t put_varint(char *to, unsigned long long value) {
    size_t length = 0;
    for (; value > 127; value >>= 7) to[length++] = (char)(value | 128);
    to[length++] = (char)value;
    return length;
}

static size_t put_number(char *to, int field, unsigned long long value) {
    to[0] = (char)(field << 3);
    return 1 + put_varint(to + 1, value);
}

static size_t put_fixed(char *to, int field, const void *eight_bytes) {
    to[0] = (char)(field << 3 | 1);
    memcpy(to + 1, eight_bytes, 8);
    return 9;
}

static size_t put_bytes(char *to, int field, const char *bytes, size_t length) {
    to[0] = (char)(field << 3 | 2);
    size_t at = 1 + put_varint(to + 1, length);
    memcpy(to + at, bytes, length);
    return at + length;
}

static size_t put_text(char *to, int field, const char *text) {
    return put_bytes(to, field, text, strlen(text));
}

/* An attribute with a text, or with a whole number where there is none. */
static size_t put_attribute(char *to, int field, const char *key, const char *text, unsigned long long number) {
    char value[256], pair[512];
    size_t length = text ? put_text(value, 1, text) : put_number(value, 3, number);
    size_t at = put_text(pair, 1, key);
    at += put_bytes(pair + at, 2, value, length);
    return put_bytes(to, field, pair, at);
}

static size_t put_protobuf_point(char *to, int sender, long number) {
    struct place place = place_of(sender, number);
    unsigned long long end = place.end, count = 66 * place.times;
    char point[POINT_ROOM], route[64];
    size_t at = put_fixed(point, 2, &place.start);
    at += put_fixed(point + at, 3, &end);
    sprintf(route, "/api/v1/customers/%ld/orders", place.route);
    int field = is_histogram ? 9 : 7;
    if (is_histogram) {
        double sum = 5120 * place.times, bounds[] = { 0, 5, 10, 25, 50, 75, 100, 250, 500, 1000 };
        unsigned long long buckets[BUCKETS];
        for (int bucket = 0; bucket < BUCKETS; bucket++) buckets[bucket] = (bucket + 1) * place.times;
        at += put_fixed(point + at, 4, &count);
        at += put_fixed(point + at, 5, &sum);
        at += put_bytes(point + at, 6, (void *)buckets, sizeof buckets);
        at += put_bytes(point + at, 7, (void *)bounds, sizeof bounds);
    } else {
        at += put_fixed(point + at, 6, &place.value);
    }
    at += put_attribute(point + at, field, "http.request.method", "GET", 0);
    at += put_attribute(point + at, field, "http.response.status_code", NULL, 200);
    at += put_attribute(point + at, field, "http.route", route, 0);
    return put_bytes(to, 1, point, at);
}

/* Puts a message into another one: its bytes move, since its length comes before them. */
static size_t wrapped(char *bytes, size_t length, int field) {
    char head[16];
    head[0] = (char)(field << 3 | 2);
    size_t before = 1 + put_varint(head + 1, length);
    memmove(bytes + before, bytes, length);
    memcpy(bytes, head, before);
    return before + length;
}

/* Puts a field ahead of what is there. */
static size_t preceded(char *bytes, size_t length, int field, const char *by, size_t by_length) {
    char ahead[1024];
    size_t before = put_bytes(ahead, field, by, by_length);
    memmove(bytes + before, bytes, length);
    memcpy(bytes, ahead, before);
    return before + length;
}

/* In the order of the fields' numbers, as encoders write them. */
static size_t put_protobuf(char *body, int sender, long first) {
    char resource[512], scope[128], own[64], name[128];
    sprintf(own, "orders-%d", sender);
    size_t of_resource = put_attribute(resource, 1, "service.name", "orders", 0);
    of_resource += put_attribute(resource + of_resource, 1, "service.instance.id", own, 0);
    sprintf(own, "host-%d.example.org", sender);
    of_resource += put_attribute(resource + of_resource, 1, "host.name", own, 0);
    size_t of_scope = put_text(scope, 1, "io.opentelemetry.http");
    of_scope += put_text(scope + of_scope, 2, "2.9.0");
    size_t at = 0;
    for (long point = 0; point < points; point++) at += put_protobuf_point(body + at, sender, first + point);
    at += put_number(body + at, 2, 1 + is_cumulative);
    if (!is_histogram) at += put_number(body + at, 3, 1);
    at = wrapped(body, at, is_histogram ? 9 : 7);
    size_t of_name = put_text(name, 1, is_histogram ? "http.server.request.duration" : "http.server.request.count");
    of_name += put_text(name + of_name, 3, is_histogram ? "ms" : "{request}");
    memmove(body + of_name, body, at);
    memcpy(body, name, of_name);
    at = wrapped(body, at + of_name, 2);
    at = preceded(body, at, 1, scope, of_scope);
    at = wrapped(body, at, 2);
    at = preceded(body, at, 1, resource, of_resource);
    return wrapped(body, at, 1);
}

static size_t packed(char *to, size_t room_, char *bytes, size_t length) {
    z_stream stream = { .next_in = (void *)bytes, .avail_in = length, .next_out = (void *)to, .avail_out = room_ };
    if (deflateInit2(&stream, Z_DEFAULT_COMPRESSION, Z_DEFLATED, WITH_GZIP_HEAD, 8, Z_DEFAULT_STRATEGY) != Z_OK
        || deflate(&stream, Z_FINISH) != Z_STREAM_END) stop("deflate");
    deflateEnd(&stream);
    return room_ - stream.avail_out;
}

/* gRPC: frames of HTTP/2. A stream is one request; the next one begins behind its answer, so no window is used up. */

enum { FRAME = 9, MOST_OF_A_FRAME = 16384, DATA = 0, HEADERS = 1, SETTINGS = 4, PING = 6, GO_AWAY = 7 };
enum { ACKNOWLEDGED = 1, END_STREAM = 1, END_HEADERS = 4 };
/* The client's preface, no settings, and a window that all answers fit into. */
static const char PREFACE[] = "PRI * HTTP/2.0\r\n\r\nSM\r\n\r\n\0\0\0\4\0\0\0\0\0" "\0\0\4\x8\0\0\0\0\0\x3f\0\0\0";

static size_t put_frame(char *to, size_t length, int kind, int flags, unsigned stream) {
    unsigned at = htonl(stream);
    char head[] = { (char)(length >> 16), (char)(length >> 8), (char)length, (char)kind, (char)flags };
    memcpy(to, head, sizeof head);
    memcpy(to + sizeof head, &at, sizeof at);
    return FRAME;
}

/* A header that no table keeps: `name` is its index in the first table, or its text behind a zero. */
static size_t put_header(char *to, const char *name, size_t of_name, const char *value) {
    size_t length = strlen(value);
    memcpy(to, name, of_name);
    to[of_name] = (char)length;
    memcpy(to + of_name + 1, value, length);
    return of_name + 1 + length;
}

static struct text call_of(struct client *client, long number, const char *body, size_t length) {
    unsigned stream = 2 * number + 1;
    char fields[HEAD_ROOM] = "\x83\x86", sender[32];
    size_t at = 2;
    sprintf(sender, "s%d", client->number);
    at += put_header(fields + at, "\x04", 1, "/opentelemetry.proto.collector.metrics.v1.MetricsService/Export");
    at += put_header(fields + at, "\x01", 1, "127.0.0.1");
    at += put_header(fields + at, "\x0f\x10", 2, "application/grpc");
    at += put_header(fields + at, "\0\2te", 4, "trailers");
    at += put_header(fields + at, "\0\x8x-sender", 10, sender);
    size_t frames = (5 + length) / MOST_OF_A_FRAME + 1, written;
    struct text call = { room(at + 5 + length + FRAME * (frames + 1)), 0 };
    written = put_frame(call.bytes, at, HEADERS, END_HEADERS, stream);
    memcpy(call.bytes + written, fields, at);
    written += at;
    char *message = room(5 + length);
    unsigned of_body = htonl(length);
    message[0] = 0;
    memcpy(message + 1, &of_body, 4);
    memcpy(message + 5, body, length);
    for (size_t from_ = 0; from_ < 5 + length;) {
        size_t part = 5 + length - from_ > MOST_OF_A_FRAME ? MOST_OF_A_FRAME : 5 + length - from_;
        written += put_frame(call.bytes + written, part, DATA, from_ + part == 5 + length ? END_STREAM : 0, stream);
        memcpy(call.bytes + written, message + from_, part);
        written += part;
        from_ += part;
    }
    free(message);
    call.length = written;
    return call;
}

/* Requests */

static struct text request_of(struct client *client, long index, long first) {
    size_t most = BODY_ROOM + points * POINT_ROOM;
    char *body = room(most), head[HEAD_ROOM];
    size_t length = is_protobuf ? put_protobuf(body, client->number, first) : put_json(body, client->number, first);
    if (is_packed) {
        char *smaller = room(most);
        length = packed(smaller, most, body, length);
        free(body);
        body = smaller;
    }
    if (is_grpc) {
        struct text call = call_of(client, index, body, length);
        client->bytes += length;
        free(body);
        return call;
    }
    int start = sprintf(head,
        "POST /v1/metrics HTTP/1.1\r\nHost: 127.0.0.1:%d\r\nContent-Type: application/%s\r\nx-sender: s%d\r\n"
        "%sContent-Length: %zu\r\n%s\r\n", port, is_protobuf ? "x-protobuf" : "json", client->number,
        is_packed ? "Content-Encoding: gzip\r\n" : "", length, is_kept ? "" : "Connection: close\r\n");
    struct text request = { room(start + length), start + length };
    memcpy(request.bytes, head, start);
    memcpy(request.bytes + start, body, length);
    client->bytes += length;
    free(body);
    return request;
}

/* A connection; each sender has an address of its own, so that no run is short of ports. */
static void connect_to(struct client *client) {
    struct sockaddr_in own = { .sin_family = AF_INET, .sin_addr.s_addr = htonl(INADDR_LOOPBACK + 1 + client->number) };
    struct sockaddr_in to = { .sin_family = AF_INET, .sin_port = htons(port), .sin_addr.s_addr = htonl(INADDR_LOOPBACK) };
    int one = 1, socket_ = socket(AF_INET, SOCK_STREAM | SOCK_CLOEXEC, 0);
    if (socket_ < 0) stop("socket");
    setsockopt(socket_, IPPROTO_IP, IP_BIND_ADDRESS_NO_PORT, &one, sizeof one);
    if (is_kept) setsockopt(socket_, IPPROTO_TCP, TCP_NODELAY, &one, sizeof one);
    if (bind(socket_, (void *)&own, sizeof own) || connect(socket_, (void *)&to, sizeof to)) stop("connect");
    client->socket_ = socket_;
    if (!tls) return;
    client->tls = SSL_new(tls);
    if (!client->tls || !SSL_set_fd(client->tls, socket_) || SSL_connect(client->tls) != 1) stop("TLS");
}

static void end_connection(struct client *client) {
    if (client->tls) SSL_free(client->tls);
    client->tls = NULL;
    close(client->socket_);
    client->socket_ = -1;
}

/* Whether an answer of this many bytes is whole by its own length. */
static int is_whole(char *answer, size_t held) {
    answer[held] = 0;
    char *end = strstr(answer, "\r\n\r\n"), *length = strcasestr(answer, "content-length:");
    return end && length && length < end && held >= (size_t)(end + 4 - answer) + atol(length + 15);
}

static void send_all(struct client *client, const char *bytes, size_t length) {
    for (size_t sent = 0; sent < length;) {
        ssize_t more = client->tls ? SSL_write(client->tls, bytes + sent, length - sent)
                                   : send(client->socket_, bytes + sent, length - sent, MSG_NOSIGNAL);
        if (more <= 0) break;
        sent += more;
    }
}

static ssize_t read_some(struct client *client, char *to, size_t most) {
    return client->tls ? SSL_read(client->tls, to, most) : recv(client->socket_, to, most, 0);
}

static void read_all(struct client *client, char *to, size_t length) {
    for (size_t held = 0; held < length;) {
        ssize_t more = read_some(client, to + held, length - held);
        if (more <= 0) stop("an HTTP/2 connection ended");
        held += more;
    }
}

/* One call; whether its answer has a message: one that was refused has none. */
static int call(struct client *client, struct text request) {
    char head[FRAME], held[MOST_OF_A_FRAME];
    if (client->socket_ < 0) {
        connect_to(client);
        send_all(client, PREFACE, sizeof PREFACE - 1);
    }
    send_all(client, request.bytes, request.length);
    for (int has_message = 0;;) {
        read_all(client, head, FRAME);
        size_t length = (unsigned char)head[0] << 16 | (unsigned char)head[1] << 8 | (unsigned char)head[2];
        if (length > sizeof held || head[3] == GO_AWAY) return 0;
        read_all(client, held, length);
        if ((head[3] == SETTINGS || head[3] == PING) && !(head[4] & ACKNOWLEDGED)) {
            char answer[FRAME + 8];
            size_t whole = head[3] == PING ? 8 : 0;
            put_frame(answer, whole, head[3], ACKNOWLEDGED, 0);
            memcpy(answer + FRAME, held, whole);
            send_all(client, answer, FRAME + whole);
        }
        has_message |= head[3] == DATA && length >= 5;
        if ((head[3] == DATA || head[3] == HEADERS) && head[4] & END_STREAM) return has_message;
    }
}

/* One request; whether it was answered 200. */
static int post(struct client *client, struct text request) {
    char answer[ANSWER_ROOM];
    size_t held = 0;
    if (client->socket_ < 0) connect_to(client);
    send_all(client, request.bytes, request.length);
    int is_ended = 0;
    while (!is_ended && !(is_kept && is_whole(answer, held))) {
        ssize_t more = read_some(client, answer + held, sizeof answer - 1 - held);
        if (more <= 0) is_ended = 1;
        else held += more;
    }
    if (is_ended) end_connection(client);
    return held >= 12 && !memcmp(answer + 9, "200", 3);
}

/* Waits until a request is due: when it begins. */
static double due(double at) {
    if (period == 0) return now();
    struct timespec until = { (time_t)at, (long)((at - (time_t)at) * 1e9) };
    if (now() >= at) return at;
    clock_nanosleep(CLOCK_MONOTONIC, TIMER_ABSTIME, &until, NULL);
    return now();
}

static void *run(void *given) {
    struct client *client = given;
    for (long number = 0; number < client->requests; number++)
        client->posts[number] = request_of(client, number, from + number * points);
    pthread_barrier_wait(&prepared);
    double first = now() + period * client->number / clients;
    for (long number = 0; number < client->requests; number++) {
        double begun = due(first + period * number);
        client->failed += !(is_grpc ? call : post)(client, client->posts[number]);
        client->took[number] = now() - begun;
    }
    return NULL;
}

/* Any certificate will do; over gRPC ALPN has to say HTTP/2. */
static SSL_CTX *context(void) {
    SSL_CTX *made = SSL_CTX_new(TLS_client_method());
    const char *names = is_grpc ? "\x02h2" : "\x08http/1.1";
    if (!made || SSL_CTX_set_alpn_protos(made, (const void *)names, strlen(names))) stop("TLS");
    return made;
}

static int order(const void *a, const void *b) {
    double x = *(const double *)a, y = *(const double *)b;
    return (x > y) - (x < y);
}

int main(int count, char **words) {
    static struct client all[MOST_CLIENTS];
    if (count != 10 && count != 11)
        return fprintf(stderr, "usage: load PORT CLIENTS REQUESTS POINTS SERIES KIND ENCODING CONNECTIONS FROM [PERIOD]\n"), 2;
    port = atoi(words[1]);
    clients = atol(words[2]);
    long requests = clients > 0 ? atol(words[3]) / clients : 0;
    points = atol(words[4]);
    series = atol(words[5]);
    is_histogram = strstr(words[6], "histogram") != NULL;
    is_cumulative = !strncmp(words[6], "cumulative-", 11);
    is_packed = !strcmp(words[7], "gzip");
    is_grpc = !strcmp(words[7], "grpc");
    is_protobuf = is_packed || is_grpc || !strcmp(words[7], "protobuf");
    is_kept = is_grpc || !strncmp(words[8], "kept", 4);
    if (strstr(words[8], "-tls")) tls = context();
    from = atol(words[9]);
    period = count == 11 ? atof(words[10]) * 1e-6 : 0;
    if (clients < 1 || clients > MOST_CLIENTS || requests < 1 || points < 1 || series < clients) return 2;
    double *took = room(clients * requests * sizeof *took);
    pthread_barrier_init(&prepared, NULL, clients + 1);
    for (int number = 0; number < clients; number++) {
        struct text *posts = room(requests * sizeof *posts);
        all[number] = (struct client){
            .number = number, .socket_ = -1, .requests = requests, .posts = posts, .took = took + number * requests };
        if (pthread_create(&all[number].thread, NULL, run, &all[number])) stop("pthread_create");
    }
    pthread_barrier_wait(&prepared);
    double begun = now();
    long failed = 0, whole = clients * requests;
    size_t bytes = 0;
    for (int number = 0; number < clients; number++) {
        pthread_join(all[number].thread, NULL);
        failed += all[number].failed;
        bytes += all[number].bytes;
    }
    double seconds = now() - begun;
    qsort(took, whole, sizeof *took, order);
    printf("%ld %ld %.6f %.1f %.1f %zu\n", whole, failed, seconds, took[whole / 2] * 1e6, took[whole * 99 / 100] * 1e6, bytes);
    return 0;
}
