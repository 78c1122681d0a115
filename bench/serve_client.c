// Sessions over the loopback, with `diamond serve` or with Redis. A transaction adds 1 to the session's own counter, or reads a
// counter that all share and writes 1 more, with 16 tries at most. Each session has so many transactions in flight: it begins as
// many at first, sent together, and for those whose replies one read has brought as many again. A raise of the shared counter is
// alone in flight. It prints how many were committed, how many ended by an abort, the seconds from the first message to the last
// reply, and how much of a processor this client took, in percent. Into a file, where one is named, it writes when each commit was
// known, in seconds of the monotonic clock, as doubles.
//
// usage: serve_client diamond|redis own|one SESSIONS IN_FLIGHT TRANSACTIONS SECONDS PORT [FILE]
#include <arpa/inet.h>
#include <netinet/tcp.h>
#include <poll.h>
#include <stdarg.h>
#include <stdbool.h>
#include <stdio.h>
#include <stdlib.h>
#include <string.h>
#include <sys/resource.h>
#include <sys/socket.h>
#include <time.h>
#include <unistd.h>

enum { MOST_SESSIONS = 64, MOST_IN_FLIGHT = 64, MOST_TRIES = 16, ROOM = 4096, PATIENCE_MILLISECONDS = 10000, MOST_TIMES = 100000 };

enum outcome { UNFINISHED, COMMITTED, ABORTED };

struct session {
    int number;
    int in_flight; // how many transactions have begun and not ended
    int tries;
    bool has_read; // with Redis, on the shared counter: the last message was the one that writes
    size_t to_send;
    char messages[ROOM];
    size_t from, to;
    char replies[ROOM]; // what has come and isn't told yet lies between the two places, and a zero behind it
};

static bool with_redis, is_shared;
static int most_in_flight;
static long most_transactions;
static double deadline;

static struct session sessions[MOST_SESSIONS];
static struct pollfd links[MOST_SESSIONS];
static long begun, commits, aborts;
static double times[MOST_TIMES]; // of the first commits
static int running;

static void fail(const char *what, const char *which) {
    fprintf(stderr, "serve_client: %s %s\n", what, which);
    exit(1);
}

static double now(void) {
    struct timespec time;
    clock_gettime(CLOCK_MONOTONIC, &time);
    return time.tv_sec + time.tv_nsec / 1e9;
}

static double processor_seconds(void) {
    struct rusage usage;
    getrusage(RUSAGE_SELF, &usage);
    return usage.ru_utime.tv_sec + usage.ru_stime.tv_sec + (usage.ru_utime.tv_usec + usage.ru_stime.tv_usec) / 1e6;
}

static int connected(int port) {
    struct sockaddr_in address = {.sin_family = AF_INET, .sin_port = htons(port), .sin_addr.s_addr = htonl(INADDR_LOOPBACK)};
    int link = socket(AF_INET, SOCK_STREAM, 0);
    int yes = 1;
    if (link < 0 || connect(link, (struct sockaddr *)&address, sizeof address) < 0) fail("there is no", "connection");
    setsockopt(link, IPPROTO_TCP, TCP_NODELAY, &yes, sizeof yes);
    return link;
}

// Adds a message to those that are to be sent.
static void say(struct session *session, const char *format, ...) {
    va_list parts;
    va_start(parts, format);
    session->to_send += vsnprintf(session->messages + session->to_send, ROOM - session->to_send, format, parts);
    va_end(parts);
    if (session->to_send >= ROOM) fail("there is no room for", "a message");
}

static void send_messages(struct session *session) {
    ssize_t length = session->to_send;
    if (length > 0 && send(links[session->number].fd, session->messages, length, MSG_NOSIGNAL) != length)
        fail("this was not sent:", session->messages);
    session->to_send = 0;
}

// Says the first message of a transaction.
static void begin(struct session *session) {
    session->has_read = false;
    if (with_redis && is_shared)
        say(session, "*2\r\n$5\r\nWATCH\r\n$3\r\nx00\r\n*2\r\n$3\r\nGET\r\n$3\r\nx00\r\n");
    else if (with_redis)
        say(session, "*2\r\n$4\r\nINCR\r\n$3\r\nx%02d\r\n", session->number);
    else if (is_shared)
        say(session, "try %d counter(\"x00\").put(counter(\"x00\").get() + 1);\n", MOST_TRIES);
    else
        say(session, "do counter(\"x%02d\").add(1);\n", session->number);
}

// Begins transactions until so many are in flight as are to be, or there are to be no more, and sends what was said. With none in
// flight it closes the link.
static void go_on(struct session *session) {
    while (session->in_flight < most_in_flight && begun < most_transactions && now() < deadline) {
        begun++;
        session->in_flight++;
        session->tries = 1;
        begin(session);
    }
    send_messages(session);
    if (session->in_flight > 0) return;
    close(links[session->number].fd);
    links[session->number].fd = -1; // poll passes over it
    running--;
}

static bool begins(const char *text, const char *with) { return strncmp(text, with, strlen(with)) == 0; }

static const char *first_reply(const struct session *session) { return session->replies + session->from; }

// The line at a place of what has come, or NULL where it hasn't come whole.
static const char *line_at(const struct session *session, int place) {
    const char *line = first_reply(session);
    for (;;) {
        const char *newline = strchr(line, '\n');
        if (newline == NULL || place == 0) return newline == NULL ? NULL : line;
        line = newline + 1;
        place--;
    }
}

// So many lines, which have come whole, are told.
static void drop_lines(struct session *session, int count) {
    for (; count > 0; count--) session->from = strchr(first_reply(session), '\n') + 1 - session->replies;
}

static enum outcome diamond_outcome(struct session *session) {
    const char *reply = line_at(session, 0);
    if (reply == NULL) return UNFINISHED;
    drop_lines(session, 1);
    if (begins(reply, "commit ") && begins(first_reply(session) - 4, " ok\n")) return COMMITTED;
    if (begins(reply, "abort ") || begins(reply, "late ")) return ABORTED;
    fail("this is no end of an attempt:", reply);
    return UNFINISHED;
}

static enum outcome redis_added(struct session *session) {
    const char *reply = line_at(session, 0);
    if (reply == NULL) return UNFINISHED;
    if (reply[0] != ':') fail("this is no reply to INCR:", reply);
    drop_lines(session, 1);
    return COMMITTED;
}

// The reply to WATCH and GET. Then it writes.
static enum outcome redis_read(struct session *session) {
    char text[24];
    const char *value = line_at(session, 2);
    if (value == NULL) return UNFINISHED;
    int length = snprintf(text, sizeof text, "%ld", atol(value) + 1);
    drop_lines(session, 3);
    session->has_read = true;
    say(session, "*1\r\n$5\r\nMULTI\r\n*3\r\n$3\r\nSET\r\n$3\r\nx00\r\n$%d\r\n%s\r\n*1\r\n$4\r\nEXEC\r\n", length, text);
    return UNFINISHED;
}

// The reply to MULTI, SET and EXEC. Where EXEC is answered by nil, it tries again.
static enum outcome redis_written(struct session *session) {
    const char *executed = line_at(session, 2);
    if (executed == NULL) return UNFINISHED;
    if (begins(executed, "*1\r")) {
        if (line_at(session, 3) == NULL) return UNFINISHED;
        drop_lines(session, 4);
        return COMMITTED;
    }
    if (!begins(executed, "*-1\r")) fail("this is no reply to EXEC:", executed);
    drop_lines(session, 3);
    if (session->tries == MOST_TRIES) return ABORTED;
    session->tries++;
    begin(session);
    return UNFINISHED;
}

static enum outcome outcome_of(struct session *session) {
    if (!with_redis) return diamond_outcome(session);
    if (!is_shared) return redis_added(session);
    return session->has_read ? redis_written(session) : redis_read(session);
}

static void receive(struct session *session) {
    ssize_t count = read(links[session->number].fd, session->replies + session->to, ROOM - 1 - session->to);
    if (count <= 0) fail("the link ended behind:", first_reply(session));
    session->to += count;
    session->replies[session->to] = 0;
    double received = now();
    for (enum outcome outcome; (outcome = outcome_of(session)) != UNFINISHED;) {
        if (outcome == COMMITTED && commits < MOST_TIMES) times[commits] = received;
        commits += outcome == COMMITTED;
        aborts += outcome == ABORTED;
        session->in_flight--;
    }
    session->to -= session->from;
    memmove(session->replies, first_reply(session), session->to + 1);
    session->from = 0;
    go_on(session);
}

static void run(int count) {
    for (int number = 0; number < count; number++) go_on(&sessions[number]);
    while (running > 0) {
        if (poll(links, count, PATIENCE_MILLISECONDS) <= 0) fail("there is no", "reply");
        for (int number = 0; number < count; number++)
            if (links[number].revents != 0) receive(&sessions[number]);
    }
}

static void write_times(const char *name) {
    FILE *file = fopen(name, "wb");
    size_t count = commits < MOST_TIMES ? commits : MOST_TIMES;
    if (file == NULL || fwrite(times, sizeof times[0], count, file) != count || fclose(file) != 0) fail("this was not written:", name);
}

int main(int arguments, char **argument) {
    if (arguments != 8 && arguments != 9)
        fail("usage:", "serve_client diamond|redis own|one SESSIONS IN_FLIGHT TRANSACTIONS SECONDS PORT [FILE]");
    with_redis = strcmp(argument[1], "redis") == 0;
    is_shared = strcmp(argument[2], "one") == 0;
    running = atoi(argument[3]);
    most_in_flight = atoi(argument[4]);
    most_transactions = atol(argument[5]);
    if (running < 1 || running > MOST_SESSIONS) fail("there can't be so many sessions:", argument[3]);
    if (most_in_flight < 1 || most_in_flight > (is_shared ? 1 : MOST_IN_FLIGHT)) fail("there can't be so many in flight:", argument[4]);
    for (int number = 0; number < running; number++) {
        sessions[number].number = number;
        links[number] = (struct pollfd){.fd = connected(atoi(argument[7])), .events = POLLIN};
    }
    double start = now();
    deadline = start + atof(argument[6]);
    run(running);
    double seconds = now() - start;
    if (arguments == 9) write_times(argument[8]);
    printf("%ld %ld %.6f %.0f\n", commits, aborts, seconds, 100 * processor_seconds() / seconds);
    return 0;
}
