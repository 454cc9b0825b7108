/* What the parts of the client share: connections, failures and time. */
#ifndef CLIENT_H
#define CLIENT_H

#include <nats/nats.h>
#include <stdatomic.h>
#include <stdbool.h>
#include <stdint.h>

/* A connection with its JetStream context. */
typedef struct {
    natsConnection *connection;
    jsCtx *stream_context;
} Client;

/* Prints what went wrong and ends the program with status 1. */
_Noreturn void fail(const char *format, ...) __attribute__((format(printf, 1, 2)));

/* Fails, with what was tried, unless the library says that it succeeded. */
void must(natsStatus status, const char *tried);

/* Connects, and connects again whenever the server comes back. Waits this many milliseconds for each answer. */
Client open_client(const char *url, int64_t patience);
void close_client(Client *client);

/* Makes a stream of one subject, which is kept in files. */
void make_stream(Client *client, const char *name, const char *subject);

/* How many messages a stream has. */
uint64_t count_messages(Client *client, const char *name);

/* The sequence, in its stream, of a message that a consumer delivers. */
uint64_t sequence_of(natsMsg *message);

/* Seconds of a clock that never goes back. */
double seconds(void);
void sleep_seconds(double length);

/* A word of the command line as a number. */
int number_of(const char *word);

/* Tells whoever started the program, by a line on standard output, that it has come this far. */
void tell(const char *line);

/* The parts, by the words that follow the server's address. */
void keep_messages(const char *url, char **words);
void ask_and_answer(const char *url, char **words);
void share_deliveries(const char *url, char **words);
void publish_in_a_crowd(const char *url, char **words);
void wait_for_a_worker(const char *url, char **words);
void measure_publishes(const char *url, char **words);
void measure_routing(const char *url, char **words);
void measure_pulls(const char *url, char **words);
void measure_latencies(const char *url, char **words);
void hold_connections(const char *url, char **words);

#endif
