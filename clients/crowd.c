/* Many connections at once: publishers that share a stream or have one of their own, and one that waits for its turn. */
#include "client.h"

#include <pthread.h>
#include <stdio.h>
#include <stdlib.h>

enum {
    MOST = 64,
    NAME_LENGTH = 32,
    ROUNDS = 5,
    /* Milliseconds for an answer. */
    PATIENCE = 10000,
};

/* Seconds in which a connection that waits is served once a worker is free, as the median of the rounds, and those for which it is seen to wait. */
static const double PROMPT = 0.150, WAITING = 0.300;

/* ---- publishers */

static const char PAYLOAD[128] = "some words";

typedef struct {
    Client client;
    char stream[NAME_LENGTH], subject[NAME_LENGTH];
    double end;
    uint64_t stored;
    pthread_t thread;
} Publisher;

static void *publish_until_the_end(void *closure)
{
    Publisher *publisher = closure;
    while (seconds() < publisher->end) {
        must(js_Publish(NULL, publisher->client.stream_context, publisher->subject, PAYLOAD, sizeof PAYLOAD, NULL, NULL), "a publish in a crowd");
        publisher->stored++;
    }
    return NULL;
}

/* The stream that all share has the number 0. */
static void prepare(Publisher *publisher, const char *url, int stream)
{
    publisher->client = open_client(url, PATIENCE);
    snprintf(publisher->stream, NAME_LENGTH, "CROWD%d", stream);
    snprintf(publisher->subject, NAME_LENGTH, "crowd%d.a", stream);
    make_stream(&publisher->client, publisher->stream, publisher->subject);
}

/* A stream has just the messages that were acknowledged, and is deleted. */
static void end_stream(Client *client, const char *stream, uint64_t stored)
{
    uint64_t found = count_messages(client, stream);
    if (found != stored)
        fail("%s has %llu messages, and %llu were acknowledged", stream, (unsigned long long)found, (unsigned long long)stored);
    must(js_DeleteStream(client->stream_context, stream, NULL, NULL), stream);
}

/* Lets all of them publish for so many seconds. */
static void publish_together(Publisher *publishers, int count, int length)
{
    double end = seconds() + length;
    for (int index = 0; index < count; index++) {
        publishers[index].end = end;
        if (pthread_create(&publishers[index].thread, NULL, publish_until_the_end, &publishers[index]) != 0)
            fail("no thread");
    }
    for (int index = 0; index < count; index++)
        pthread_join(publishers[index].thread, NULL);
}

/* SECONDS SHARING OWNING: so many publishers share one stream, and so many have one of their own. Prints how many messages were stored. */
void publish_in_a_crowd(const char *url, char **words)
{
    static Publisher publishers[MOST];
    int length = number_of(words[0]), sharing = number_of(words[1]), all = sharing + number_of(words[2]);
    uint64_t shared = 0, owned = 0;
    if (sharing < 1 || all > MOST)
        fail("at least one publisher that shares, and at most %d publishers", MOST);
    for (int index = 0; index < all; index++)
        prepare(&publishers[index], url, index < sharing ? 0 : index);
    publish_together(publishers, all, length);
    for (int index = 0; index < sharing; index++)
        shared += publishers[index].stored;
    end_stream(&publishers[0].client, publishers[0].stream, shared);
    for (int index = sharing; index < all; index++) {
        owned += publishers[index].stored;
        end_stream(&publishers[0].client, publishers[index].stream, publishers[index].stored);
    }
    for (int index = 0; index < all; index++)
        close_client(&publishers[index].client);
    printf("%llu\n", (unsigned long long)(shared + owned));
}

/* ---- a connection more than there are workers */

typedef struct {
    const char *url;
    Client client;
    double connected;
    atomic_bool is_connected;
} Newcomer;

static void *come(void *closure)
{
    Newcomer *newcomer = closure;
    newcomer->client = open_client(newcomer->url, PATIENCE);
    newcomer->connected = seconds();
    atomic_store(&newcomer->is_connected, true);
    return NULL;
}

/* One connection more comes, and waits until another one leaves. Returns the seconds from then until it is served, and puts it in the other's place. */
static double replace(Client *leaving, const char *url)
{
    Newcomer newcomer = {.url = url};
    pthread_t thread;
    if (pthread_create(&thread, NULL, come, &newcomer) != 0)
        fail("no thread");
    sleep_seconds(WAITING);
    if (atomic_load(&newcomer.is_connected))
        fail("a connection more than there are workers is served");
    double left = seconds();
    close_client(leaving);
    pthread_join(thread, NULL);
    *leaving = newcomer.client;
    return newcomer.connected - left;
}

static int compare(const void *one, const void *other)
{
    double left = *(const double *)one, right = *(const double *)other;
    return (left > right) - (left < right);
}

/* WORKERS: as many as the server has, which serve nobody else. Prints the milliseconds of the median. */
void wait_for_a_worker(const char *url, char **words)
{
    static Client clients[MOST];
    double waits[ROUNDS];
    int workers = number_of(words[0]);
    if (workers > MOST)
        fail("at most %d workers", MOST);
    for (int index = 0; index < workers; index++)
        clients[index] = open_client(url, PATIENCE);
    for (int round = 0; round < ROUNDS; round++)
        waits[round] = replace(&clients[round % workers], url);
    qsort(waits, ROUNDS, sizeof *waits, compare);
    if (waits[ROUNDS / 2] > PROMPT)
        fail("a connection is served %.0f ms after a worker came free", 1e3 * waits[ROUNDS / 2]);
    for (int index = 0; index < workers; index++)
        close_client(&clients[index]);
    printf("%.1f\n", 1e3 * waits[ROUNDS / 2]);
}
