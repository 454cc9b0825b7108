/* What bench/beside measures: rates, latencies, and connections that are only held. */
#include "client.h"

#include <stdio.h>
#include <stdlib.h>
#include <string.h>

enum {
    SIZE = 128,
    IN_FLIGHT = 1000,
    BATCH = 100,
    MOST = 100000,
    /* Milliseconds for an answer. */
    PATIENCE = 30000,
};

static const char PAYLOAD[SIZE] = "some words";

/* Seconds between two steps whose latency is measured, so that both connections rest. */
static const double REST = 0.002;

static void print_rate(int messages, double start)
{
    printf("%.0f\n", messages / (seconds() - start));
}

/* ---- publishes in flight */

static atomic_int answered;

static void check_answer(jsCtx *context, natsMsg *message, jsPubAck *ack, jsPubAckErr *error, void *unused)
{
    (void)context, (void)unused;
    if (ack == NULL)
        fail("a publish in flight: %s", error->ErrText);
    natsMsg_Destroy(message);
    atomic_fetch_add(&answered, 1);
}

/* MESSAGES: publishes so many, many of them in flight, and prints how many a second were acknowledged. */
void measure_publishes(const char *url, char **words)
{
    int messages = number_of(words[0]);
    Client client = open_client(url, PATIENCE);
    jsCtx *context = NULL;
    jsOptions options;
    must(jsOptions_Init(&options), "options");
    options.PublishAsync.AckHandler = check_answer;
    must(natsConnection_JetStream(&context, client.connection, &options), "JetStream");
    make_stream(&client, "FILLED", "filled.*");
    double start = seconds();
    for (int number = 0; number < messages; number++) {
        while (number - atomic_load(&answered) >= IN_FLIGHT)
            sleep_seconds(1e-5);
        must(js_PublishAsync(context, "filled.a", PAYLOAD, SIZE, NULL), "a publish in flight");
    }
    must(js_PublishAsyncComplete(context, NULL), "the publishes in flight");
    print_rate(messages, start);
    jsCtx_Destroy(context);
    close_client(&client);
}

/* ---- pulls */

/* MESSAGES: pulls so many of those that the word `publishes` left there, acknowledges each, and prints how many a second. */
void measure_pulls(const char *url, char **words)
{
    int messages = number_of(words[0]), taken = 0;
    Client client = open_client(url, PATIENCE);
    natsSubscription *subscription = NULL;
    jsSubOptions options;
    must(jsSubOptions_Init(&options), "options");
    options.Stream = "FILLED";
    options.Config.AckPolicy = js_AckExplicit;
    must(js_PullSubscribe(&subscription, client.stream_context, "filled.a", "PULLER", NULL, &options, NULL), "the consumer");
    double start = seconds();
    while (taken < messages) {
        natsMsgList list = {0};
        must(natsSubscription_Fetch(&list, subscription, BATCH, PATIENCE, NULL), "a fetch");
        for (int index = 0; index < list.Count; index++)
            must(natsMsg_Ack(list.Msgs[index], NULL), "an acknowledgement");
        taken += list.Count;
        natsMsgList_Destroy(&list);
    }
    must(natsConnection_Flush(client.connection), "a flush");
    print_rate(taken, start);
    natsSubscription_Destroy(subscription);
    close_client(&client);
}

/* ---- routing */

static double sent;
static double latencies[MOST];
static atomic_int received;

static void count_message(natsConnection *connection, natsSubscription *subscription, natsMsg *message, void *unused)
{
    (void)connection, (void)subscription, (void)unused;
    natsMsg_Destroy(message);
    atomic_fetch_add(&received, 1);
}

static natsSubscription *subscribe(Client *client, const char *subject, natsMsgHandler take)
{
    natsSubscription *subscription = NULL;
    must(natsConnection_Subscribe(&subscription, client->connection, subject, take, NULL), "a subscription");
    must(natsSubscription_SetPendingLimits(subscription, -1, -1), "a subscription");
    must(natsConnection_Flush(client->connection), "a flush");
    return subscription;
}

static void wait_for(int messages)
{
    double start = seconds();
    while (atomic_load(&received) < messages) {
        if (seconds() - start > 1e-3 * PATIENCE)
            fail("%d of %d messages came", atomic_load(&received), messages);
        sleep_seconds(1e-4);
    }
}

/* MESSAGES: publishes so many without acknowledgement to another connection, and prints how many a second came there. */
void measure_routing(const char *url, char **words)
{
    int messages = number_of(words[0]);
    Client publisher = open_client(url, PATIENCE), subscriber = open_client(url, PATIENCE);
    natsSubscription *subscription = subscribe(&subscriber, "routed.*", count_message);
    double start = seconds();
    for (int number = 0; number < messages; number++)
        must(natsConnection_Publish(publisher.connection, "routed.a", PAYLOAD, SIZE), "a publish");
    must(natsConnection_Flush(publisher.connection), "a flush");
    wait_for(messages);
    print_rate(messages, start);
    natsSubscription_Destroy(subscription);
    close_client(&subscriber);
    close_client(&publisher);
}

/* ---- latencies */

static void note_latency(natsConnection *connection, natsSubscription *subscription, natsMsg *message, void *unused)
{
    (void)connection, (void)subscription, (void)unused;
    latencies[atomic_load(&received)] = seconds() - sent;
    natsMsg_Destroy(message);
    atomic_fetch_add(&received, 1);
}

static void answer(natsConnection *connection, natsSubscription *subscription, natsMsg *request, void *unused)
{
    (void)subscription, (void)unused;
    must(natsConnection_Publish(connection, natsMsg_GetReply(request), PAYLOAD, SIZE), "a reply");
    natsMsg_Destroy(request);
}

static int compare(const void *one, const void *other)
{
    double left = *(const double *)one, right = *(const double *)other;
    return (left > right) - (left < right);
}

static void print_latencies(int count)
{
    qsort(latencies, (size_t)count, sizeof *latencies, compare);
    printf("%.1f %.1f\n", 1e6 * latencies[count / 2], 1e6 * latencies[count * 99 / 100]);
}

static void measure_one_way(Client *publisher, int count)
{
    for (int number = 0; number < count; number++) {
        sleep_seconds(REST);
        sent = seconds();
        must(natsConnection_Publish(publisher->connection, "sent.a", PAYLOAD, SIZE), "a publish");
        wait_for(number + 1);
    }
    print_latencies(count);
}

static void measure_requests(Client *asker, int count)
{
    for (int number = 0; number < count; number++) {
        natsMsg *reply = NULL;
        sleep_seconds(REST);
        double start = seconds();
        must(natsConnection_Request(&reply, asker->connection, "asked.a", PAYLOAD, SIZE, PATIENCE), "a request");
        latencies[number] = seconds() - start;
        natsMsg_Destroy(reply);
    }
    print_latencies(count);
}

/* COUNT: prints the microseconds that half and 99 of 100 of so many messages and, in a second line, requests with their replies stay below. */
void measure_latencies(const char *url, char **words)
{
    int count = number_of(words[0]);
    if (count > MOST)
        fail("at most %d", MOST);
    Client one = open_client(url, PATIENCE), other = open_client(url, PATIENCE);
    natsSubscription *taking = subscribe(&other, "sent.*", note_latency), *answering = subscribe(&other, "asked.*", answer);
    measure_one_way(&one, count);
    measure_requests(&one, count);
    natsSubscription_Destroy(answering);
    natsSubscription_Destroy(taking);
    close_client(&other);
    close_client(&one);
}

/* ---- connections that are held */

/* COUNT: holds so many connections until standard input ends. */
void hold_connections(const char *url, char **words)
{
    int count = number_of(words[0]);
    Client *clients = calloc((size_t)count, sizeof *clients);
    if (clients == NULL)
        fail("no memory");
    for (int index = 0; index < count; index++)
        clients[index] = open_client(url, PATIENCE);
    tell("held");
    while (getchar() != EOF)
        continue;
    for (int index = 0; index < count; index++)
        close_client(&clients[index]);
    free(clients);
}
