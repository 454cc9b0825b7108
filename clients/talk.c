/* Two connections that talk: requests and replies, and the deliveries of a push consumer which they share. */
#include "client.h"

#include <stdio.h>
#include <string.h>

enum {
    REQUESTS = 1000,
    SHARED = 1000,
    /* Milliseconds for an answer. */
    PATIENCE = 10000,
};

/* ---- requests and replies */

static void answer(natsConnection *connection, natsSubscription *subscription, natsMsg *request, void *unused)
{
    (void)subscription, (void)unused;
    must(natsConnection_Publish(connection, natsMsg_GetReply(request), natsMsg_GetData(request), natsMsg_GetDataLength(request)), "a reply");
    natsMsg_Destroy(request);
}

static void request(Client *client, int number)
{
    char text[16];
    natsMsg *reply = NULL;
    int length = snprintf(text, sizeof text, "%d", number);
    must(natsConnection_Request(&reply, client->connection, "ask.it", text, length, PATIENCE), "a request");
    if (natsMsg_GetDataLength(reply) != length || memcmp(natsMsg_GetData(reply), text, (size_t)length) != 0)
        fail("request %d has another reply", number);
    natsMsg_Destroy(reply);
}

void ask_and_answer(const char *url, char **words)
{
    (void)words;
    Client asker = open_client(url, PATIENCE), answerer = open_client(url, PATIENCE);
    natsSubscription *subscription = NULL;
    natsMsg *reply = NULL;
    must(natsConnection_Subscribe(&subscription, answerer.connection, "ask.*", answer, NULL), "a subscription");
    must(natsConnection_Flush(answerer.connection), "a flush");
    for (int number = 1; number <= REQUESTS; number++)
        request(&asker, number);
    natsStatus status = natsConnection_RequestString(&reply, asker.connection, "nobody.is.there", "", PATIENCE);
    if (status != NATS_NO_RESPONDERS)
        fail("a request that nobody takes: %s", natsStatus_GetText(status));
    natsSubscription_Destroy(subscription);
    close_client(&answerer);
    close_client(&asker);
}

/* ---- shared deliveries */

static atomic_int comings[SHARED + 1];
static atomic_int delivered;

static void take(natsConnection *connection, natsSubscription *subscription, natsMsg *message, void *taken)
{
    (void)connection, (void)subscription;
    uint64_t sequence = sequence_of(message);
    if (sequence < 1 || sequence > SHARED)
        fail("sequence %llu comes", (unsigned long long)sequence);
    atomic_fetch_add(&comings[sequence], 1);
    atomic_fetch_add((atomic_int *)taken, 1);
    atomic_fetch_add(&delivered, 1);
    natsMsg_Destroy(message);
}

static natsSubscription *join(Client *client, atomic_int *taken)
{
    natsSubscription *subscription = NULL;
    jsSubOptions options;
    must(jsSubOptions_Init(&options), "options");
    options.Stream = "SHARED";
    options.Queue = "sharers";
    options.Config.AckPolicy = js_AckExplicit;
    must(js_Subscribe(&subscription, client->stream_context, "shared.a", take, taken, NULL, &options, NULL), "the group");
    must(natsConnection_Flush(client->connection), "a flush");
    return subscription;
}

static void wait_for_deliveries(void)
{
    double start = seconds();
    while (atomic_load(&delivered) < SHARED && seconds() - start < 20)
        sleep_seconds(0.01);
    /* what comes too often has time to come */
    sleep_seconds(0.3);
}

void share_deliveries(const char *url, char **words)
{
    (void)words;
    static atomic_int taken[2];
    Client clients[2] = {open_client(url, PATIENCE), open_client(url, PATIENCE)};
    natsSubscription *subscriptions[2];
    make_stream(&clients[0], "SHARED", "shared.*");
    for (int member = 0; member < 2; member++)
        subscriptions[member] = join(&clients[member], &taken[member]);
    for (int number = 1; number <= SHARED; number++)
        must(js_Publish(NULL, clients[0].stream_context, "shared.a", "x", 1, NULL, NULL), "a publish");
    wait_for_deliveries();
    for (int sequence = 1; sequence <= SHARED; sequence++)
        if (atomic_load(&comings[sequence]) != 1)
            fail("sequence %d came %d times", sequence, atomic_load(&comings[sequence]));
    if (atomic_load(&taken[0]) == 0 || atomic_load(&taken[1]) == 0)
        fail("one member took all messages");
    for (int member = 0; member < 2; member++) {
        natsSubscription_Destroy(subscriptions[member]);
        close_client(&clients[member]);
    }
}
