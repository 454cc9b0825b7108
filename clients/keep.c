/* Messages and acknowledgements that a server keeps although it is killed, once while they are published and once while they are fetched. */
#include "client.h"

#include <stdio.h>
#include <stdlib.h>
#include <string.h>

enum {
    MESSAGES = 10000,
    /* So many are published one by one, each once the one before it is acknowledged; the others are in flight together. */
    ONE_BY_ONE = 2000,
    IN_FLIGHT = 500,
    BATCH = 100,
    /* One message in so many is left alone when it first comes. */
    LEFT_ALONE = 10,
    /* One message in so many is looked up by its sequence. */
    LOOKED_UP = 100,
    /* Milliseconds for an answer that does not come if the server is killed, and for any other one. */
    SHORT_PATIENCE = 1000,
    PATIENCE = 10000,
};

/* Seconds in which everything has to be published, and in which everything has to be fetched. */
static const double LONGEST = 300;
/* Nanoseconds after which a message that is not acknowledged comes again. */
static const int64_t ACK_WAIT = 2000000000;

/* The sequence under which each message is stored, as its acknowledgement told it, and 0 before. */
static _Atomic uint64_t sequences[MESSAGES + 1];
static atomic_int stored;

/* What became of the message with each sequence. */
static struct {
    int comings;
    bool is_asked;
    bool is_confirmed;
} deliveries[MESSAGES + 1];
static int confirmed;

/* Whether an operation may fail so while the server is away. */
static bool comes_of_a_kill(natsStatus status)
{
    return status == NATS_TIMEOUT || status == NATS_NO_RESPONDERS || status == NATS_CONNECTION_DISCONNECTED || status == NATS_NO_SERVER ||
           status == NATS_IO_ERROR;
}

static void check_time(double start, const char *what)
{
    if (seconds() - start > LONGEST)
        fail("not everything was %s within %.0f s", what, LONGEST);
}

/* ---- publishing */

static void note_stored(int number, const jsPubAck *ack)
{
    if (strcmp(ack->Stream, "KEPT") != 0 || ack->Sequence < 1 || ack->Sequence > MESSAGES)
        fail("message %d is acknowledged as %s %llu", number, ack->Stream, (unsigned long long)ack->Sequence);
    uint64_t before = atomic_exchange(&sequences[number], ack->Sequence);
    if (before != 0 && before != ack->Sequence)
        fail("message %d is acknowledged twice, as %llu and %llu", number, (unsigned long long)before, (unsigned long long)ack->Sequence);
    if (before == 0 && atomic_fetch_add(&stored, 1) + 1 == MESSAGES / 2)
        tell("publishing");
}

/* A message whose text is its number, which is its id too, so that it is stored once however often it is sent. */
static natsMsg *message_of(int number)
{
    natsMsg *message = NULL;
    char text[16];
    int length = snprintf(text, sizeof text, "%d", number);
    must(natsMsg_Create(&message, "kept.a", NULL, text, length), "a message");
    must(natsMsgHeader_Set(message, "Nats-Msg-Id", text), "an id");
    return message;
}

static int number_in(const natsMsg *message)
{
    char text[16] = {0};
    int length = natsMsg_GetDataLength(message);
    if (length < 1 || length >= (int)sizeof text)
        fail("a message has %d bytes", length);
    memcpy(text, natsMsg_GetData(message), (size_t)length);
    int number = number_of(text);
    if (number > MESSAGES)
        fail("a message says %s", text);
    return number;
}

static jsPubOptions publish_options(void)
{
    jsPubOptions options;
    must(jsPubOptions_Init(&options), "options");
    options.MaxWait = SHORT_PATIENCE;
    return options;
}

static void publish_one_by_one(Client *client, double start)
{
    jsPubOptions options = publish_options();
    for (int number = 1; number <= ONE_BY_ONE;) {
        jsPubAck *ack = NULL;
        natsMsg *message = message_of(number);
        natsStatus status = js_PublishMsg(&ack, client->stream_context, message, &options, NULL);
        if (status == NATS_OK)
            note_stored(number++, ack);
        else if (!comes_of_a_kill(status))
            must(status, "a publish");
        jsPubAck_Destroy(ack);
        natsMsg_Destroy(message);
        check_time(start, "published");
    }
}

static void take_answer(jsCtx *context, natsMsg *message, jsPubAck *ack, jsPubAckErr *error, void *unused)
{
    (void)context, (void)unused;
    if (ack != NULL)
        note_stored(number_in(message), ack);
    else if (!comes_of_a_kill(error->Err))
        fail("a publish in flight: %s", error->ErrText);
    natsMsg_Destroy(message);
}

static void publish_in_flight(jsCtx *context, int number)
{
    jsPubOptions options = publish_options();
    natsMsg *message = message_of(number);
    natsStatus status = js_PublishMsgAsync(context, &message, &options);
    if (!comes_of_a_kill(status))
        must(status, "a publish in flight");
    natsMsg_Destroy(message);
}

/* Publishes the next messages that are not acknowledged, and waits until each is, or its time is over. */
static void publish_some(jsCtx *context)
{
    int sent = 0;
    for (int number = ONE_BY_ONE + 1; number <= MESSAGES && sent < IN_FLIGHT; number++)
        if (atomic_load(&sequences[number]) == 0) {
            publish_in_flight(context, number);
            sent++;
        }
    natsStatus status = js_PublishAsyncComplete(context, NULL);
    if (!comes_of_a_kill(status))
        must(status, "the publishes in flight");
}

static void publish_the_others(Client *client, double start)
{
    jsOptions options;
    jsCtx *context = NULL;
    must(jsOptions_Init(&options), "options");
    options.PublishAsync.AckHandler = take_answer;
    must(natsConnection_JetStream(&context, client->connection, &options), "JetStream");
    while (atomic_load(&stored) < MESSAGES) {
        publish_some(context);
        check_time(start, "published");
    }
    jsCtx_Destroy(context);
}

/* As many messages are stored as were published, and some of them are looked up. That each one is there, is seen as it is delivered. */
static void check_stored(Client *client)
{
    for (int number = 1; number <= MESSAGES; number += LOOKED_UP) {
        natsMsg *message = NULL;
        must(js_GetMsg(&message, client->stream_context, "KEPT", sequences[number], NULL, NULL), "an acknowledged message");
        if (number_in(message) != number)
            fail("message %d is not there, but %d", number, number_in(message));
        natsMsg_Destroy(message);
    }
    uint64_t found = count_messages(client, "KEPT");
    if (found != MESSAGES)
        fail("%llu messages are stored", (unsigned long long)found);
}

/* ---- fetching */

static natsSubscription *make_consumer(Client *client)
{
    natsSubscription *subscription = NULL;
    jsSubOptions options;
    must(jsSubOptions_Init(&options), "options");
    options.Stream = "KEPT";
    options.Config.AckPolicy = js_AckExplicit;
    options.Config.AckWait = ACK_WAIT;
    must(js_PullSubscribe(&subscription, client->stream_context, "kept.a", "READER", NULL, &options, NULL), "the consumer");
    return subscription;
}

static void acknowledge(natsMsg *message, uint64_t sequence)
{
    jsOptions options;
    must(jsOptions_Init(&options), "options");
    options.Wait = SHORT_PATIENCE;
    deliveries[sequence].is_asked = true;
    natsStatus status = natsMsg_AckSync(message, &options, NULL);
    if (status == NATS_OK) {
        deliveries[sequence].is_confirmed = true;
        if (++confirmed == MESSAGES / 2)
            tell("fetching");
    } else if (!comes_of_a_kill(status))
        must(status, "an acknowledgement");
}

static void take_delivery(natsMsg *message)
{
    uint64_t sequence = sequence_of(message);
    int number = number_in(message);
    if (sequence != sequences[number])
        fail("message %d comes with sequence %llu", number, (unsigned long long)sequence);
    if (deliveries[sequence].is_confirmed)
        fail("sequence %llu was acknowledged, and came again", (unsigned long long)sequence);
    if (++deliveries[sequence].comings > 1 || sequence % LEFT_ALONE != 0)
        acknowledge(message, sequence);
}

/* Whether the consumer has nothing to deliver and nothing that is not acknowledged. */
static bool is_done(Client *client)
{
    jsConsumerInfo *info = NULL;
    natsStatus status = js_GetConsumerInfo(&info, client->stream_context, "KEPT", "READER", NULL, NULL);
    bool done = status == NATS_OK && info->NumPending == 0 && info->NumAckPending == 0;
    if (!comes_of_a_kill(status))
        must(status, "the consumer");
    jsConsumerInfo_Destroy(info);
    return done;
}

static void fetch_everything(Client *client, natsSubscription *subscription)
{
    double start = seconds();
    do {
        natsMsgList list = {0};
        natsStatus status = natsSubscription_Fetch(&list, subscription, BATCH, SHORT_PATIENCE, NULL);
        if (!comes_of_a_kill(status))
            must(status, "a fetch");
        for (int index = 0; index < list.Count; index++)
            take_delivery(list.Msgs[index]);
        natsMsgList_Destroy(&list);
        check_time(start, "fetched");
    } while (confirmed < MESSAGES * 9 / 10 || !is_done(client));
}

static void check_delivered(void)
{
    for (int sequence = 1; sequence <= MESSAGES; sequence++) {
        int wanted = sequence % LEFT_ALONE == 0 ? 2 : 1;
        if (deliveries[sequence].comings < wanted || !deliveries[sequence].is_asked)
            fail("sequence %d came %d times", sequence, deliveries[sequence].comings);
    }
}

void keep_messages(const char *url, char **words)
{
    (void)words;
    double start = seconds();
    Client publisher = open_client(url, PATIENCE), reader = open_client(url, PATIENCE);
    make_stream(&publisher, "KEPT", "kept.*");
    publish_one_by_one(&publisher, start);
    publish_the_others(&publisher, start);
    check_stored(&publisher);
    natsSubscription *subscription = make_consumer(&reader);
    fetch_everything(&reader, subscription);
    check_delivered();
    natsSubscription_Destroy(subscription);
    close_client(&reader);
    close_client(&publisher);
}
