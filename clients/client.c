#include "client.h"

#include <errno.h>
#include <stdarg.h>
#include <stdio.h>
#include <stdlib.h>
#include <time.h>

/* Milliseconds between two attempts to connect again. */
enum { RECONNECT_WAIT = 50 };

void fail(const char *format, ...)
{
    va_list arguments;
    va_start(arguments, format);
    vfprintf(stderr, format, arguments);
    va_end(arguments);
    fputc('\n', stderr);
    exit(1);
}

void must(natsStatus status, const char *tried)
{
    if (status != NATS_OK)
        fail("%s: %s", tried, natsStatus_GetText(status));
}

Client open_client(const char *url, int64_t patience)
{
    Client client = {0};
    natsOptions *options = NULL;
    jsOptions stream_options;
    must(natsOptions_Create(&options), "options");
    must(natsOptions_SetURL(options, url), "the server's address");
    must(natsOptions_SetTimeout(options, 20000), "the time to connect");
    must(natsOptions_SetMaxReconnect(options, -1), "connecting again");
    must(natsOptions_SetReconnectWait(options, RECONNECT_WAIT), "connecting again");
    must(natsOptions_SetReconnectJitter(options, 1, 1), "connecting again");
    must(natsOptions_SetSendAsap(options, true), "sending at once");
    must(natsConnection_Connect(&client.connection, options), "connect");
    natsOptions_Destroy(options);
    must(jsOptions_Init(&stream_options), "options");
    stream_options.Wait = patience;
    must(natsConnection_JetStream(&client.stream_context, client.connection, &stream_options), "JetStream");
    return client;
}

void close_client(Client *client)
{
    jsCtx_Destroy(client->stream_context);
    natsConnection_Close(client->connection);
    natsConnection_Destroy(client->connection);
}

void make_stream(Client *client, const char *name, const char *subject)
{
    jsStreamConfig config;
    must(jsStreamConfig_Init(&config), "a configuration");
    config.Name = name;
    config.Subjects = &subject;
    config.SubjectsLen = 1;
    config.Storage = js_FileStorage;
    must(js_AddStream(NULL, client->stream_context, &config, NULL, NULL), name);
}

uint64_t count_messages(Client *client, const char *name)
{
    jsStreamInfo *info = NULL;
    must(js_GetStreamInfo(&info, client->stream_context, name, NULL, NULL), name);
    uint64_t messages = info->State.Msgs;
    jsStreamInfo_Destroy(info);
    return messages;
}

uint64_t sequence_of(natsMsg *message)
{
    jsMsgMetaData *about = NULL;
    must(natsMsg_GetMetaData(&about, message), "what a delivery tells");
    uint64_t sequence = about->Sequence.Stream;
    jsMsgMetaData_Destroy(about);
    return sequence;
}

double seconds(void)
{
    struct timespec now;
    clock_gettime(CLOCK_MONOTONIC, &now);
    return (double)now.tv_sec + 1e-9 * (double)now.tv_nsec;
}

void sleep_seconds(double length)
{
    struct timespec left = {.tv_sec = (time_t)length, .tv_nsec = (long)(1e9 * (length - (double)(time_t)length))};
    while (nanosleep(&left, &left) != 0 && errno == EINTR)
        continue;
}

int number_of(const char *word)
{
    char *end = NULL;
    long number = word == NULL ? -1 : strtol(word, &end, 10);
    if (number < 0 || number > 1000000000 || end == word || *end != '\0')
        fail("a number is missing");
    return (int)number;
}

void tell(const char *line)
{
    puts(line);
    fflush(stdout);
}
