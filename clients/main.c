/* An official client of NATS, which does with a server what its first word says. README.md lists the words. */
#include "client.h"

#include <stddef.h>
#include <string.h>

typedef struct {
    const char *word;
    void (*play)(const char *url, char **words);
} Part;

static const Part PARTS[] = {
    {"keep", keep_messages},
    {"ask", ask_and_answer},
    {"share", share_deliveries},
    {"crowd", publish_in_a_crowd},
    {"wait", wait_for_a_worker},
    {"publishes", measure_publishes},
    {"routing", measure_routing},
    {"pulls", measure_pulls},
    {"latencies", measure_latencies},
    {"hold", hold_connections},
};

int main(int count, char **words)
{
    for (size_t index = 0; count >= 3 && index < sizeof PARTS / sizeof *PARTS; index++)
        if (strcmp(words[1], PARTS[index].word) == 0) {
            PARTS[index].play(words[2], words + 3);
            nats_Close();
            return 0;
        }
    fail("the words are PART URL ..");
}
