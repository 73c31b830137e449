/*
 * Judges a message from standard input and prints the desk's line, then the reply, a segment to a line.
 *
 *     judge STAMP NUMBER < MESSAGE
 *
 * STAMP is the reply's date and time in 14 digits, NUMBER its own number. docs/CALLING.md has the line that builds it.
 */
#include "ithwyral.h"

#include <inttypes.h>
#include <stdio.h>
#include <string.h>

/* one byte more than the longest message, so that a longer one is seen to be too long */
static uint8_t message[ITHWYRAL_LONGEST_MESSAGE + 1];

static void print_verdict(size_t size)
{
    uint64_t v[10];
    unsigned refusal = ithwyral_judge(message, size, v);
    if (refusal != 0) {
        printf("refused %u\n", refusal);
    } else if (v[ITHWYRAL_REASON] == 0) {
        puts("accepted");
    } else {
        printf("fault %c%c%c", (int)v[ITHWYRAL_NAME], (int)v[ITHWYRAL_NAME + 1], (int)v[ITHWYRAL_NAME + 2]);
        for (int i = ITHWYRAL_OCCURRENCE; i <= ITHWYRAL_SUBCOMPONENT; i++)
            printf(" %" PRIu64, v[i]);
        printf(" %" PRIu64 " %" PRIu64 "\n", v[ITHWYRAL_CONDITION], v[ITHWYRAL_REASON]);
    }
}

static void print_reply(size_t size, const char *stamp, const char *number)
{
    uint8_t buffer[ITHWYRAL_LONGEST_REPLY];
    uint64_t written[1];
    unsigned refusal = ithwyral_reply(message, size, (const uint8_t *)stamp, strlen(stamp), (const uint8_t *)number, strlen(number),
                                      buffer, sizeof buffer, written);
    if (refusal != 0) {
        printf("refused %u\n", refusal);
        return;
    }
    for (uint64_t i = 0; i < written[0]; i++)
        putchar(buffer[i] == '\r' ? '\n' : buffer[i]);
}

int main(int count, char **arguments)
{
    if (count != 3) {
        fputs("usage: judge STAMP NUMBER < MESSAGE\n", stderr);
        return 2;
    }
    size_t size = fread(message, 1, sizeof message, stdin);
    print_verdict(size);
    print_reply(size, arguments[1], arguments[2]);
    return 0;
}
