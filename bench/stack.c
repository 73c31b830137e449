/*
 * How much stack a call takes on messages of 512 segments, where the readers call one another most deeply: each call is made by a thread
 * whose stack was painted before, and the bytes that lost their paint are counted, less those of a thread that does nothing.
 */
#define _GNU_SOURCE
#include "ithwyral.h"
#include <pthread.h>
#include <stdio.h>
#include <string.h>
#include <sys/mman.h>

enum { STACK = 1 << 20, PAINT = 0xA5 };

static uint8_t message[65536], buffer[ITHWYRAL_LONGEST_REPLY], book[ITHWYRAL_SLOT_SIZE];
static size_t size;
static unsigned refusal;

static void *nothing(void *unused)
{
    return unused;
}

static void *judge(void *unused)
{
    uint64_t out[10];
    refusal = ithwyral_judge(message, size, out);
    return unused;
}

static void *reply(void *unused)
{
    uint64_t out[1];
    refusal = ithwyral_reply(message, size, (const uint8_t *)"20240305101501", 14, (const uint8_t *)"K1", 2, buffer, sizeof buffer, out);
    return unused;
}

static void *file(void *unused)
{
    refusal = ithwyral_file(message, size, 1, 0, book, sizeof book);
    return unused;
}

/* the bytes of its stack that a thread touches, and 0 where that cannot be found out */
static size_t touched(void *(*work)(void *))
{
    uint8_t *stack = mmap(NULL, STACK, PROT_READ | PROT_WRITE, MAP_PRIVATE | MAP_ANONYMOUS, -1, 0);
    pthread_attr_t attributes;
    pthread_t thread;
    size_t clean = 0;
    if (stack == MAP_FAILED)
        return 0;
    memset(stack, PAINT, STACK);
    if (pthread_attr_init(&attributes) != 0 || pthread_attr_setstack(&attributes, stack, STACK) != 0
        || pthread_create(&thread, &attributes, work, NULL) != 0 || pthread_join(thread, NULL) != 0)
        return 0;
    while (clean < STACK && stack[clean] == PAINT)
        clean++;
    munmap(stack, STACK);
    return STACK - clean;
}

/* a message of 512 segments: header, patient, the front, so many times the middle, the back */
struct deep {
    const char *name, *front, *middle, *back;
    int times;
};

#define HEADER "MSH|^~\\&|LABSYS|LAB1|DEPOT|D1|20240305101500||ORU^R01^ORU_R01|C7|P|2.5.1\rPID|1||A55||LANE^JANE||20240301\r"
#define GROUP "OBR|1||F9|54089-8^Panel^LN|||20240304\r"

static const struct deep deeps[] = {
    {"509 notes", GROUP, "NTE|1||a~b&c\\E\\\r", "", 509},
    {"509 observations", GROUP, "OBX|1|NM|45222-7^C4-DC^LN||3.16|umol/L|||||F\r", "", 509},
    {"510 groups", "", GROUP, "", 510},
    {"509 of kin", "", "NK1|1||MTH\r", GROUP, 509},
    {"255 orders", "", "ORC|RE\r" GROUP, "", 255},
};

static void add(const char *text)
{
    memcpy(message + size, text, strlen(text));
    size += strlen(text);
}

/* prints what a call takes; whether it was answered */
static int tell(const char *name, void *(*work)(void *), size_t idle)
{
    size_t all = touched(work);
    if (idle == 0 || all < idle || refusal != 0)
        return 0;
    printf(" %s %zu bytes", name, all - idle);
    return 1;
}

int main(void)
{
    size_t idle = touched(nothing);
    for (size_t kind = 0; kind < sizeof deeps / sizeof deeps[0]; kind++) {
        const struct deep *d = &deeps[kind];
        size = 0;
        add(HEADER);
        add(d->front);
        for (int i = 0; i < d->times; i++)
            add(d->middle);
        add(d->back);
        printf("%s:", d->name);
        if (!tell("judge", judge, idle) || !tell("reply", reply, idle) || !tell("file", file, idle)) {
            fprintf(stderr, "\nno answer, or no stack: refusal %u\n", refusal);
            return 1;
        }
        printf("\n");
    }
    return 0;
}
