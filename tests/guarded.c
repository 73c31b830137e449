/*
 * Calls of the archive on memory of just the size that is said, between bytes that nobody may touch.
 *
 *     guarded back < CALLS
 *     guarded front < CALLS
 *
 * Reads calls as lines and prints their answers as lines (docs/CALLS.md). With `back` each slice and each array that is lent ends directly
 * before an unreadable page, with guard bytes in front of it; with `front` it begins directly after an unreadable page, and the guard
 * bytes follow.
 * What is only to be read cannot be written during the call. So a byte that is read or written outside of what was lent stops the
 * program or changes a guard byte, and either is told on standard error, with exit status 1; so is a refusal that changes `out`.
 */
#define _DEFAULT_SOURCE
#include "ithwyral.h"

#include <inttypes.h>
#include <signal.h>
#include <stdbool.h>
#include <stdio.h>
#include <stdlib.h>
#include <string.h>
#include <sys/mman.h>
#include <unistd.h>

enum { LONGEST_LINE = 1048576, LONGEST_STRING = 131072, STRINGS = 4, NUMBERS = 5, GUARD = 4096, GUARD_BYTE = 0xA5 };

/* ---- what stops the program */

static unsigned long line_number;
static char trapped[160];

static void fail(const char *what)
{
    fflush(stdout);
    fprintf(stderr, "guarded: line %lu: %s\n", line_number, what);
    exit(1);
}

static void on_trap(int signal_number)
{
    (void)signal_number;
    if (write(STDERR_FILENO, trapped, strlen(trapped)) < 0)
        _exit(2);
    _exit(1);
}

static void catch_traps(void)
{
    struct sigaction action;
    memset(&action, 0, sizeof action);
    action.sa_handler = on_trap;
    if (sigaction(SIGSEGV, &action, NULL) != 0 || sigaction(SIGBUS, &action, NULL) != 0)
        fail("cannot catch signals");
}

/* ---- memory between unreadable pages */

struct region {
    uint8_t *pages; /* readable; the page before and the page after are not */
    size_t pages_size;
    uint8_t *lent;
    size_t size;
    bool only_read;
};

static bool is_front;
static struct region texts[STRINGS]; /* the strings of a call, in their order */
static struct region asked;          /* the five numbers of a place */
static struct region out;            /* the numbers that a call writes */

static void make_region(struct region *r, size_t most)
{
    size_t page = (size_t)sysconf(_SC_PAGESIZE);
    r->pages_size = (most + GUARD + page - 1) / page * page;
    uint8_t *all = mmap(NULL, r->pages_size + 2 * page, PROT_NONE, MAP_PRIVATE | MAP_ANONYMOUS, -1, 0);
    if (all == MAP_FAILED)
        fail("no memory");
    r->pages = all + page;
    if (mprotect(r->pages, r->pages_size, PROT_READ | PROT_WRITE) != 0)
        fail("mprotect");
}

static uint8_t *guard_of(const struct region *r)
{
    return is_front ? r->lent + r->size : r->lent - GUARD;
}

/* Lays so many bytes at the edge, and guard bytes on their other side. */
static void lay(struct region *r, const void *bytes, size_t size, bool only_read)
{
    r->size = size;
    r->lent = is_front ? r->pages : r->pages + r->pages_size - size;
    r->only_read = only_read;
    memcpy(r->lent, bytes, size);
    memset(guard_of(r), GUARD_BYTE, GUARD);
    if (only_read && mprotect(r->pages, r->pages_size, PROT_READ) != 0)
        fail("mprotect");
}

/* Takes it back: the guard bytes must be as they were. */
static void take_back(struct region *r)
{
    const uint8_t *guard = guard_of(r);
    for (size_t i = 0; i < GUARD; i++)
        if (guard[i] != GUARD_BYTE)
            fail(is_front ? "a byte after what was lent has changed" : "a byte before what was lent has changed");
    if (r->only_read && mprotect(r->pages, r->pages_size, PROT_READ | PROT_WRITE) != 0)
        fail("mprotect");
}

/* ---- reading a line */

struct call {
    const uint8_t *at; /* the next word; after the end where there is none */
    const uint8_t *end;
    uint8_t *strings[STRINGS];
    size_t sizes[STRINGS];
    uint64_t numbers[NUMBERS];
};

static struct call call;

static bool is_plain(uint8_t b)
{
    return b >= 0x21 && b <= 0x7E && b != '%' && b != '*';
}

static int hex_value(uint8_t b)
{
    return b >= '0' && b <= '9' ? b - '0' : b >= 'A' && b <= 'F' ? b - 'A' + 10 : -1;
}

static const uint8_t *word_end(const uint8_t *at, uint8_t stop)
{
    while (at < call.end && *at != stop)
        at++;
    return at;
}

/* A number in any number of digits; one that does not fit is read as the largest. */
static bool read_number(const uint8_t *at, const uint8_t *end, uint64_t *value)
{
    *value = 0;
    if (at >= end)
        return false;
    for (; at < end; at++) {
        if (*at < '0' || *at > '9')
            return false;
        uint64_t digit = *at - (uint64_t)'0';
        *value = *value > (UINT64_MAX - digit) / 10 ? UINT64_MAX : *value * 10 + digit;
    }
    return true;
}

/* A run, `*9;`: so many more of the byte before. Answers where it ends, or NULL. */
static const uint8_t *read_run(const uint8_t *at, const uint8_t *end, uint8_t *into, size_t *size)
{
    uint64_t more;
    const uint8_t *stop = word_end(at + 1, ';');
    if (stop >= end || !read_number(at + 1, stop, &more) || more > LONGEST_STRING - *size)
        return NULL;
    memset(into + *size, into[*size - 1], more);
    *size += more;
    return stop + 1;
}

static bool read_string(const uint8_t *at, const uint8_t *end, uint8_t *into, size_t *size)
{
    bool is_byte = false; /* a run may follow a byte, and no other run */
    *size = 0;
    while (at < end) {
        if (*at == '*') {
            at = is_byte ? read_run(at, end, into, size) : NULL;
            if (at == NULL)
                return false;
            is_byte = false;
            continue;
        }
        int high = *at == '%' && end - at > 2 ? hex_value(at[1]) : -1;
        int low = high >= 0 ? hex_value(at[2]) : -1;
        if ((!is_plain(*at) && low < 0) || *size == LONGEST_STRING)
            return false;
        into[(*size)++] = low >= 0 ? (uint8_t)(high * 16 + low) : *at;
        at += low >= 0 ? 3 : 1;
        is_byte = true;
    }
    return true;
}

/* Reads the words after the call's name: s a string, n a number. Whether the line has just these. */
static bool read_words(const char *form)
{
    size_t strings = 0, numbers = 0;
    for (; *form != '\0'; form++) {
        if (call.at > call.end)
            return false;
        const uint8_t *at = call.at, *end = word_end(at, ' ');
        call.at = end + 1;
        if (*form == 'n') {
            if (!read_number(at, end, &call.numbers[numbers++]))
                return false;
        } else {
            if (at == end || *at != '=' || !read_string(at + 1, end, call.strings[strings], &call.sizes[strings]))
                return false;
            strings++;
        }
    }
    return call.at > call.end;
}

/* ---- printing an answer */

static void print_byte(uint8_t b)
{
    if (is_plain(b))
        putchar(b);
    else
        printf("%%%02X", b);
}

static void print_string(const uint8_t *s, size_t size)
{
    fputs(" =", stdout);
    for (size_t i = 0; i < size;) {
        size_t end = i + 1;
        while (end < size && s[end] == s[i])
            end++;
        print_byte(s[i]);
        if (end - i < 8) {
            i++;
            continue;
        }
        printf("*%zu;", end - i - 1);
        i = end;
    }
}

static void print_text(const struct region *r)
{
    print_string(r->lent, r->size);
}

static void print_part(const char *word, const struct region *r, uint64_t start, uint64_t end)
{
    if (start > end || end > r->size)
        fail("the part that is answered does not lie in what was lent");
    printf("%s %" PRIu64 " %" PRIu64, word, start, end);
    print_string(r->lent + start, end - start);
}

/* ---- the calls */

/* Lays the strings of the call: all but the last are only read, and that too where `only_read` says so. */
static void lay_strings(size_t count, bool only_read)
{
    for (size_t i = 0; i < count; i++)
        lay(&texts[i], call.strings[i], call.sizes[i], only_read || i + 1 < count);
}

static void lay_out(size_t count)
{
    uint8_t before[80];
    memset(before, 0xC3, sizeof before);
    lay(&out, before, count * sizeof(uint64_t), false);
}

static uint64_t *numbers_out(void)
{
    return (uint64_t *)(void *)out.lent;
}

/* After a call: nothing outside has changed, and where it is refused `out` neither. Whether it is answered; a refusal is printed. */
static bool is_answered(unsigned returned, size_t strings)
{
    for (size_t i = 0; i < strings; i++)
        take_back(&texts[i]);
    if (out.lent != NULL)
        take_back(&out);
    if (returned == 0)
        return true;
    if (returned > 20)
        fail("a number above 20 is returned");
    for (size_t i = 0; out.lent != NULL && i < out.size; i++)
        if (out.lent[i] != 0xC3)
            fail("a refusal has changed `out`");
    printf("refused %u", returned);
    return false;
}

static void judge(void)
{
    lay_strings(1, true);
    lay_out(10);
    if (!is_answered(ithwyral_judge(texts[0].lent, texts[0].size, numbers_out()), 1))
        return;
    const uint64_t *v = numbers_out();
    if (v[ITHWYRAL_REASON] == 0) {
        for (size_t i = 0; i < 10; i++)
            if (v[i] != 0)
                fail("accepted, and not all numbers are 0");
        fputs("accepted", stdout);
        return;
    }
    printf("fault %c%c%c", (int)v[ITHWYRAL_NAME], (int)v[ITHWYRAL_NAME + 1], (int)v[ITHWYRAL_NAME + 2]);
    for (size_t i = ITHWYRAL_OCCURRENCE; i <= ITHWYRAL_SUBCOMPONENT; i++)
        printf(" %" PRIu64, v[i]);
    printf(" %" PRIu64 " %" PRIu64, v[ITHWYRAL_CONDITION], v[ITHWYRAL_REASON]);
}

static void look(void)
{
    lay_strings(2, true);
    lay(&asked, call.numbers, sizeof call.numbers, true);
    lay_out(3);
    unsigned returned = ithwyral_look_up(texts[0].lent, texts[0].size, texts[1].lent, texts[1].size,
                                         (const uint64_t *)(const void *)asked.lent, numbers_out());
    take_back(&asked);
    if (!is_answered(returned, 2))
        return;
    const uint64_t *f = numbers_out();
    if (f[0] == 1)
        print_part("text", &texts[0], f[1], f[2]);
    else if (f[0] == 0 && f[1] == 0 && f[2] == 0)
        fputs("empty", stdout);
    else
        fail("neither a text nor empty");
}

static void print_written(unsigned returned, size_t strings)
{
    if (is_answered(returned, strings))
        printf("written %" PRIu64, numbers_out()[0]);
    print_text(&texts[strings - 1]);
}

static void resolve(void)
{
    lay_strings(2, false);
    lay_out(1);
    print_written(ithwyral_resolve(texts[0].lent, texts[0].size, texts[1].lent, texts[1].size, numbers_out()), 2);
}

static void reply(void)
{
    lay_strings(4, false);
    lay_out(1);
    print_written(ithwyral_reply(texts[0].lent, texts[0].size, texts[1].lent, texts[1].size, texts[2].lent, texts[2].size, texts[3].lent,
                                 texts[3].size, numbers_out()),
                  4);
}

static void file(void)
{
    lay_strings(2, false);
    unsigned returned =
        ithwyral_file(texts[0].lent, texts[0].size, call.numbers[0], call.numbers[1], texts[1].lent, texts[1].size);
    if (is_answered(returned, 2))
        fputs("filed", stdout);
    print_text(&texts[1]);
}

static void read_slip(void)
{
    lay_strings(1, true);
    lay_out(2);
    unsigned returned =
        ithwyral_read_slip(texts[0].lent, texts[0].size, call.numbers[0], call.numbers[1], numbers_out());
    if (is_answered(returned, 1))
        print_part("value", &texts[0], numbers_out()[0], numbers_out()[1]);
}

static const struct {
    const char *name;
    const char *form;
    void (*make)(void);
} calls[] = {
    {"judge", "s", judge}, {"look", "ssnnnnn", look}, {"resolve", "ss", resolve},
    {"reply", "ssss", reply}, {"file", "snns", file}, {"read", "snn", read_slip},
};

static void answer(const uint8_t *line, size_t size)
{
    call.end = line + size;
    const uint8_t *end = word_end(line, ' ');
    call.at = end + 1;
    snprintf(trapped, sizeof trapped, "guarded: line %lu: a byte is read outside of what was lent, or written where it may not\n",
             line_number);
    out.lent = NULL;
    for (size_t i = 0; i < sizeof calls / sizeof *calls; i++) {
        size_t n = strlen(calls[i].name);
        if ((size_t)(end - line) != n || memcmp(line, calls[i].name, n) != 0)
            continue;
        if (!read_words(calls[i].form))
            break;
        calls[i].make();
        putchar('\n');
        return;
    }
    puts("no call");
}

/* ---- lines */

/* Reads a line without its line feed. False at the input's end; a line that is too long is told by its size alone. */
static bool read_line(uint8_t *line, size_t *size)
{
    int c = getchar();
    if (c == EOF)
        return false;
    for (*size = 0; c != EOF && c != '\n'; c = getchar()) {
        if (*size < LONGEST_LINE)
            line[*size] = (uint8_t)c;
        *size += *size <= LONGEST_LINE;
    }
    return true;
}

int main(int count, char **arguments)
{
    static uint8_t line[LONGEST_LINE + 1];
    size_t size;
    is_front = count == 2 && strcmp(arguments[1], "front") == 0;
    if (count != 2 || (!is_front && strcmp(arguments[1], "back") != 0)) {
        fputs("usage: guarded back|front < CALLS\n", stderr);
        return 2;
    }
    catch_traps();
    for (size_t i = 0; i < STRINGS; i++) {
        make_region(&texts[i], LONGEST_STRING);
        call.strings[i] = malloc(LONGEST_STRING);
        if (call.strings[i] == NULL)
            fail("no memory");
    }
    make_region(&asked, sizeof call.numbers);
    make_region(&out, 10 * sizeof(uint64_t));
    while (read_line(line, &size)) {
        line_number++;
        if (size > LONGEST_LINE)
            puts("no call");
        else
            answer(line, size);
    }
    return 0;
}
