/*
 * Ithwyral for C and C++: six calls over a proved core (x86-64, System V calling convention).
 *
 * Build the library with tools/archive, and link target/staticlib/libcabi.a; it needs memcpy and memset and nothing else.
 * docs/CALLING.md has an example, docs/ENTRIES.md says of each entry what is proved.
 *
 * Every call answers with a number:
 *
 *   0          answered: the lent memory holds what the call describes;
 *   1 to 20    refused, enum ithwyral_refusal says why: no byte of the lent memory has been changed, `out` neither.
 *
 * Any bytes and any numbers may be handed over. What must hold is what no call can test:
 *
 *   - A pointer beside a length points to that many bytes; an array parameter points to all of its elements. None is NULL.
 *     Where a length is 0 nothing is read or written, and any other pointer will do.
 *   - No length is above 2 to the 63rd less 1.
 *   - What a call may write (`out`, `buffer`, `book`) shares no byte with anything else that is handed to the same call, and nobody
 *     else reads or writes it during the call. What is only read may overlap, and may be shared between threads.
 *   - The arrays of uint64_t are aligned as usual, to eight bytes. Bytes need no alignment.
 *   - There are 128 KiB of stack left (docs/SPEED.md has what was counted).
 *
 * No call keeps a pointer, allocates, has a state of its own or does input or output, so calls from several threads are independent.
 */
#ifndef ITHWYRAL_H
#define ITHWYRAL_H

#include <stddef.h>
#include <stdint.h>

#ifdef __cplusplus
extern "C" {
#endif

/* Sizes in bytes: of a slot of the book; of a buffer that has room for every reply; of the longest message. */
enum {
    ITHWYRAL_SLOT_SIZE = 1024,
    ITHWYRAL_LONGEST_REPLY = 3200,
    ITHWYRAL_LONGEST_MESSAGE = 65535
};

/* Why a call was refused. Of several reasons the first in the order of the call (below) is told. */
enum ithwyral_refusal {
    ITHWYRAL_EMPTY = 1,              /* the message has no bytes */
    ITHWYRAL_TOO_LONG = 2,           /* it has more than 65,535 */
    ITHWYRAL_BAD_BYTE = 3,           /* a byte is neither printable ASCII nor CR */
    ITHWYRAL_NO_HEADER = 4,          /* it does not begin with MSH, the five separators and the field separator */
    ITHWYRAL_NO_END = 5,             /* its last byte is not CR */
    ITHWYRAL_BAD_SEGMENT = 6,        /* a segment does not begin with a name and its end or a field separator */
    ITHWYRAL_SECOND_HEADER = 7,      /* a later segment is named MSH */
    ITHWYRAL_TOO_MANY = 8,           /* there are more than 512 segments */
    ITHWYRAL_BAD_PLACE = 9,          /* no place can have that name or those numbers */
    ITHWYRAL_NO_SEGMENT = 10,        /* the message has fewer segments of that name */
    ITHWYRAL_BAD_STAMP = 11,         /* the stamp is not 14 digits that form a date and time, or there is no such day */
    ITHWYRAL_BAD_REPLY_NUMBER = 12,  /* the reply number is not 1 to 20 capitals or digits */
    ITHWYRAL_NO_CONTROL_NUMBER = 13, /* MSH-10 of the message is empty, has a bad escape, or has over 20 bytes when it is read */
    ITHWYRAL_NO_ROOM = 14,           /* the lent buffer is too short */
    ITHWYRAL_NOT_ACCEPTED = 15,      /* the message has a fault */
    ITHWYRAL_NO_GROUP = 16,          /* the group is 0 or above the number of OBR segments */
    ITHWYRAL_NO_SLOT = 17,           /* the book has no such slot */
    ITHWYRAL_BAD_SLIP = 18,          /* what stands in the slot is no slip */
    ITHWYRAL_NO_TAG = 19,            /* the slip has no such tag */
    ITHWYRAL_BAD_ESCAPE = 20         /* a backslash begins none of the five escapes */
};

/*
 * Where the numbers stand in `out` of ithwyral_judge. The reasons are:
 *
 *      1  a segment out of place               2  the message may not end there
 *      3  a required field or leaf is missing  4  too many repetitions
 *      6  a bad escape                         5  too long, when it is read: an escape counts one byte
 *      7  not of its type                     13  no such day: a date in the form, whose month does not have its day
 *      8  not in its list, but for MSH-9.1 (9), MSH-9.2 (10), MSH-11.1 (11) and MSH-12.1 (12)
 */
enum {
    ITHWYRAL_REASON = 0,    /* 0: accepted; 1 to 13: why not */
    ITHWYRAL_CONDITION = 1, /* the reason's condition code, 100 to 103 or 200 to 203; 0: there is no reason */
    ITHWYRAL_NAME = 2,      /* three numbers, each a byte of the segment's name */
    ITHWYRAL_OCCURRENCE = 5,
    ITHWYRAL_FIELD = 6,
    ITHWYRAL_REPETITION = 7,
    ITHWYRAL_COMPONENT = 8,
    ITHWYRAL_SUBCOMPONENT = 9
};

/*
 * Judges a message.
 *
 * Answered: `out` has the first fault: reason, condition, the name's three bytes, then occurrence, field, repetition, component and
 * subcomponent, 0 where the fault has none. Of an accepted message all ten are 0.
 * Refused: 1 to 8.
 */
uint8_t ithwyral_judge(const uint8_t *message, size_t message_size, uint64_t out[10]);

/*
 * Looks up the text at a place of a message. `place` has occurrence, field, repetition, component and subcomponent, each from 1. A name
 * has three bytes; any other length is taken as a name that is not of the form.
 *
 * Answered: `out` is 0, 0, 0 where nothing stands there; else 1, start and end: the text is message[start] up to, and not with,
 * message[end].
 * Refused: 1 to 8, 9, 10.
 */
uint8_t ithwyral_look_up(const uint8_t *message, size_t message_size, const uint8_t *name, size_t name_size, const uint64_t place[5],
                         uint64_t out[3]);

/*
 * Resolves the escapes of a text into the buffer. Resolving makes no text longer, so a buffer of the text's size has room.
 *
 * Answered: out[0] bytes of the buffer, from its first on, are the resolved text; the rest is as before.
 * Refused: 20, 14.
 */
uint8_t ithwyral_resolve(const uint8_t *text, size_t text_size, uint8_t *buffer, size_t buffer_size, uint64_t out[1]);

/*
 * Writes the reply to a message, accepted or not, into the buffer. A buffer of ITHWYRAL_LONGEST_REPLY bytes has room for every one.
 *
 * Answered: out[0] bytes of the buffer, from its first on, are the reply; the rest is as before.
 * Refused: 1 to 8, 11, 12, 13, 14.
 */
uint8_t ithwyral_reply(const uint8_t *message, size_t message_size, const uint8_t *stamp, size_t stamp_size, const uint8_t *number,
                       size_t number_size, uint8_t *buffer, size_t buffer_size, uint64_t out[1]);

/*
 * Files the slip of a group of an accepted message (the group of its first OBR is 1) in a slot of the book (the first is 0). A book has as
 * many slots as ITHWYRAL_SLOT_SIZE goes into its size.
 *
 * Answered: the bytes of that slot are the slip, every other byte of the book is as before.
 * Refused: 1 to 8, 15, 16, 17.
 */
uint8_t ithwyral_file(const uint8_t *message, size_t message_size, uint64_t group, size_t slot, uint8_t *book, size_t book_size);

/*
 * Finds the value of a tag in the slip of a slot: 1 control number, 2 patient, 3 placer's number, 4 filler's number, 5 service, 6 the
 * count of observations in two bytes, high byte first.
 *
 * Answered: `out` is start and end: the value is book[start] up to, and not with, book[end].
 * Refused: 17, 18, 19.
 */
uint8_t ithwyral_read_slip(const uint8_t *book, size_t book_size, size_t slot, uint64_t tag, uint64_t out[2]);

#ifdef __cplusplus
}
#endif

#endif
