/* What the peers share: standard input in pieces of 64 KB, standard output behind a buffer, how a program
 * ends, and the reading of one APDU of the short form (docs/FORMATS.md). */
#ifndef PEER_H
#define PEER_H
#define _POSIX_C_SOURCE 200809L

#include <errno.h>
#include <signal.h>
#include <stdbool.h>
#include <stddef.h>
#include <stdint.h>
#include <stdio.h>
#include <stdlib.h>
#include <string.h>
#include <unistd.h>

enum { BUFFER_BYTES = 1 << 16, STATUS_BAD = 2, STATUS_FAILED = 3 };

/* ---- Streams ---- */

/* The bytes of standard input that are not used yet are those from `at` up to `end`. Nothing follows them
 * where the input has `ended`; it has `failed` too where that is as of an error. */
struct input {
    size_t at, end;
    bool ended, failed;
    uint8_t bytes[BUFFER_BYTES];
};

struct output {
    size_t used;
    uint8_t bytes[BUFFER_BYTES];
};

/* Says why, and ends. A reader of standard output that has gone is an error like any other. */
static inline _Noreturn void stop(int status, const char *why) {
    fprintf(stderr, "ill: %s\n", why);
    exit(status);
}

static inline void expect_broken_pipes(void) {
    if (signal(SIGPIPE, SIG_IGN) == SIG_ERR)
        stop(STATUS_FAILED, "write");
}

/* Moves what is not used yet to the front, and reads another piece after it, or finds the end. */
static inline void read_more(struct input *in) {
    ssize_t count;
    memmove(in->bytes, in->bytes + in->at, in->end - in->at);
    in->end -= in->at;
    in->at = 0;
    do
        count = read(STDIN_FILENO, in->bytes + in->end, BUFFER_BYTES - in->end);
    while (count < 0 && errno == EINTR);
    in->failed = count < 0;
    in->ended = count <= 0;
    if (count > 0)
        in->end += (size_t)count;
}

static inline void flush(struct output *out) {
    size_t written = 0;
    while (written < out->used) {
        ssize_t count = write(STDOUT_FILENO, out->bytes + written, out->used - written);
        if (count < 0 && errno != EINTR)
            stop(STATUS_FAILED, "write");
        if (count > 0)
            written += (size_t)count;
    }
    out->used = 0;
}

/* Makes room for so many bytes, which are fewer than a buffer has. */
static inline void reserve(struct output *out, size_t size) {
    if (BUFFER_BYTES - out->used < size)
        flush(out);
}

/* The next three put into room that is reserved. */

static inline void put(struct output *out, const void *bytes, size_t size) {
    memcpy(out->bytes + out->used, bytes, size);
    out->used += size;
}

static inline void put_word(struct output *out, const char *word) { put(out, word, strlen(word)); }

static inline void put_number(struct output *out, uint32_t number) {
    char digits[10];
    size_t first = sizeof digits;
    do {
        digits[--first] = (char)('0' + number % 10);
        number /= 10;
    } while (number);
    put(out, digits + first, sizeof digits - first);
}

/* ---- Values ---- */

enum { MOST_APDUS = 100000, MOST_LENGTH = 355, MOST_BYTES = 359, QUALIFIER_BYTES = 64, ITEM_BYTES = 200 };

static inline bool is_qualifier(const uint8_t *text, size_t size) {
    if (size < 1 || size > QUALIFIER_BYTES)
        return false;
    for (size_t n = 0; n < size; n++)
        if (text[n] < 0x20 || text[n] > 0x7E)
            return false;
    return true;
}

static inline bool is_continuation(uint8_t byte) { return (byte & 0xC0) == 0x80; }

/* The size of the character of two to four bytes that is a prefix of `left` bytes, in its shortest form and no
 * surrogate; 0 where there is none. */
static inline size_t long_character(const uint8_t *text, size_t left) {
    uint8_t lead = text[0];
    if (left < 2 || lead < 0xC2 || lead > 0xF4 || !is_continuation(text[1]))
        return 0;
    if (lead < 0xE0)
        return 2;
    if (left < 3 || !is_continuation(text[2]))
        return 0;
    if (lead < 0xF0)
        return (lead == 0xE0 && text[1] < 0xA0) || (lead == 0xED && text[1] > 0x9F) ? 0 : 3;
    if (left < 4 || !is_continuation(text[3]))
        return 0;
    return (lead == 0xF0 && text[1] < 0x90) || (lead == 0xF4 && text[1] > 0x8F) ? 0 : 4;
}

static inline bool is_item(const uint8_t *text, size_t size) {
    if (size < 1 || size > ITEM_BYTES)
        return false;
    for (size_t n = 0; n < size;) {
        size_t character = 1;
        if (text[n] >= 0x80)
            character = long_character(text + n, size - n);
        else if (text[n] < 0x20 || text[n] == 0x7F)
            character = 0;
        if (!character)
            return false;
        n += character;
    }
    return true;
}

static inline uint32_t days_of_month(uint32_t year, uint32_t month) {
    static const uint8_t days[] = {31, 28, 31, 30, 31, 30, 31, 31, 30, 31, 30, 31};
    bool leap = (year % 4 == 0 && year % 100 != 0) || year % 400 == 0;
    return month == 2 && leap ? 29 : days[month - 1];
}

/* The day of a date text, as the decimal number YYYYMMDD; 0 where there is none. So days are compared as
 * numbers. */
static inline uint32_t day_of(const uint8_t *text, size_t size) {
    uint32_t day = 0;
    if (size != 8)
        return 0;
    for (size_t n = 0; n < 8; n++) {
        if (text[n] < '0' || text[n] > '9')
            return 0;
        day = day * 10 + (text[n] - '0');
    }
    uint32_t year = day / 10000, month = day / 100 % 100, of_month = day % 100;
    if (year < 1900 || month < 1 || month > 12)
        return 0;
    return of_month >= 1 && of_month <= days_of_month(year, month) ? day : 0;
}

/* ---- The short form ---- */

enum type {
    ILL_REQUEST = 1, SHIPPED = 3, ILL_ANSWER, CONDITIONAL_REPLY, CANCEL, CANCEL_REPLY, RECEIVED, RECALL, RETURNED,
    CHECKED_IN, OVERDUE, RENEW, RENEW_ANSWER, EXPIRED = 20, TYPES
};

/* What a type has after the number. */
enum { ANSWERS = 1, RESULT = 2, YES_NO = 4, DATE = 8, DATE_OR_NOT = 16, DATE_WITH_YES = 32, ITEM = 64 };

/* No name: no such type. */
static const struct {
    const char *name;
    uint8_t fields;
} TYPE[TYPES] = {
    [ILL_REQUEST] = {"ILL-Request", DATE_OR_NOT | ITEM},
    [SHIPPED] = {"Shipped", DATE},
    [ILL_ANSWER] = {"ILL-Answer", RESULT},
    [CONDITIONAL_REPLY] = {"Conditional-Reply", ANSWERS | YES_NO},
    [CANCEL] = {"Cancel", 0},
    [CANCEL_REPLY] = {"Cancel-Reply", ANSWERS | YES_NO},
    [RECEIVED] = {"Received", 0},
    [RECALL] = {"Recall", 0},
    [RETURNED] = {"Returned", 0},
    [CHECKED_IN] = {"Checked-In", 0},
    [OVERDUE] = {"Overdue", DATE},
    [RENEW] = {"Renew", DATE_OR_NOT},
    [RENEW_ANSWER] = {"Renew-Answer", ANSWERS | YES_NO | DATE_WITH_YES},
    [EXPIRED] = {"Expired", 0},
};

enum result { CONDITIONAL = 1, RETRY, UNFILLED, LOCATIONS_PROVIDED, WILL_SUPPLY, HOLD_PLACED, ESTIMATE, RESULTS };

static const char *const RESULT_WORD[RESULTS] = {
    NULL, "conditional", "retry", "unfilled", "locations-provided", "will-supply", "hold-placed", "estimate",
};

/* Bytes of the APDU that is read. A text that is absent has no bytes. */
struct text {
    const uint8_t *bytes;
    size_t size;
};

struct apdu {
    enum type type;
    struct text group, transaction, date, item;
    uint8_t number, answers, result;
    bool yes;
    size_t size; /* of the whole APDU */
};

enum fault { NO_FAULT, SHORT, TAG, LENGTH, FIELD };

static const char *const FAULT_WORD[] = {NULL, "short", "tag", "length", "field"};

/* How far an APDU has been read, in bytes of which `size` are given; and its first fault, with its offset. */
struct reading {
    const uint8_t *bytes;
    size_t at, size;
    enum fault fault;
    size_t offset;
};

static inline bool faulty(struct reading *from, enum fault fault, size_t offset) {
    from->fault = fault;
    from->offset = offset;
    return false;
}

/* Reads length octets before `end`. Says NO_FAULT, LENGTH for octets that are wrong, or SHORT for missing ones. */
static inline enum fault length(struct reading *from, size_t end, size_t *value) {
    const uint8_t *octets = from->bytes + from->at;
    size_t left = end - from->at, count = 1, least = 0;
    if (left < 1)
        return SHORT;
    *value = octets[0];
    if (octets[0] == 0x81)
        count = 2, least = 0x80;
    else if (octets[0] == 0x82)
        count = 3, least = 0x100;
    else if (octets[0] >= 0x80)
        return LENGTH;
    if (left < count)
        return SHORT;
    if (count == 2)
        *value = octets[1];
    else if (count == 3)
        *value = (size_t)octets[1] << 8 | octets[2];
    from->at += count;
    return *value < least ? LENGTH : NO_FAULT;
}

/* Reads the identifier and the length of a field before `end`; its contents stand there whole. */
static inline bool header(struct reading *from, size_t end, uint8_t identifier, size_t *size) {
    if (from->at == end || from->bytes[from->at] != identifier)
        return faulty(from, TAG, from->at);
    size_t offset = ++from->at;
    if (length(from, end, size) != NO_FAULT || *size > end - from->at)
        return faulty(from, LENGTH, offset);
    return true;
}

/* Goes on after contents of this size, which are right or not. */
static inline bool contents(struct reading *from, size_t size, bool right) {
    if (!right)
        return faulty(from, FIELD, from->at);
    from->at += size;
    return true;
}

/* A field of one octet, from least to most. */
static inline bool octet(struct reading *from, uint8_t identifier, uint8_t least, uint8_t most, uint8_t *value) {
    size_t size;
    if (!header(from, from->size, identifier, &size))
        return false;
    *value = size == 1 ? from->bytes[from->at] : 0;
    return contents(from, size, size == 1 && *value >= least && *value <= most);
}

static inline bool number(struct reading *from, uint8_t identifier, uint8_t *value) {
    size_t size;
    if (!header(from, from->size, identifier, &size))
        return false;
    const uint8_t *octets = from->bytes + from->at;
    if (size == 2 && octets[0] == 0 && octets[1] >= 0x80) {
        *value = octets[1];
        return contents(from, size, true);
    }
    *value = size == 1 ? octets[0] : 0;
    return contents(from, size, *value >= 1 && *value < 0x80);
}

static inline bool yes_no(struct reading *from, bool *yes) {
    size_t size;
    if (!header(from, from->size, 0x84, &size))
        return false;
    const uint8_t *octets = from->bytes + from->at;
    *yes = size == 1 && octets[0] == 0xFF;
    return contents(from, size, size == 1 && (*yes || octets[0] == 0));
}

/* A field of text before `end`, of which `is_right` says whether it may be. */
static inline bool text(struct reading *from, size_t end, uint8_t identifier,
                        bool (*is_right)(const uint8_t *, size_t), struct text *to) {
    size_t size;
    if (!header(from, end, identifier, &size))
        return false;
    *to = (struct text){from->bytes + from->at, size};
    return contents(from, size, is_right(to->bytes, size));
}

static inline bool is_date(const uint8_t *bytes, size_t size) { return day_of(bytes, size) != 0; }

static inline bool id(struct reading *from, struct apdu *to) {
    size_t size;
    if (!header(from, from->size, 0xA1, &size))
        return false;
    size_t end = from->at + size;
    if (!text(from, end, 0x81, is_qualifier, &to->group) || !text(from, end, 0x82, is_qualifier, &to->transaction))
        return false;
    return from->at == end || faulty(from, TAG, from->at);
}

/* Whether a date stands here: it must, it may and does, or it must not. */
static inline bool has_date(const struct reading *from, uint8_t fields, bool yes) {
    if (fields & DATE_OR_NOT)
        return from->at < from->size && from->bytes[from->at] == 0x85;
    return (fields & DATE) || ((fields & DATE_WITH_YES) && yes);
}

static inline bool further_fields(struct reading *from, struct apdu *to) {
    uint8_t fields = TYPE[to->type].fields;
    if ((fields & ANSWERS) && !number(from, 0x83, &to->answers))
        return false;
    if ((fields & RESULT) && !octet(from, 0x84, CONDITIONAL, ESTIMATE, &to->result))
        return false;
    if ((fields & YES_NO) && !yes_no(from, &to->yes))
        return false;
    if (has_date(from, fields, to->yes) && !text(from, from->size, 0x85, is_date, &to->date))
        return false;
    if ((fields & ITEM) && !text(from, from->size, 0x86, is_item, &to->item))
        return false;
    return from->at == from->size || faulty(from, TAG, from->at);
}

/* The type, and the length up to the end of the APDU, all of which is there. */
static inline bool outer(struct reading *from, struct apdu *to) {
    size_t given = from->size, size;
    if (given == 0)
        return faulty(from, SHORT, 0);
    unsigned type = from->bytes[0] - 0x60u;
    if (type >= TYPES || !TYPE[type].name)
        return faulty(from, TAG, 0);
    to->type = type;
    from->at = 1;
    enum fault fault = length(from, given, &size);
    if (fault == LENGTH || (fault == NO_FAULT && size > MOST_LENGTH))
        return faulty(from, LENGTH, 1);
    if (fault == SHORT || size > given - from->at)
        return faulty(from, SHORT, given);
    from->size = to->size = from->at + size;
    return true;
}

/* Reads the APDU with which these bytes begin, which goes to `to`. Its texts stand in the bytes. What the type
 * does not have is absent or 0. The fault, if there is one, is at *offset. */
static inline enum fault read_apdu(const uint8_t *bytes, size_t size, struct apdu *to, size_t *offset) {
    struct reading from = {.bytes = bytes, .size = size};
    uint8_t version;
    *to = (struct apdu){0};
    if (outer(&from, to) && octet(&from, 0x80, 1, 1, &version) && id(&from, to) && number(&from, 0x82, &to->number))
        further_fields(&from, to);
    *offset = from.offset;
    return from.fault;
}

#endif
