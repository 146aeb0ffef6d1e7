/* Reads APDUs of the short form from standard input, as `ill check` and `ill show` do, and prints the same
 * (docs/FORMATS.md, section 8). It is written by hand for this one job, as what their speed is measured beside.
 *
 *     peer-reader check     prints how many there are
 *     peer-reader show      prints each, line by line
 *
 * Exit 2 at a fault of the input, with its line, or for other arguments; 3 where a stream fails. */
#include "peer.h"

/* What an APDU takes at most when it is shown: its texts, and lines around them. */
enum { SHOWN_BYTES = MOST_BYTES + 256 };

static struct input in;
static struct output out;

static void show_text(const char *label, struct text text) {
    put_word(&out, label);
    put(&out, text.bytes, text.size);
    put(&out, "\n", 1);
}

static void show_number(const char *label, uint32_t value) {
    put_word(&out, label);
    put_number(&out, value);
    put(&out, "\n", 1);
}

static void show_word(const char *label, const char *word) {
    show_text(label, (struct text){(const uint8_t *)word, strlen(word)});
}

static void show(const struct apdu *apdu) {
    uint8_t fields = TYPE[apdu->type].fields;
    reserve(&out, SHOWN_BYTES);
    show_word("apdu ", TYPE[apdu->type].name);
    show_text("group ", apdu->group);
    show_text("transaction ", apdu->transaction);
    show_number("number ", apdu->number);
    if (fields & ANSWERS)
        show_number("answers ", apdu->answers);
    if (fields & RESULT)
        show_word("result ", RESULT_WORD[apdu->result]);
    if (fields & YES_NO)
        show_word("reply ", apdu->yes ? "yes" : "no");
    if (apdu->date.size)
        show_text("date ", apdu->date);
    if (fields & ITEM)
        show_text("item ", apdu->item);
}

/* Puts out what was shown before the fault, says the fault, and ends. */
static _Noreturn void stop_at(enum fault fault, size_t offset) {
    flush(&out);
    fprintf(stderr, "ill: %s at %zu\n", FAULT_WORD[fault], offset);
    exit(STATUS_BAD);
}

static _Noreturn void stop_behind_output(int status, const char *why) {
    flush(&out);
    stop(status, why);
}

/* Reads the next APDU, or says false at the end of the input. */
static bool next(struct apdu *apdu) {
    size_t offset;
    while (in.end - in.at < MOST_BYTES && !in.ended)
        read_more(&in);
    if (in.at == in.end && !in.failed)
        return false;
    enum fault fault = read_apdu(in.bytes + in.at, in.end - in.at, apdu, &offset);
    if (fault == SHORT && in.failed)
        stop_behind_output(STATUS_FAILED, "read");
    if (fault != NO_FAULT)
        stop_at(fault, offset);
    in.at += apdu->size;
    return true;
}

/* Reads all APDUs, shows them if asked, and gives their count. */
static uint32_t read_all(bool showing) {
    struct apdu apdu;
    uint32_t count = 0;
    while (next(&apdu)) {
        if (count++ == MOST_APDUS)
            stop_behind_output(STATUS_BAD, "too-many");
        if (showing)
            show(&apdu);
    }
    return count;
}

static void check(void) {
    uint32_t count = read_all(false);
    put_number(&out, count);
    put_word(&out, " apdus\n");
}

int main(int count, char **words) {
    expect_broken_pipes();
    if (count == 2 && !strcmp(words[1], "check"))
        check();
    else if (count == 2 && !strcmp(words[1], "show"))
        read_all(true);
    else {
        fputs("usage: peer-reader check | show\n", stderr);
        return STATUS_BAD;
    }
    flush(&out);
    return 0;
}
