/* Performs a script of standard input, as `ill simulate` does, and prints the same trace (docs/MODEL.md). It
 * is written by hand for this one job, as what the speed of `ill` is measured beside.
 *
 *     peer-simulator GROUP TRANSACTION
 *
 * What stays inside is never encoded: a record is a struct, and so is a message that was sent. An item is judged
 * and not kept, for no trace shows it. It has all lines of a script, and all rows of the tables of docs/PROTOCOL.md.
 *
 * Exit 2 at a line that is bad, with its number, or for other arguments; 3 where a stream fails. */
#include "peer.h"

enum { MOST_MESSAGES = 255, MOST_LINES = 100000, LINE_BYTES = 1024, MOST_WORDS = 5, TRACE_BYTES = 256 };

/* ---- Sides ---- */

/* From STATE_SHIPPED on: SHIPPED or later. */
enum state {
    STATE_IDLE, STATE_PENDING, STATE_IN_PROCESS, STATE_CONDITIONAL, STATE_CANCEL_PENDING, STATE_CANCELLED,
    STATE_NOT_SUPPLIED, STATE_SHIPPED, STATE_RECEIVED, STATE_RENEW_PENDING, STATE_OVERDUE, STATE_RENEW_OVERDUE,
    STATE_NOT_RECEIVED_OVERDUE, STATE_RECALL, STATE_RETURNED, STATE_CHECKED_IN
};

static const char *const STATE_WORD[] = {
    "IDLE", "PENDING", "IN-PROCESS", "CONDITIONAL", "CANCEL-PENDING", "CANCELLED",
    "NOT-SUPPLIED", "SHIPPED", "RECEIVED", "RENEW/PENDING", "OVERDUE", "RENEW/OVERDUE",
    "NOT-RECEIVED/OVERDUE", "RECALL", "RETURNED", "CHECKED-IN",
};

enum outcome {
    BAD_LINE, DONE, SAVED, FAULTED, SENT, RESTARTED, TAKEN, REPEAT, STALE, CONFLICT, NOT_NOW, DATE_EARLIER,
    DATE_NOT_LATER, NOT_DUE, NOT_EXPIRED, NUMBERS_USED, NO_SUCH_MESSAGE, NOT_SAVED, NOT_SENT, GARBLED, FORGED,
    OTHER_TRANSACTION
};

static const char *const OUTCOME_WORD[] = {
    NULL, "done", "saved", "faulted", "sent", "restarted", "taken", "repeat", "stale", "conflict", "not-now",
    "date-earlier", "date-not-later", "not-due", "not-expired", "numbers-used", "no-such-message", "not-saved",
    "not-sent", "garbled", "forged", "other-transaction",
};

/* A message that a side has issued; its place in the list is its number. A number or a day that it does not
 * have is 0. */
struct message {
    enum type type;
    enum result result;
    bool yes;
    uint8_t answers;
    uint32_t date;
};

/* The record of a side, but for its messages. A number or a day of 0 is none. */
struct record {
    enum state state;
    uint8_t issued;   /* how many messages */
    uint8_t held;     /* requester: the message with the conditions */
    uint8_t accepted; /* the message with the conditions that were accepted last */
    uint8_t cancel;   /* the last Cancel: of the requester's own, or that the responder has taken */
    uint8_t renew;    /* the last Renew likewise */
    bool declined;    /* requester: by a Conditional-Reply no */
    bool received;    /* a Received was issued, or taken */
    bool checked_in;  /* requester: a Checked-In was taken */
    uint32_t due;
    uint32_t expiry; /* responder: of the request */
};

/* A side. Its two records share one list of messages: that of the committed record is a prefix of that of the live
 * one, and what was sent is committed, so no message that was sent is ever replaced. */
struct side {
    struct record live, committed;
    uint8_t released;
    struct message messages[MOST_MESSAGES];
    bool sent[MOST_MESSAGES];
};

static struct side requester, responder;

static struct side *other(const struct side *side) { return side == &requester ? &responder : &requester; }

/* Puts a message at the end of the side's list. */
static enum outcome issue(struct side *side, struct message message) {
    if (side->live.issued == MOST_MESSAGES)
        return NUMBERS_USED;
    side->messages[side->live.issued++] = message;
    return DONE;
}

/* Issues a message, and where that is done goes to a state. */
static enum outcome issue_and_go(struct side *side, struct message message, enum state to) {
    enum outcome outcome = issue(side, message);
    if (outcome == DONE)
        side->live.state = to;
    return outcome;
}

/* Whether the side's message with this number is of this type. */
static bool has_issued(const struct side *side, uint8_t number, enum type type) {
    return number >= 1 && number <= side->live.issued && side->messages[number - 1].type == type;
}

/* ---- The requester's table of wishes ---- */

static enum outcome wish_request(uint32_t expiry) {
    if (requester.live.state != STATE_IDLE)
        return NOT_NOW;
    return issue_and_go(&requester, (struct message){.type = ILL_REQUEST, .date = expiry}, STATE_PENDING);
}

static enum outcome wish_cancel(void) {
    if (requester.live.state != STATE_PENDING)
        return NOT_NOW;
    enum outcome outcome = issue_and_go(&requester, (struct message){.type = CANCEL}, STATE_CANCEL_PENDING);
    if (outcome == DONE)
        requester.live.cancel = requester.live.issued;
    return outcome;
}

static enum outcome wish_reply(bool yes) {
    struct record *record = &requester.live;
    if (record->state != STATE_CONDITIONAL || record->declined)
        return NOT_NOW;
    struct message reply = {.type = CONDITIONAL_REPLY, .yes = yes, .answers = record->held};
    enum outcome outcome = issue_and_go(&requester, reply, yes ? STATE_PENDING : STATE_CONDITIONAL);
    if (outcome != DONE)
        return outcome;
    record->declined = !yes;
    if (yes) {
        record->accepted = record->held;
        record->held = 0;
    }
    return DONE;
}

static enum outcome wish_receive(void) {
    struct record *record = &requester.live;
    enum state to;
    if (record->state == STATE_SHIPPED)
        to = STATE_RECEIVED;
    else if (record->state == STATE_NOT_RECEIVED_OVERDUE)
        to = STATE_OVERDUE;
    else if (record->state == STATE_RECALL && !record->received)
        to = STATE_RECALL;
    else
        return NOT_NOW;
    enum outcome outcome = issue_and_go(&requester, (struct message){.type = RECEIVED}, to);
    record->received |= outcome == DONE;
    return outcome;
}

static enum outcome wish_renew(uint32_t wished) {
    struct record *record = &requester.live;
    if (record->state != STATE_RECEIVED && record->state != STATE_OVERDUE)
        return NOT_NOW;
    enum state to = record->state == STATE_RECEIVED ? STATE_RENEW_PENDING : STATE_RENEW_OVERDUE;
    enum outcome outcome = issue_and_go(&requester, (struct message){.type = RENEW, .date = wished}, to);
    if (outcome == DONE)
        record->renew = record->issued;
    return outcome;
}

static enum outcome wish_return(void) {
    switch (requester.live.state) {
    case STATE_RECEIVED:
    case STATE_RENEW_PENDING:
    case STATE_OVERDUE:
    case STATE_RENEW_OVERDUE:
        break;
    case STATE_RECALL:
        if (requester.live.received)
            break;
        return NOT_NOW;
    default:
        return NOT_NOW;
    }
    return issue_and_go(&requester, (struct message){.type = RETURNED}, STATE_RETURNED);
}

/* ---- The responder's table of deeds ---- */

static bool renew_is_open(void) {
    return responder.live.state == STATE_RENEW_PENDING || responder.live.state == STATE_RENEW_OVERDUE;
}

static enum outcome deed_answer(enum result result) {
    if (responder.live.state != STATE_IN_PROCESS)
        return NOT_NOW;
    enum state to = STATE_NOT_SUPPLIED;
    if (result == CONDITIONAL)
        to = STATE_CONDITIONAL;
    else if (result == WILL_SUPPLY || result == HOLD_PLACED)
        to = STATE_IN_PROCESS;
    return issue_and_go(&responder, (struct message){.type = ILL_ANSWER, .result = result}, to);
}

static enum outcome deed_cancel_reply(bool yes) {
    if (responder.live.state != STATE_CANCEL_PENDING)
        return NOT_NOW;
    struct message reply = {.type = CANCEL_REPLY, .yes = yes, .answers = responder.live.cancel};
    return issue_and_go(&responder, reply, yes ? STATE_CANCELLED : STATE_IN_PROCESS);
}

static enum outcome deed_ship(uint32_t today, uint32_t due) {
    if (responder.live.state != STATE_IN_PROCESS)
        return NOT_NOW;
    if (due < today)
        return DATE_EARLIER;
    enum outcome outcome = issue_and_go(&responder, (struct message){.type = SHIPPED, .date = due}, STATE_SHIPPED);
    if (outcome == DONE)
        responder.live.due = due;
    return outcome;
}

static enum outcome deed_renew_yes(uint32_t due) {
    if (!renew_is_open())
        return NOT_NOW;
    if (due <= responder.live.due)
        return DATE_NOT_LATER;
    struct message answer = {.type = RENEW_ANSWER, .yes = true, .answers = responder.live.renew, .date = due};
    enum outcome outcome = issue_and_go(&responder, answer, STATE_SHIPPED);
    if (outcome == DONE)
        responder.live.due = due;
    return outcome;
}

static enum outcome deed_renew_no(void) {
    if (!renew_is_open())
        return NOT_NOW;
    struct message answer = {.type = RENEW_ANSWER, .answers = responder.live.renew};
    return issue_and_go(&responder, answer,
                        responder.live.state == STATE_RENEW_PENDING ? STATE_SHIPPED : STATE_OVERDUE);
}

static enum outcome deed_overdue(uint32_t today) {
    struct record *record = &responder.live;
    if (record->state != STATE_SHIPPED && record->state != STATE_RENEW_PENDING)
        return NOT_NOW;
    if (today <= record->due)
        return NOT_DUE;
    return issue_and_go(&responder, (struct message){.type = OVERDUE, .date = record->due},
                        record->state == STATE_SHIPPED ? STATE_OVERDUE : STATE_RENEW_OVERDUE);
}

static enum outcome deed_recall(void) {
    if (responder.live.state != STATE_SHIPPED && responder.live.state != STATE_OVERDUE)
        return NOT_NOW;
    return issue_and_go(&responder, (struct message){.type = RECALL}, STATE_RECALL);
}

static enum outcome deed_check_in(void) {
    if (responder.live.state != STATE_RETURNED)
        return NOT_NOW;
    return issue_and_go(&responder, (struct message){.type = CHECKED_IN}, STATE_CHECKED_IN);
}

static enum outcome deed_expire(uint32_t today) {
    const struct record *record = &responder.live;
    if (record->state != STATE_IN_PROCESS && record->state != STATE_CONDITIONAL)
        return NOT_NOW;
    if (!record->expiry || today <= record->expiry)
        return NOT_EXPIRED;
    return issue_and_go(&responder, (struct message){.type = EXPIRED}, STATE_NOT_SUPPLIED);
}

/* ---- The requester's table of deliveries ---- */

/* A message is taken, and leads to a state. */
static enum outcome go(struct record *record, enum state to) {
    record->state = to;
    return TAKEN;
}

/* Neither shipped nor ended, as far as the requester knows. */
static bool is_open(enum state state) {
    return state == STATE_PENDING || state == STATE_CONDITIONAL || state == STATE_CANCEL_PENDING;
}

static enum outcome take_conditions(struct record *record, uint8_t number) {
    if (number <= record->accepted || (record->state == STATE_CONDITIONAL && number == record->held))
        return REPEAT;
    if (record->state != STATE_PENDING)
        return CONFLICT;
    record->held = number;
    return go(record, STATE_CONDITIONAL);
}

static enum outcome take_no_supply(struct record *record) {
    if (record->state == STATE_NOT_SUPPLIED)
        return REPEAT;
    if (!is_open(record->state))
        return CONFLICT;
    record->held = 0;
    return go(record, STATE_NOT_SUPPLIED);
}

static enum outcome take_answer(struct record *record, enum result result, uint8_t number) {
    if (result == CONDITIONAL)
        return take_conditions(record, number);
    if (result == WILL_SUPPLY || result == HOLD_PLACED)
        return record->state == STATE_PENDING ? TAKEN : CONFLICT;
    return take_no_supply(record);
}

static enum outcome take_cancel_reply(struct record *record, const struct message *reply) {
    bool last = reply->answers == record->cancel;
    if (record->state == STATE_CANCEL_PENDING && last)
        return go(record, reply->yes ? STATE_CANCELLED : STATE_PENDING);
    if (record->state == STATE_CANCELLED && reply->yes && last)
        return REPEAT;
    return has_issued(&requester, reply->answers, CANCEL) ? STALE : CONFLICT;
}

static enum outcome take_shipped(struct record *record, uint32_t due) {
    if (record->state >= STATE_SHIPPED)
        return REPEAT;
    if (!is_open(record->state))
        return CONFLICT;
    record->due = due;
    record->held = 0;
    return go(record, STATE_SHIPPED);
}

static enum outcome take_overdue(struct record *record, uint32_t date) {
    if (record->state >= STATE_SHIPPED && date != record->due)
        return STALE;
    switch (record->state) {
    case STATE_SHIPPED:
        return go(record, STATE_NOT_RECEIVED_OVERDUE);
    case STATE_RECEIVED:
        return go(record, STATE_OVERDUE);
    case STATE_RENEW_PENDING:
        return go(record, STATE_RENEW_OVERDUE);
    case STATE_NOT_RECEIVED_OVERDUE:
    case STATE_OVERDUE:
    case STATE_RENEW_OVERDUE:
        return REPEAT;
    default:
        return CONFLICT;
    }
}

static enum outcome take_renew_answer(struct record *record, const struct message *answer) {
    bool open = record->state == STATE_RENEW_PENDING || record->state == STATE_RENEW_OVERDUE;
    if (!open || answer->answers != record->renew)
        return has_issued(&requester, answer->answers, RENEW) ? STALE : CONFLICT;
    if (!answer->yes)
        return go(record, record->state == STATE_RENEW_PENDING ? STATE_RECEIVED : STATE_OVERDUE);
    if (answer->date <= record->due)
        return CONFLICT;
    record->due = answer->date;
    return go(record, STATE_RECEIVED);
}

static enum outcome take_recall(struct record *record) {
    if (record->state == STATE_RECALL)
        return REPEAT;
    return record->state >= STATE_SHIPPED && record->state < STATE_RECALL ? go(record, STATE_RECALL) : CONFLICT;
}

static enum outcome take_checked_in(struct record *record) {
    if (record->state != STATE_RETURNED)
        return CONFLICT;
    if (record->checked_in)
        return REPEAT;
    record->checked_in = true;
    return TAKEN;
}

static enum outcome requester_takes(const struct message *message, uint8_t number) {
    struct record *record = &requester.live;
    switch (message->type) {
    case ILL_ANSWER:
        return take_answer(record, message->result, number);
    case EXPIRED:
        return take_no_supply(record);
    case CANCEL_REPLY:
        return take_cancel_reply(record, message);
    case SHIPPED:
        return take_shipped(record, message->date);
    case OVERDUE:
        return take_overdue(record, message->date);
    case RENEW_ANSWER:
        return take_renew_answer(record, message);
    case RECALL:
        return take_recall(record);
    default:
        return take_checked_in(record);
    }
}

/* ---- The responder's table of deliveries ---- */

static enum outcome take_request(struct record *record, uint32_t expiry) {
    if (record->state != STATE_IDLE)
        return REPEAT;
    record->expiry = expiry;
    return go(record, STATE_IN_PROCESS);
}

/* In CONDITIONAL the last message named the conditions that wait for an answer. */
static enum outcome take_yes(struct record *record, uint8_t answers) {
    if (record->state == STATE_CONDITIONAL && answers == record->issued) {
        record->accepted = answers;
        return go(record, STATE_IN_PROCESS);
    }
    if (answers == record->accepted)
        return REPEAT;
    return has_issued(&responder, answers, ILL_ANSWER) && responder.messages[answers - 1].result == CONDITIONAL
               ? STALE
               : CONFLICT;
}

/* The only delivery that issues a message. */
static enum outcome take_no(struct record *record) {
    if (record->state == STATE_NOT_SUPPLIED)
        return REPEAT;
    if (record->state != STATE_IN_PROCESS && record->state != STATE_CONDITIONAL)
        return CONFLICT;
    enum outcome outcome =
        issue_and_go(&responder, (struct message){.type = ILL_ANSWER, .result = UNFILLED}, STATE_NOT_SUPPLIED);
    return outcome == DONE ? TAKEN : outcome;
}

static enum outcome take_cancel(struct record *record, uint8_t number) {
    if (number <= record->cancel)
        return REPEAT;
    if (record->state != STATE_IN_PROCESS && record->state != STATE_CONDITIONAL)
        return CONFLICT;
    record->cancel = number;
    return go(record, STATE_CANCEL_PENDING);
}

static enum outcome take_received(struct record *record) {
    if (record->state < STATE_SHIPPED)
        return CONFLICT;
    if (record->received)
        return REPEAT;
    record->received = true;
    return TAKEN;
}

static enum outcome take_renew(struct record *record, uint8_t number) {
    if (number <= record->renew)
        return REPEAT;
    if (record->state != STATE_SHIPPED && record->state != STATE_OVERDUE)
        return CONFLICT;
    record->renew = number;
    return go(record, record->state == STATE_SHIPPED ? STATE_RENEW_PENDING : STATE_RENEW_OVERDUE);
}

static enum outcome take_returned(struct record *record) {
    if (record->state < STATE_SHIPPED)
        return CONFLICT;
    return record->state >= STATE_RETURNED ? REPEAT : go(record, STATE_RETURNED);
}

static enum outcome responder_takes(const struct message *message, uint8_t number) {
    struct record *record = &responder.live;
    switch (message->type) {
    case ILL_REQUEST:
        return take_request(record, message->date);
    case CONDITIONAL_REPLY:
        return message->yes ? take_yes(record, message->answers) : take_no(record);
    case CANCEL:
        return take_cancel(record, number);
    case RECEIVED:
        return take_received(record);
    case RENEW:
        return take_renew(record, number);
    default:
        return take_returned(record);
    }
}

/* ---- The other events ---- */

static enum outcome save(struct side *side) {
    side->committed = side->live;
    side->released = side->live.issued;
    return SAVED;
}

static enum outcome fail_to_save(struct side *side, bool commits) {
    if (commits)
        side->committed = side->live;
    return FAULTED;
}

static enum outcome restart(struct side *side) {
    side->live = side->committed;
    side->released = side->live.issued;
    return RESTARTED;
}

static enum outcome send(struct side *side, uint8_t number) {
    if (number > side->live.issued)
        return NO_SUCH_MESSAGE;
    if (number > side->released)
        return NOT_SAVED;
    side->sent[number - 1] = true;
    return SENT;
}

static enum outcome deliver(struct side *side, uint8_t number) {
    const struct side *sender = other(side);
    if (!sender->sent[number - 1])
        return NOT_SENT;
    const struct message *message = &sender->messages[number - 1];
    return side == &requester ? requester_takes(message, number) : responder_takes(message, number);
}

static struct text group, transaction;

static bool same(struct text one, struct text two) {
    return one.size == two.size && !memcmp(one.bytes, two.bytes, one.size);
}

static enum outcome hear(const uint8_t *bytes, size_t size) {
    struct apdu apdu;
    size_t offset;
    if (read_apdu(bytes, size, &apdu, &offset) != NO_FAULT || apdu.size != size)
        return GARBLED;
    return same(apdu.group, group) && same(apdu.transaction, transaction) ? FORGED : OTHER_TRANSACTION;
}

/* ---- The words of a line ---- */

/* The words of a line, as far as the one after the most that a line may have, or its item. `end` is the end of
 * the line. */
struct words {
    struct text word[MOST_WORDS];
    size_t count;
    const uint8_t *end;
};

/* Finds the next word at or after `at`; without any it is empty. */
static struct text next_word(const uint8_t *at, const uint8_t *end) {
    while (at < end && *at == ' ')
        at++;
    const uint8_t *first = at;
    while (at < end && *at != ' ')
        at++;
    return (struct text){first, (size_t)(at - first)};
}

static void split(struct text line, struct words *words) {
    words->count = 0;
    words->end = line.bytes + line.size;
    struct text word = next_word(line.bytes, words->end);
    while (word.size) {
        if (words->count < MOST_WORDS)
            words->word[words->count] = word;
        if (words->count++ == MOST_WORDS)
            break;
        word = next_word(word.bytes + word.size, words->end);
    }
}

static inline bool is(struct text word, const char *what) {
    return word.size == strlen(what) && !memcmp(word.bytes, what, word.size);
}

/* Each of the next reads a word, and says whether it is right. */

static bool read_side(struct text word, struct side **side) {
    *side = is(word, "requester") ? &requester : &responder;
    return *side == &requester || is(word, "responder");
}

static bool read_number(struct text word, uint8_t *number) {
    uint32_t value = 0;
    if (word.size > 3)
        return false;
    for (size_t n = 0; n < word.size; n++) {
        if (word.bytes[n] < '0' || word.bytes[n] > '9')
            return false;
        value = value * 10 + (word.bytes[n] - '0');
    }
    *number = (uint8_t)value;
    return value >= 1 && value <= MOST_MESSAGES;
}

static bool read_day(struct text word, uint32_t *day) {
    *day = day_of(word.bytes, word.size);
    return *day;
}

static bool read_day_or_none(struct text word, uint32_t *day) {
    *day = 0;
    return is(word, "none") || read_day(word, day);
}

static bool read_yes_no(struct text word, bool *yes) {
    *yes = is(word, "yes");
    return *yes || is(word, "no");
}

static bool read_result(struct text word, enum result *result) {
    for (*result = CONDITIONAL; *result < RESULTS; ++*result)
        if (is(word, RESULT_WORD[*result]))
            return true;
    return false;
}

static int digit_of(uint8_t byte) {
    if (byte >= '0' && byte <= '9')
        return byte - '0';
    byte |= 0x20;
    return byte >= 'a' && byte <= 'f' ? byte - 'a' + 10 : -1;
}

/* Reads two digits for each byte, of which there is room for as many as a line may encode. */
static bool read_hex(struct text word, uint8_t *bytes, size_t *size) {
    *size = 0;
    if (is(word, "none"))
        return true;
    if (word.size % 2)
        return false;
    for (size_t n = 0; n < word.size; n += 2) {
        int high = digit_of(word.bytes[n]), low = digit_of(word.bytes[n + 1]);
        if (high < 0 || low < 0)
            return false;
        bytes[(*size)++] = (uint8_t)(high << 4 | low);
    }
    return true;
}

/* Whether the words from this one on, with one space between each and the next, are an item. */
static bool are_item(const struct words *words, size_t first) {
    uint8_t item[LINE_BYTES];
    size_t size = 0;
    struct text word = words->word[first];
    while (word.size) {
        if (size)
            item[size++] = ' ';
        memcpy(item + size, word.bytes, word.size);
        size += word.size;
        word = next_word(word.bytes + word.size, words->end);
    }
    return is_item(item, size);
}

/* ---- The lines ---- */

static enum outcome perform_wish(const struct words *words) {
    const struct text *word = words->word;
    uint32_t day;
    bool yes;
    if (words->count > 3)
        return is(word[1], "request") && read_day_or_none(word[2], &day) && are_item(words, 3) ? wish_request(day)
                                                                                             : BAD_LINE;
    if (words->count == 3 && is(word[1], "reply") && read_yes_no(word[2], &yes))
        return wish_reply(yes);
    if (words->count == 3 && is(word[1], "renew") && read_day_or_none(word[2], &day))
        return wish_renew(day);
    if (words->count != 2)
        return BAD_LINE;
    if (is(word[1], "cancel"))
        return wish_cancel();
    if (is(word[1], "receive"))
        return wish_receive();
    return is(word[1], "return") ? wish_return() : BAD_LINE;
}

/* Deeds of one word. */
static enum outcome perform_bare_deed(struct text word, uint32_t today) {
    if (is(word, "overdue"))
        return deed_overdue(today);
    if (is(word, "recall"))
        return deed_recall();
    if (is(word, "check-in"))
        return deed_check_in();
    return is(word, "expire") ? deed_expire(today) : BAD_LINE;
}

/* Deeds of two words. */
static enum outcome perform_deed_with(struct text word, struct text with, uint32_t today) {
    enum result result;
    uint32_t due;
    bool yes;
    if (is(word, "answer") && read_result(with, &result))
        return deed_answer(result);
    if (is(word, "cancel-reply") && read_yes_no(with, &yes))
        return deed_cancel_reply(yes);
    if (is(word, "ship") && read_day(with, &due))
        return deed_ship(today, due);
    return is(word, "renew-answer") && is(with, "no") ? deed_renew_no() : BAD_LINE;
}

static enum outcome perform_deed(const struct words *words) {
    const struct text *word = words->word;
    uint32_t today, due;
    if (words->count < 3 || !read_day(word[1], &today))
        return BAD_LINE;
    if (words->count == 3)
        return perform_bare_deed(word[2], today);
    if (words->count == 4)
        return perform_deed_with(word[2], word[3], today);
    if (words->count == 5 && is(word[2], "renew-answer") && is(word[3], "yes") && read_day(word[4], &due))
        return deed_renew_yes(due);
    return BAD_LINE;
}

/* Events of three words whose second names the side. */
static enum outcome perform_with(struct text word, struct side *side, struct text with) {
    uint8_t number, bytes[LINE_BYTES / 2];
    size_t size;
    if (is(word, "send") && read_number(with, &number))
        return send(side, number);
    if (is(word, "deliver") && read_number(with, &number))
        return deliver(side, number);
    if (is(word, "noise") && read_hex(with, bytes, &size))
        return hear(bytes, size);
    if (is(word, "save-fault") && (is(with, "old") || is(with, "new")))
        return fail_to_save(side, is(with, "new"));
    return BAD_LINE;
}

/* Performs the event of a line that has words. */
static enum outcome perform(const struct words *words) {
    const struct text *word = words->word;
    struct side *side;
    if (is(word[0], "requester"))
        return perform_wish(words);
    if (is(word[0], "responder"))
        return perform_deed(words);
    if (words->count < 2 || words->count > 3 || !read_side(word[1], &side))
        return BAD_LINE;
    if (words->count == 3)
        return perform_with(word[0], side, word[2]);
    if (is(word[0], "save"))
        return save(side);
    return is(word[0], "restart") ? restart(side) : BAD_LINE;
}

/* ---- The script and its trace ---- */

static struct input in;
static struct output out;

static void put_side(const char *who, const struct side *side) {
    put_word(&out, who);
    put_word(&out, STATE_WORD[side->live.state]);
    put_word(&out, " ");
    if (side->live.due)
        put_number(&out, side->live.due);
    else
        put_word(&out, "-");
    put_word(&out, " ");
    put_number(&out, side->released);
    put_word(&out, "/");
    put_number(&out, side->live.issued);
}

static void put_event(uint32_t event, enum outcome outcome) {
    reserve(&out, TRACE_BYTES);
    put_number(&out, event);
    put_word(&out, " ");
    put_word(&out, OUTCOME_WORD[outcome]);
    put_side(" requester ", &requester);
    put_side(" responder ", &responder);
    put_word(&out, "\n");
}

static _Noreturn void stop_at(uint32_t line) {
    flush(&out);
    fprintf(stderr, "ill: script at line %u\n", (unsigned)line);
    exit(STATUS_BAD);
}

/* Reads until so many bytes are there that are not used yet, or the input has ended; gives how many are. */
static size_t ready(size_t wanted) {
    while (in.end - in.at < wanted && !in.ended)
        read_more(&in);
    return in.end - in.at;
}

/* Reads the line with this number, or says false where there is none. Of a reader that has failed the rest is no
 * line. */
static bool next_line(uint32_t number, struct text *line) {
    size_t left = ready(number > MOST_LINES ? 1 : LINE_BYTES + 1);
    const uint8_t *first = in.bytes + in.at;
    if (left && number > MOST_LINES)
        stop_at(number);
    const uint8_t *feed = memchr(first, '\n', left);
    size_t size = feed ? (size_t)(feed - first) : left;
    if (size > LINE_BYTES)
        stop_at(number);
    if (!feed && in.failed) {
        flush(&out);
        stop(STATUS_FAILED, "read");
    }
    *line = (struct text){first, size};
    in.at += size + (feed ? 1 : 0);
    return left;
}

static void simulate(void) {
    struct text line;
    struct words words;
    uint32_t events = 0;
    for (uint32_t number = 1; next_line(number, &line); number++) {
        if (line.size && line.bytes[0] == '#')
            continue;
        split(line, &words);
        if (!words.count)
            continue;
        enum outcome outcome = perform(&words);
        if (outcome == BAD_LINE)
            stop_at(number);
        put_event(++events, outcome);
    }
}

int main(int count, char **words) {
    expect_broken_pipes();
    if (count != 3) {
        fputs("usage: peer-simulator GROUP TRANSACTION\n", stderr);
        return STATUS_BAD;
    }
    group = (struct text){(const uint8_t *)words[1], strlen(words[1])};
    transaction = (struct text){(const uint8_t *)words[2], strlen(words[2])};
    if (!is_qualifier(group.bytes, group.size) || !is_qualifier(transaction.bytes, transaction.size))
        stop(STATUS_BAD, "arguments");
    simulate();
    flush(&out);
    return 0;
}
