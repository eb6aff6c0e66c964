#include "draft.h"

#include <string.h>

#include "slices.h"

void put(struct draft *draft, const void *bytes, size_t length) {
    size_t fits = DRAFT - draft->length < length ? DRAFT - draft->length : length;
    if (fits != 0) memcpy(draft->at + draft->length, bytes, fits);
    draft->length += fits;
}

void put_bytes(struct draft *draft, const struct bytes *bytes) { put(draft, bytes->at, bytes->length); }

void put_random(struct draft *draft, size_t length) {
    while (length-- != 0) {
        uint8_t byte = (uint8_t)any_number();
        put(draft, &byte, 1);
    }
}

/* Puts bytes where others stood. They are not in the draft, and at most 1,024. */
static void replace(struct draft *draft, size_t at, size_t length, const uint8_t *bytes, size_t count) {
    size_t rest = draft->length - at - length;
    if (at + count + rest > DRAFT) return;
    memmove(draft->at + at + count, draft->at + at + length, rest);
    if (count != 0) memcpy(draft->at + at, bytes, count);
    draft->length = at + count + rest;
}

/* How many bytes there are from a place on, at most so many, and at random. */
static size_t some_behind(const struct draft *draft, size_t at, size_t most) {
    size_t left = draft->length - at;
    return below((left < most ? left : most) + 1);
}

static void damage_once(struct draft *draft, size_t from) {
    size_t at = from + below(draft->length - from + 1);
    uint8_t bytes[16];
    size_t count;
    switch (below(6)) {
    case 0:
        if (at < draft->length) draft->at[at] = (uint8_t)any_number();
        break;
    case 1:
        if (at < draft->length) draft->at[at] ^= (uint8_t)(1u << below(8));
        break;
    case 2: replace(draft, at, some_behind(draft, at, 12), NULL, 0); break;
    case 3:
        count = 1 + below(3);
        for (size_t place = 0; place < count; place++) bytes[place] = (uint8_t)any_number();
        replace(draft, at, 0, bytes, count);
        break;
    case 4:
        count = some_behind(draft, at, sizeof bytes);
        memcpy(bytes, draft->at + at, count);
        at = from + below(draft->length - from + 1);
        replace(draft, at, 0, bytes, count);
        break;
    default: draft->length = one_in(3) ? at : draft->length;
    }
}

void damage(struct draft *draft, size_t from) {
    size_t times = one_in(2) ? 1 : 1 + below(4);
    while (times-- != 0) damage_once(draft, from);
}

size_t messages_of(const struct draft *capture, struct message messages[MOST_MESSAGES]) {
    size_t at = capture->length >= HEADER && capture->at[0] == 0xff && capture->at[1] == 0xff ? HEADER : 0;
    size_t count = 0;
    while (count < MOST_MESSAGES && capture->length - at >= HEAD) {
        size_t length = HEAD + capture->at[at + HEAD - 1];
        if (capture->length - at < length) break;
        messages[count++] = (struct message){at, length};
        at += length;
    }
    return count;
}

static void damage_message(struct draft *capture) {
    static struct message messages[MOST_MESSAGES];
    size_t count = messages_of(capture, messages);
    if (count == 0) return;
    struct message one = messages[below(count)], other = messages[below(count)];
    uint8_t bytes[HEAD + 255];
    memcpy(bytes, capture->at + one.at, one.length);
    switch (below(6)) {
    case 0: replace(capture, one.at, one.length, NULL, 0); break;
    case 1: replace(capture, other.at, 0, bytes, one.length); break;
    case 2:
        replace(capture, one.at, one.length, NULL, 0);
        replace(capture, other.at < one.at ? other.at : one.at, 0, bytes, one.length);
        break;
    case 3: capture->at[one.at] = (uint8_t)below(5); break;
    case 4: capture->at[one.at + 2] = (uint8_t)(capture->at[one.at + 2] + (one_in(2) ? 1 : -1)); break;
    default: /* its payload in the other, if that is as long */
        if (one.length == other.length) memcpy(capture->at + other.at + HEAD, bytes + HEAD, one.length - HEAD);
        else capture->at[one.at + below(one.length)] ^= (uint8_t)(1u << below(8));
    }
}

void damage_messages(struct draft *capture) {
    size_t times = one_in(2) ? 1 : 1 + below(3);
    while (times-- != 0) damage_message(capture);
}
