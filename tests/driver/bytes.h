/* Bytes that grow, and their text. */
#ifndef DRIVER_BYTES_H
#define DRIVER_BYTES_H

#include <stdint.h>
#include <stdio.h>
#include <stdlib.h>
#include <string.h>

struct bytes {
    uint8_t *at;
    size_t len, room;
};

static void append(struct bytes *b, const void *more, size_t len)
{
    if (b->len + len > b->room) {
        b->room = 2 * (b->len + len);
        b->at = realloc(b->at, b->room);
        if (!b->at)
            abort();
    }
    if (len)
        memcpy(b->at + b->len, more, len);
    b->len += len;
}

static void broken(const char *what)
{
    fflush(stdout);
    fprintf(stderr, "driver: not the protocol: %s\n", what);
    exit(2);
}

static int digit(char c)
{
    return c >= '0' && c <= '9' ? c - '0' : c >= 'a' && c <= 'f' ? c - 'a' + 10 : -1;
}

/* The bytes of a token: hex, or `-` for none. They stay good until the next call. */
static struct bytes unhex(const char *token)
{
    static struct bytes kept;
    kept.len = 0;
    if (!token)
        broken("a token is missing");
    for (const char *p = token; strcmp(token, "-") && *p; p += 2) {
        int high = digit(p[0]), low = high < 0 ? -1 : digit(p[1]);
        if (low < 0)
            broken(token);
        uint8_t byte = (uint8_t)(high << 4 | low);
        append(&kept, &byte, 1);
    }
    return kept;
}

static void add_hex(struct bytes *text, const uint8_t *bytes, size_t len)
{
    if (!len)
        append(text, "-", 1);
    for (size_t k = 0; k < len; k++) {
        char two[2] = {"0123456789abcdef"[bytes[k] >> 4], "0123456789abcdef"[bytes[k] & 15]};
        append(text, two, 2);
    }
}

static void put_hex(const uint8_t *bytes, size_t len)
{
    static struct bytes text;
    text.len = 0;
    add_hex(&text, bytes, len);
    fwrite(text.at, 1, text.len, stdout);
}

static uint32_t adler32(const struct bytes *text)
{
    uint32_t a = 1, b = 0;
    for (size_t k = 0; k < text->len; k++) {
        a += text->at[k], b += a;
        if (k % 5552 == 5551)
            a %= 65521, b %= 65521;
    }
    return b % 65521 << 16 | a % 65521;
}
#endif
