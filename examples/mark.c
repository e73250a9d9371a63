/*
 * Marks a picture with a text, and reads the text of a marked one: a small host, which does what the library leaves
 * to its caller (docs/HOSTS.md).
 *
 *   mark write [--password WORD [--salt HEX]] IN.ppm OUT.ppm TEXT
 *   mark read [--password WORD] IN.ppm
 *   mark key WORD HEX
 *
 * Pictures are upright binary PPM (P6) of 8 bits. With a password the mark is under a key; its salt is drawn, or given
 * as 8 hexadecimal digits. `read` prints the text and a newline, `key` the key of a password and a salt in hexadecimal.
 *
 * Where the library refuses, the refusal's number and the number given are printed to standard error, and the exit
 * status is 1. It is 3 where a mark was written and can't be read back: no file is written then. Otherwise it is 0, or
 * 2 where a file or an argument can't be used.
 */
#include <argon2.h>
#include <ctype.h>
#include <stdio.h>
#include <stdlib.h>
#include <string.h>

#include "vaikelomu.h"

enum { CHANNELS = 3 };

struct picture {
    size_t width, height, length;
    uint8_t *samples;
};

/* What a mark is written or read with: a key and a salt, if `given` is not 0. Both are lent even where it is 0. */
struct lock {
    uint8_t given, key[VAIKELOMU_KEY], salt[VAIKELOMU_SALT];
};

/* What a call of the library answered. */
struct answer {
    uint8_t number, text[VAIKELOMU_TEXT];
    size_t length;
    uint64_t given;
};

static void fail(const char *what, const char *name)
{
    fprintf(stderr, "mark: %s: %s\n", what, name);
    exit(2);
}

static int refused(uint8_t number, uint64_t given)
{
    fprintf(stderr, "refused %d %llu\n", number, (unsigned long long)given);
    return 1;
}

static void *lent(size_t count, size_t size)
{
    /* One element more, so that the pointer isn't NULL where there are none. */
    void *memory = calloc(count + 1, size);
    if (memory == NULL)
        fail("no memory", "for the picture");
    return memory;
}

/* ---- pictures */

/* The next number of a PPM's head, behind white space and comments; at most five digits. */
static size_t number(FILE *file, const char *name)
{
    size_t value = 0, digits = 0;
    int c = getc(file);
    while (isspace(c) || c == '#') {
        if (c == '#')
            while (c != '\n' && c != EOF)
                c = getc(file);
        c = getc(file);
    }
    for (; isdigit(c) && digits < 5; digits++, c = getc(file))
        value = 10 * value + (size_t)(c - '0');
    if (digits == 0 || !isspace(c))
        fail("not a binary PPM", name);
    return value;
}

static struct picture read_ppm(const char *name)
{
    struct picture p;
    FILE *file = fopen(name, "rb");
    if (file == NULL)
        fail("cannot open", name);
    if (getc(file) != 'P' || getc(file) != '6')
        fail("not a binary PPM", name);
    p.width = number(file, name);
    p.height = number(file, name);
    if (number(file, name) != 255)
        fail("not of 8 bits", name);
    p.length = p.width * p.height * CHANNELS;
    p.samples = lent(p.length, 1);
    if (fread(p.samples, 1, p.length, file) != p.length)
        fail("too short", name);
    fclose(file);
    return p;
}

static void write_ppm(const char *name, struct picture p)
{
    FILE *file = fopen(name, "wb");
    if (file == NULL)
        fail("cannot open", name);
    fprintf(file, "P6\n%zu %zu\n255\n", p.width, p.height);
    fwrite(p.samples, 1, p.length, file);
    if (ferror(file) || fclose(file) != 0)
        fail("cannot write", name);
}

/* ---- keys */

/* The salt that a number is, the first byte highest: so it comes with refusal 11. */
static void salt_of(uint64_t value, uint8_t salt[VAIKELOMU_SALT])
{
    for (int i = 0; i < VAIKELOMU_SALT; i++)
        salt[i] = (uint8_t)(value >> (24 - 8 * i));
}

static void salt_from(const char *hex, uint8_t salt[VAIKELOMU_SALT])
{
    if (strlen(hex) != 2 * VAIKELOMU_SALT || strspn(hex, "0123456789abcdefABCDEF") != 2 * VAIKELOMU_SALT)
        fail("a salt has 8 hexadecimal digits", hex);
    salt_of(strtoul(hex, NULL, 16), salt);
}

/* A salt is drawn anew for each mark: two marks under one password then have two keys. */
static void draw_salt(uint8_t salt[VAIKELOMU_SALT])
{
    FILE *file = fopen("/dev/urandom", "rb");
    if (file == NULL || fread(salt, 1, VAIKELOMU_SALT, file) != VAIKELOMU_SALT)
        fail("cannot draw a salt from", "/dev/urandom");
    fclose(file);
}

/* The key of a password: Argon2id over the four bytes IWMK and the salt. */
static struct lock locked(const char *password, const uint8_t salt[VAIKELOMU_SALT])
{
    struct lock lock = { 1, { 0 }, { 0 } };
    uint8_t argon_salt[8] = { 'I', 'W', 'M', 'K' };
    if (*password == '\0')
        fail("empty", "the password");
    memcpy(lock.salt, salt, VAIKELOMU_SALT);
    memcpy(argon_salt + 4, salt, VAIKELOMU_SALT);
    /* 2 passes over 19,456 KiB in 1 lane, version 0x13 */
    if (argon2id_hash_raw(2, 19456, 1, password, strlen(password), argon_salt, sizeof argon_salt,
                          lock.key, VAIKELOMU_KEY) != ARGON2_OK)
        fail("cannot be derived", "the key");
    return lock;
}

/* ---- the library's two calls, in a work area that the caller keeps */

static struct answer read_text(struct picture p, struct lock lock, float *work, size_t room)
{
    struct answer a;
    a.number = vaikelomu_read(p.samples, p.length, p.width, p.height, CHANNELS,
                              lock.given, lock.key, work, room, a.text, &a.length, &a.given);
    return a;
}

/* Marks the samples and reads the mark back: one work area serves both calls. */
static int mark_samples(struct picture p, const char *text, struct lock lock, float *work, size_t room)
{
    size_t length = strlen(text);
    uint64_t given;
    uint8_t number = vaikelomu_write(p.samples, p.length, p.width, p.height, CHANNELS,
                                     (const uint8_t *)text, length,
                                     lock.given, lock.key, lock.salt, work, room, &given);
    if (number != VAIKELOMU_DONE)
        return refused(number, given);
    struct answer back = read_text(p, lock, work, room);
    if (back.number == VAIKELOMU_DONE && back.length == length && memcmp(back.text, text, length) == 0)
        return 0;
    fprintf(stderr, "mark: the picture does not carry the mark\n");
    return 3;
}

static int write_mark(const char *in, const char *out, const char *text, struct lock lock)
{
    struct picture p = read_ppm(in);
    size_t room = VAIKELOMU_WORK_TO_WRITE(p.width, p.height);
    float *work = lent(room, sizeof *work);
    int status = mark_samples(p, text, lock, work, room);
    if (status == 0)
        write_ppm(out, p);
    free(work);
    free(p.samples);
    return status;
}

/* With a password: without a key first, since the key needs the mark's salt. */
static struct answer read_with(struct picture p, const char *password, float *work, size_t room)
{
    struct lock lock = { 0, { 0 }, { 0 } };
    struct answer a = read_text(p, lock, work, room);
    if (password == NULL)
        return a;
    if (a.number == VAIKELOMU_PASSWORD_REQUIRED) {
        salt_of(a.given, lock.salt);
        return read_text(p, locked(password, lock.salt), work, room);
    }
    if (a.number == VAIKELOMU_DONE || a.number == VAIKELOMU_DAMAGED) {
        a.number = VAIKELOMU_NOT_ENCRYPTED;
        a.given = 0;
    }
    return a;
}

static int read_mark(const char *in, const char *password)
{
    struct picture p = read_ppm(in);
    size_t room = VAIKELOMU_WORK_TO_READ(p.width, p.height);
    float *work = lent(room, sizeof *work);
    struct answer a = read_with(p, password, work, room);
    free(work);
    free(p.samples);
    if (a.number != VAIKELOMU_DONE)
        return refused(a.number, a.given);
    fwrite(a.text, 1, a.length, stdout);
    putchar('\n');
    return 0;
}

static int print_key(const char *password, const char *hex)
{
    uint8_t salt[VAIKELOMU_SALT];
    salt_from(hex, salt);
    struct lock lock = locked(password, salt);
    for (int i = 0; i < VAIKELOMU_KEY; i++)
        printf("%02x", lock.key[i]);
    putchar('\n');
    return 0;
}

int main(int count, char **words)
{
    const char *command = count > 1 ? words[1] : "", *password = NULL, *hex = NULL;
    int at = 2;
    for (; at + 1 < count && strncmp(words[at], "--", 2) == 0; at += 2) {
        if (strcmp(words[at], "--password") == 0)
            password = words[at + 1];
        else if (strcmp(words[at], "--salt") == 0)
            hex = words[at + 1];
        else
            fail("no such option", words[at]);
    }
    words += at;
    count -= at;
    if (strcmp(command, "write") == 0 && count == 3 && (password != NULL || hex == NULL)) {
        struct lock lock = { 0, { 0 }, { 0 } };
        if (password != NULL) {
            if (hex != NULL)
                salt_from(hex, lock.salt);
            else
                draw_salt(lock.salt);
            lock = locked(password, lock.salt);
        }
        return write_mark(words[0], words[1], words[2], lock);
    }
    if (strcmp(command, "read") == 0 && count == 1 && hex == NULL)
        return read_mark(words[0], password);
    if (strcmp(command, "key") == 0 && count == 2 && password == NULL && hex == NULL)
        return print_key(words[0], words[1]);
    fprintf(stderr, "mark write [--password WORD [--salt HEX]] IN.ppm OUT.ppm TEXT\n"
                    "mark read [--password WORD] IN.ppm\n"
                    "mark key WORD HEX\n");
    return 2;
}
