/*
 * Lent buffers. Each lies in a body of its own, between two stretches of unmapped pages, flush with one of the two: reading or writing one
 * element past it is a fault at once. The body is mapped twice. A buffer that a call only reads is lent through the view that cannot be
 * written, so a stray write to it is a fault, too. What is left of a body holds one byte throughout, which must still be there after a call.
 */
#define _GNU_SOURCE
#include "hostile.h"

#include <stdio.h>
#include <stdlib.h>
#include <string.h>
#include <sys/mman.h>
#include <unistd.h>

enum {
    BODY = 1 << 21,  /* a multiple of every page size in use, with room for the longest buffer */
    GUARD = 1 << 24, /* farther than any number of the large form reaches */
    NEAR = 512,      /* bytes around a buffer that are looked at after each call; all of them now and then */
    UNTOUCHED = 0xa5
};

enum view { TO_READ, TO_WRITE, VIEWS };

struct lent {
    const char *name;
    size_t size; /* of an element, in bytes */
    uint8_t *view[VIEWS];
    size_t offset, bytes;
    const uint8_t *content; /* what was lent */
};

static struct lent all[BUFFERS] = {
    [MESSAGE] = { .name = "message", .size = 1 },
    [TEXT] = { .name = "text", .size = 1 },
    [SEGMENTS] = { .name = "segments", .size = sizeof(uint32_t) },
    [LEAVES] = { .name = "leaves", .size = sizeof(uint32_t) },
    [CARD] = { .name = "card", .size = sizeof(size_t) },
    [ANSWER] = { .name = "answer", .size = sizeof(size_t) }, /* an int64_t is as wide */
    [OUTPUT] = { .name = "output", .size = 1 },
    [LISTING] = { .name = "listing", .size = 1 },
    [WATCHER] = { .name = "watcher", .size = 1 },
    [OTHER_TEXT] = { .name = "other text", .size = 1 },
    [OTHER_SEGMENTS] = { .name = "other segments", .size = sizeof(uint32_t) },
    [OTHER_LEAVES] = { .name = "other leaves", .size = sizeof(uint32_t) },
    [OTHER_CARD] = { .name = "other card", .size = sizeof(size_t) },
    [VALUE_NUMBERS] = { .name = "numbers", .size = 1 },
    [VALUE_WHOLES] = { .name = "wholes", .size = sizeof(int64_t) },
    [VALUE_DECIMALS] = { .name = "decimals", .size = 1 },
    [ARCHIVED_SEGMENTS] = { .name = "archived segments", .size = sizeof(uint16_t) },
    [ARCHIVED_LEAVES] = { .name = "archived leaves", .size = sizeof(uint16_t) },
    [INDEX_CODES] = { .name = "codes", .size = 1 },
    [INDEX_COUNTS] = { .name = "counts", .size = sizeof(uint32_t) },
    [TALLY] = { .name = "tally", .size = sizeof(uint32_t) },
    [CODE] = { .name = "code", .size = 1 },
    [KINDS] = { .name = "kinds", .size = 1 }
};

static void need(bool done, const char *what)
{
    if (!done) {
        perror(what);
        exit(2);
    }
}

/* Maps a body with nothing around it: the stretch is reserved unmapped, and only its middle is then given bytes. */
static uint8_t *map_between(int file, int protection)
{
    uint8_t *stretch = mmap(NULL, 2 * GUARD + 2 * BODY, PROT_NONE, MAP_PRIVATE | MAP_ANONYMOUS | MAP_NORESERVE, -1, 0);
    need(stretch != MAP_FAILED, "hostile: mmap");
    uint8_t *body = stretch + GUARD + (BODY - (uintptr_t)stretch % BODY) % BODY;
    need(mmap(body, BODY, protection, MAP_SHARED | MAP_FIXED, file, 0) == body, "hostile: mmap");
    return body;
}

void prepare_buffers(void)
{
    for (int which = 0; which < BUFFERS; which++) {
        int file = memfd_create(all[which].name, 0);
        need(file >= 0 && ftruncate(file, BODY) == 0, "hostile: memfd_create");
        all[which].view[TO_READ] = map_between(file, PROT_READ);
        all[which].view[TO_WRITE] = map_between(file, PROT_READ | PROT_WRITE);
        memset(all[which].view[TO_WRITE], UNTOUCHED, BODY);
        close(file);
    }
}

static uint8_t *lend_through(enum view view, enum buffer which, const void *content, size_t count)
{
    struct lent *l = &all[which];
    memset(l->view[TO_WRITE] + l->offset, UNTOUCHED, l->bytes);
    l->bytes = count * l->size;
    l->offset = flush_with_page_after() ? BODY - l->bytes : 0;
    l->content = content;
    memcpy(l->view[TO_WRITE] + l->offset, content, l->bytes);
    return l->view[view] + l->offset;
}

const void *lend(enum buffer which, const void *content, size_t count)
{
    return lend_through(TO_READ, which, content, count);
}

void *lend_to_write(enum buffer which, const void *content, size_t count)
{
    return lend_through(TO_WRITE, which, content, count);
}

static bool untouched(const uint8_t *from, size_t bytes)
{
    return bytes == 0 || (from[0] == UNTOUCHED && memcmp(from, from + 1, bytes - 1) == 0);
}

static void expect_around(const struct lent *l)
{
    size_t end = l->offset + l->bytes, before = l->offset, after = BODY - end;
    if (!look_at_all_around()) {
        before = before < NEAR ? before : NEAR;
        after = after < NEAR ? after : NEAR;
    }
    const uint8_t *body = l->view[TO_WRITE];
    if (!untouched(body + l->offset - before, before))
        fail("bytes before %s were written", l->name);
    if (!untouched(body + end, after))
        fail("bytes past %s were written", l->name);
}

static void expect_bytes(const struct lent *l, const uint8_t *expected, size_t from, size_t bytes, const char *what)
{
    const uint8_t *is = l->view[TO_WRITE] + l->offset;
    if (memcmp(is + from, expected + from, bytes) == 0)
        return;
    while (is[from] == expected[from])
        from++;
    fail("%s: element %zu is %s", l->name, from / l->size, what);
}

void expect_kept(enum buffer which)
{
    expect_front(which, all[which].content, 0);
}

void expect_front(enum buffer which, const void *front, size_t count)
{
    const struct lent *l = &all[which];
    size_t bytes = count * l->size;
    if (bytes > l->bytes)
        fail("%s: %zu elements were to be filled, and it has %zu", l->name, count, l->bytes / l->size);
    expect_bytes(l, front, 0, bytes, "not what it should be");
    expect_bytes(l, l->content, bytes, l->bytes - bytes, "changed");
    expect_around(l);
}

/* Called by a signal's handler. */
void describe_address(const void *address, char *to, size_t room)
{
    const uint8_t *at = address;
    for (int which = 0; which < BUFFERS; which++) {
        const struct lent *l = &all[which];
        for (int view = 0; view < VIEWS; view++) {
            const uint8_t *start = l->view[view] + l->offset, *end = start + l->bytes;
            if (at >= end && at < end + GUARD)
                snprintf(to, room, "a byte was touched %zu past the end of %s", (size_t)(at - end), l->name);
            else if (at < start && at >= start - GUARD)
                snprintf(to, room, "a byte was touched %zu before the start of %s", (size_t)(start - at), l->name);
            else if (at >= start && at < end)
                snprintf(to, room, "byte %zu of %s was written, which is lent to be read", (size_t)(at - start), l->name);
            else
                continue;
            return;
        }
    }
    snprintf(to, room, "a byte was touched at %p, far from all buffers", address);
}
