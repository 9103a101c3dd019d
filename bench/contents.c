/* Contents and their chunks, as the plain C programs have them that a replay is measured against. To be
 * included by them; the cuts and the hashing are those of cut_baseline.c. */
#define main cut_main
#include "cut_baseline.c"
#undef main

/* A chunk as both ends know it. */
struct chunk {
    size_t start, len;
    uint8_t digest[20];
};

struct content {
    uint8_t *bytes;
    size_t count;
    struct chunk *chunks;
    size_t all;
};

static void *room(size_t count)
{
    void *bytes = malloc(count ? count : 1);
    if (!bytes)
        exit(3);
    return bytes;
}

/* Part r:SEED:COUNT of a trace, which is not cut yet. */
static struct content draw(uint64_t seed, size_t count)
{
    struct content c = {room(count), count, NULL, 0};
    for (size_t i = 0; i < count; i++) {
        seed = seed * 6364136223846793005u + 1442695040888963407u;
        c.bytes[i] = (uint8_t)(seed >> 56);
    }
    return c;
}

/* The chunks of a content, with their digests. */
static void cut(struct content *c)
{
    c->chunks = room((c->count / LEAST + 1) * sizeof *c->chunks);
    c->all = 0;
    for (size_t start = 0; start < c->count; c->all++) {
        struct chunk *chunk = &c->chunks[c->all];
        chunk->start = start;
        chunk->len = chunk_len(c->bytes + start, c->count - start);
        sha1(c->bytes + start, chunk->len, chunk->digest);
        start += chunk->len;
    }
}
