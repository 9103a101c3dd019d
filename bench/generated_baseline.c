/* `replay --seed SEED --blocks N --summary` as a plain C program, to measure the proved one against:
 * the same lines made and read, the same calls as records on a queue of bytes, the same hashing and
 * the same cuts at each end, each byte that goes over the wire copied as often, the same indexes of
 * chunks at both ends, and the same contents kept by clients. What a line asks for is known beforehand
 * and nothing is refused; no other trace can be run.
 *
 *   generated_baseline SEED N
 */
#include "contents.c"

enum { FILES = 8, CLIENTS = 4, SIZE = 9000, AT_ONCE = 16, ROOM = 1 << 17, PAIRS = 1 << 16 };

/* An operation of the history. */
struct op {
    char word;
    uint8_t digest[20];
    unsigned long cond, tmp, read, data;
};

/* Bytes on their way to an end, and the record that it takes. */
struct queue {
    uint8_t *bytes, *record;
    size_t front, back;
};

/* A place of a chunk's bytes, and what an index has for a key: the first eight bytes of a digest. */
struct place {
    size_t file, start, len;
};

struct pair {
    uint64_t key;
    struct place place;
    uint32_t next, newer, older;
};

/* Places by keys. Pairs are linked by their numbers, from 1 on: in a chain for each low part of a key,
 * which 0 ends, and through pair 0 in a ring, by when they were put or found last. */
struct index {
    struct pair pairs[PAIRS + 1];
    uint32_t chains[PAIRS], count;
};

/* A client: its index, and of each file the content that it keeps, in this version, or in version 0
 * where it keeps none. It may keep those of 256 files, so none of these ever has to go. */
struct client {
    struct index index;
    struct content kept[FILES];
    unsigned long versions[FILES];
};

static struct content files[FILES];
static unsigned long versions[FILES];
static struct index known;
static struct client clients[CLIENTS];
static struct op *ops;
static size_t op_count, journal;
static struct queue up, down;
static uint32_t next_xid = 1;

static void drop(struct content *c)
{
    free(c->bytes);
    free(c->chunks);
}

/* ---- messages */

static uint8_t *put(uint8_t *at, uint32_t word)
{
    for (int i = 0; i < 4; i++)
        at[i] = (uint8_t)(word >> (24 - 8 * i));
    return at + 4;
}

static uint32_t get(const uint8_t *at)
{
    return (uint32_t)at[0] << 24 | (uint32_t)at[1] << 16 | (uint32_t)at[2] << 8 | at[3];
}

/* A message of so many words and these bytes is spelled, marked, and put on the queue. */
static void give(struct queue *q, uint32_t xid, int words, const uint8_t *bytes, size_t len)
{
    static uint8_t message[ROOM];
    uint8_t *at = put(message, xid);
    for (int i = 1; i < words; i++)
        at = put(at, (uint32_t)i);
    at = put(at, (uint32_t)len);
    if (len > 0)
        memcpy(at, bytes, len);
    at += len;
    size_t size = (size_t)(at - message);
    if (q->front == q->back)
        q->front = q->back = 0;
    put(q->bytes + q->back, 0x80000000u | (uint32_t)size);
    memcpy(q->bytes + q->back + 4, message, size);
    q->back += 4 + size;
}

/* The next record is taken off the queue and read: where its bytes stand, and how many they are. */
static const uint8_t *take(struct queue *q, int words, size_t *len)
{
    size_t size = get(q->bytes + q->front) & 0x7FFFFFFF;
    memcpy(q->record, q->bytes + q->front + 4, size);
    q->front += 4 + size;
    uint32_t sum = 0;
    for (int i = 0; i < words; i++)
        sum ^= get(q->record + 4 * i);
    *len = get(q->record + 4 * words);
    return sum == UINT32_MAX ? NULL : q->record + 4 * words + 4;
}

/* ---- indexes of chunks */

static void leave_ring(struct index *x, uint32_t at)
{
    x->pairs[x->pairs[at].older].newer = x->pairs[at].newer;
    x->pairs[x->pairs[at].newer].older = x->pairs[at].older;
}

static void join_ring(struct index *x, uint32_t at)
{
    x->pairs[at].newer = 0;
    x->pairs[at].older = x->pairs[0].older;
    x->pairs[x->pairs[0].older].newer = at;
    x->pairs[0].older = at;
}

/* Where the number of a key's pair stands in its chain, or would. */
static uint32_t *link_of(struct index *x, uint64_t key)
{
    uint32_t *link = &x->chains[key % PAIRS];
    while (*link != 0 && x->pairs[*link].key != key)
        link = &x->pairs[*link].next;
    return link;
}

static uint64_t key_of(const uint8_t *digest)
{
    return (uint64_t)get(digest) << 32 | get(digest + 4);
}

/* The place that is there for a digest, if one is. Its pair is the newest then. */
static struct place *find(struct index *x, const uint8_t *digest)
{
    uint32_t at = *link_of(x, key_of(digest));
    if (at == 0)
        return NULL;
    leave_ring(x, at);
    join_ring(x, at);
    return &x->pairs[at].place;
}

/* The number of a pair that is in no chain: a new one, or the oldest, which goes. */
static uint32_t spare(struct index *x)
{
    if (x->count < PAIRS)
        return ++x->count;
    uint32_t at = x->pairs[0].newer;
    leave_ring(x, at);
    *link_of(x, x->pairs[at].key) = x->pairs[at].next;
    return at;
}

static void enter(struct index *x, size_t file, const struct content *c)
{
    for (size_t i = 0; i < c->all; i++) {
        struct place place = {file, c->chunks[i].start, c->chunks[i].len};
        struct place *there = find(x, c->chunks[i].digest);
        if (there != NULL) {
            *there = place;
            continue;
        }
        uint64_t key = key_of(c->chunks[i].digest);
        uint32_t at = spare(x), *link = link_of(x, key);
        x->pairs[at] = (struct pair){key, place, 0, 0, 0};
        *link = at;
        join_ring(x, at);
    }
}

/* The bytes that an index gives for a digest, where the place has so many, lies in its file, and they
 * have the digest. */
static const uint8_t *look_up(struct index *x, const struct content *of, const uint8_t *digest, size_t len)
{
    const struct place *place = find(x, digest);
    if (place == NULL || place->len != len || place->start + len > of[place->file].count)
        return NULL;
    const uint8_t *bytes = of[place->file].bytes + place->start;
    uint8_t got[20];
    sha1(bytes, len, got);
    return memcmp(got, digest, 20) == 0 ? bytes : NULL;
}

/* ---- the client's commands */

static struct op *begin(char word)
{
    struct op *op = &ops[op_count++];
    memset(op, 0, sizeof *op);
    op->word = word;
    return op;
}

static struct content copy_of(const struct content *c)
{
    struct content copy = {room(c->count), c->count, NULL, 0};
    memcpy(copy.bytes, c->bytes, c->count);
    return copy;
}

static void keep(struct client *client, size_t id, struct content content)
{
    drop(&client->kept[id]);
    client->kept[id] = content;
    client->versions[id] = versions[id];
}

/* The chunks of a file are read whose numbers these are. */
static void read_chunks(const struct content *file, const size_t *asked, size_t count, struct content *got, struct op *op)
{
    size_t len;
    for (size_t k = 0; k < count; k++)
        give(&up, next_xid++, 22, NULL, 0);
    for (size_t k = 0; k < count; k++) {
        take(&up, 22, &len);
        give(&down, next_xid, 30, file->bytes + file->chunks[asked[k]].start, file->chunks[asked[k]].len);
    }
    for (size_t k = 0; k < count; k++) {
        const struct chunk *chunk = &file->chunks[asked[k]];
        uint8_t digest[20];
        const uint8_t *bytes = take(&down, 30, &len);
        sha1(bytes, len, digest);
        if (memcmp(digest, chunk->digest, 20) != 0)
            exit(1);
        memcpy(got->bytes + chunk->start, bytes, len);
        op->read++;
        op->data += len;
    }
}

/* The file's content, of which each chunk is taken from what the client keeps, or read. */
static struct content fetch(struct client *client, size_t id, struct op *op)
{
    const struct content *file = &files[id];
    struct content got = {room(file->count), file->count, NULL, 0};
    size_t len, asked[AT_ONCE], count = 0;
    give(&up, next_xid++, 20, NULL, 0);
    take(&up, 20, &len);
    enter(&known, id, file);
    give(&down, 1, 12 + 7 * (int)file->all, NULL, 0);
    take(&down, 12 + 7 * (int)file->all, &len);
    for (size_t i = 0; i < file->all; i++) {
        const struct chunk *chunk = &file->chunks[i];
        const uint8_t *bytes = look_up(&client->index, client->kept, chunk->digest, chunk->len);
        if (bytes != NULL)
            memcpy(got.bytes + chunk->start, bytes, chunk->len);
        else
            asked[count++] = i;
    }
    read_chunks(file, asked, count, &got, op);
    keep(client, id, copy_of(&got));
    enter(&client->index, id, file);
    return got;
}

/* The version is asked for where a content is kept, which is the file's where it is of that version. */
static int is_current(const struct client *client, size_t id)
{
    size_t len;
    if (client->versions[id] == 0)
        return 0;
    give(&up, next_xid++, 17, NULL, 0);
    take(&up, 17, &len);
    give(&down, 1, 31, NULL, 0);
    take(&down, 31, &len);
    return client->versions[id] == versions[id];
}

static struct content open_file(struct client *client, size_t id)
{
    struct op *op = begin('o');
    struct content got = is_current(client, id) ? copy_of(&client->kept[id]) : fetch(client, id, op);
    sha1(got.bytes, got.count, op->digest);
    return got;
}

/* The chunks go into the temporary file, by their digests where the server knows them. */
static void store_chunks(const struct content *local, struct content *stored, struct op *op)
{
    size_t len, missing[AT_ONCE], count = 0;
    for (size_t i = 0; i < local->all; i++) {
        const struct chunk *chunk = &local->chunks[i];
        give(&up, next_xid++, 16, chunk->digest, 20);
        const uint8_t *digest = take(&up, 16, &len);
        const uint8_t *bytes = look_up(&known, files, digest, chunk->len);
        if (bytes != NULL)
            memcpy(stored->bytes + chunk->start, bytes, chunk->len);
        else
            missing[count++] = i;
        give(&down, 1, 8, NULL, 0);
        take(&down, 8, &len);
        op->cond++;
    }
    for (size_t k = 0; k < count; k++) {
        const struct chunk *chunk = &local->chunks[missing[k]];
        give(&up, next_xid++, 16, local->bytes + chunk->start, chunk->len);
        const uint8_t *bytes = take(&up, 16, &len);
        memcpy(stored->bytes + chunk->start, bytes, len);
        op->data += len;
        op->tmp++;
        give(&down, 1, 8, NULL, 0);
        take(&down, 8, &len);
    }
}

/* The content becomes the file's, and the client keeps it. */
static void close_file(struct client *client, size_t id, struct content *local)
{
    struct op *op = begin('c');
    struct content stored = {room(local->count), local->count, NULL, 0};
    size_t len;
    cut(local);
    give(&up, next_xid++, 18, NULL, 0);
    take(&up, 18, &len);
    give(&down, 1, 8, NULL, 0);
    take(&down, 8, &len);
    store_chunks(local, &stored, op);
    give(&up, next_xid++, 20, NULL, 0);
    take(&up, 20, &len);
    cut(&stored);
    uint8_t digest[20];
    sha1(stored.bytes, stored.count, digest);
    enter(&known, id, &stored);
    drop(&files[id]);
    files[id] = stored;
    versions[id]++;
    journal++;
    give(&down, 1, 10, NULL, 0);
    take(&down, 10, &len);
    sha1(local->bytes, local->count, op->digest);
    keep(client, id, *local);
    *local = (struct content){NULL, 0, NULL, 0};
}

static void write_at(struct content *local, size_t offset, const char *text)
{
    size_t len = strlen(text), end = offset + len;
    begin('d');
    if (end > local->count) {
        local->bytes = realloc(local->bytes, end);
        local->count = end;
    }
    memcpy(local->bytes + offset, text, len);
}

/* ---- lines */

static char text[1024];
static size_t text_len;

/* The lines are split into words, and each word that begins with a digit is read. */
static unsigned long read_lines(void)
{
    unsigned long sum = 0;
    for (size_t i = 0; i < text_len; i++)
        if (i == 0 || text[i - 1] == ' ' || text[i - 1] == '\n' || text[i - 1] == '#' || text[i - 1] == ':') {
            unsigned long n = 0;
            while (text[i] >= '0' && text[i] <= '9')
                n = 10 * n + (unsigned long)(text[i++] - '0');
            sum += n;
        }
    return sum;
}

#define LINES(...) (text_len += (size_t)snprintf(text + text_len, sizeof text - text_len, __VA_ARGS__))

static unsigned long block(uint64_t seed, unsigned long number)
{
    uint64_t q = (uint32_t)(seed + number);
    unsigned long t = 10 * number, client = 1 + q % CLIENTS, file = q / 4 % FILES, offset = 37 * q % SIZE;
    text_len = 0;
    LINES("do %lu %lu open #%lu\npass %lu 40 %lu %lu\n", client, t, file + 2, client, t, t);
    struct content local = open_file(&clients[client - 1], file);
    if (q / 32 % 2 == 0) {
        LINES("do %lu %lu abandon #%lu\n", client, t, file + 2);
        begin('d');
    } else {
        char word[24];
        snprintf(word, sizeof word, "%lu", number);
        LINES("do %lu %lu write #%lu %lu t:%s\ndo %lu %lu close #%lu\npass %lu 40 %lu %lu\n", client, t, file + 2, offset, word, client, t, file + 2, client, t, t);
        for (int s = 1; s <= CLIENTS; s++)
            LINES("pass %d 2 %lu %lu\n", s, t, t);
        LINES("settle %lu\npass %lu 2 %lu %lu\n", t, client, t, t);
        write_at(&local, offset, word);
        close_file(&clients[client - 1], file, &local);
    }
    drop(&local);
    return read_lines();
}

int main(int argc, char **argv)
{
    if (argc != 3)
        return 2;
    uint64_t seed = strtoull(argv[1], NULL, 10);
    unsigned long blocks = strtoul(argv[2], NULL, 10), sum = 0;
    make_tables();
    ops = room((3 * blocks + 1) * sizeof *ops);
    up = (struct queue){room(ROOM * AT_ONCE), room(ROOM), 0, 0};
    down = (struct queue){room(ROOM * AT_ONCE), room(ROOM), 0, 0};
    for (int i = 0; i < FILES; i++) {
        files[i] = draw(seed + (uint64_t)i + 1, SIZE);
        cut(&files[i]);
        versions[i] = 1;
    }
    for (unsigned long k = 1; k <= blocks; k++)
        sum += block(seed, k);
    unsigned long opened = 0, closed = 0, other = 0, cond = 0, tmp = 0, read = 0, data = 0;
    for (size_t i = 0; i < op_count; i++) {
        opened += ops[i].word == 'o';
        closed += ops[i].word == 'c';
        other += ops[i].word == 'd';
        cond += ops[i].cond;
        tmp += ops[i].tmp;
        read += ops[i].read;
        data += ops[i].data;
    }
    printf("ops %zu opened %lu closed %lu other %lu refused 0 running 0\n", op_count, opened, closed, other);
    printf("cond %lu tmp %lu read %lu data %lu\njournal %zu\n", cond, tmp, read, data, journal);
    return sum == 0;
}
