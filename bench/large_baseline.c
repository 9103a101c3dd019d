/* The work of a replay of one open, one write of a byte and one close of a large file, as a plain C
 * program, to measure the proved one against: the same hashing and the same cuts at each end, and
 * each byte copied four times on its way from one end's content to the other's. There are no
 * messages, and nothing is looked up.
 *
 *   large_baseline COUNT         of a content of COUNT bytes, part r:1:COUNT of a trace
 */
#include "contents.c"

/* A chunk's bytes go from one end to the other: into a message, a queue, a record, and the content. */
static void carry(const uint8_t *from, uint8_t *to, size_t len, uint8_t *a, uint8_t *b, uint8_t *c)
{
    memcpy(a, from, len);
    memcpy(b, a, len);
    memcpy(c, b, len);
    memcpy(to, c, len);
}

static void print(const char *what, const struct content *c)
{
    uint8_t digest[20];
    sha1(c->bytes, c->count, digest);
    printf("%s %zu ", what, c->count);
    for (int i = 0; i < 20; i++)
        printf("%02x", digest[i]);
    putchar('\n');
}

int main(int argc, char **argv)
{
    if (argc != 2)
        return 2;
    make_tables();
    struct content server = draw(1, strtoul(argv[1], NULL, 10)), client, stored;
    uint8_t *a = room(MOST), *b = room(MOST), *c = room(MOST);
    cut(&server);

    /* the open: each chunk's bytes are hashed where they come, and the whole */
    client.count = server.count;
    client.bytes = room(client.count);
    for (size_t i = 0; i < server.all; i++) {
        struct chunk *chunk = &server.chunks[i];
        uint8_t digest[20];
        carry(server.bytes + chunk->start, client.bytes + chunk->start, chunk->len, a, b, c);
        sha1(client.bytes + chunk->start, chunk->len, digest);
        if (memcmp(digest, chunk->digest, 20) != 0)
            return 1;
    }
    print("Opened", &client);

    if (client.count > 0)
        client.bytes[client.count / 2] ^= 1;

    /* the close: the client cuts its content, and the server what came; each hashes the whole */
    cut(&client);
    stored.count = client.count;
    stored.bytes = room(stored.count);
    for (size_t i = 0; i < client.all; i++)
        carry(client.bytes + client.chunks[i].start, stored.bytes + client.chunks[i].start, client.chunks[i].len, a, b, c);
    cut(&stored);
    print("Stored", &stored);
    print("Closed", &client);
    return stored.all == client.all ? 0 : 1;
}
