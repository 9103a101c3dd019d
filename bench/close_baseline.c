/* The hashing and the cutting of a close whose chunks the server has all, as a plain C program, to
 * measure the proved one against, and nothing else. The client cuts its content and hashes each chunk;
 * the server hashes each chunk that it has once more, where a CONDWRITE names it; it cuts what the file
 * is now, and hashes each chunk; and each end hashes the whole. So all bytes are hashed five times and
 * cut twice.
 *
 *   close_baseline COUNT         of part r:1:COUNT of a trace; prints the microseconds of processor time
 */
#include <time.h>
#include "contents.c"

static uint64_t now(void)
{
    struct timespec t;
    clock_gettime(CLOCK_PROCESS_CPUTIME_ID, &t);
    return (uint64_t)t.tv_sec * 1000000 + (uint64_t)t.tv_nsec / 1000;
}

int main(int argc, char **argv)
{
    if (argc != 2)
        return 2;
    make_tables();
    struct content client = draw(1, strtoul(argv[1], NULL, 10)), server = client;
    uint8_t digest[20], whole[20];
    uint64_t from = now();

    cut(&client);
    for (size_t i = 0; i < client.all; i++) {
        sha1(server.bytes + client.chunks[i].start, client.chunks[i].len, digest);
        if (memcmp(digest, client.chunks[i].digest, 20) != 0)
            return 1;
    }
    cut(&server);
    sha1(server.bytes, server.count, whole);
    sha1(client.bytes, client.count, digest);

    printf("%llu\n", (unsigned long long)(now() - from));
    return memcmp(digest, whole, 20) != 0 || server.all != client.all;
}
