/* The work of a `put` of a new file and of a `get` by another mount, over a server, as a plain C program, to
 * measure the proved one against: processes over loopback, which exchange messages of the same sizes, at
 * most 16 calls under way; the same hashing and cuts at each end; the file is read, written into the store,
 * where it and its name are flushed before the put is answered, and written into the other folder. All that is
 * ready goes out in one write.
 *
 *   mounted serve PORT STORE MOST     serves a put and then a get of a file of so many bytes, over the file STORE
 *   mounted put PORT FILE
 *   mounted get PORT COPY MOST
 */
#include "contents.c"

#include <arpa/inet.h>
#include <fcntl.h>
#include <netinet/in.h>
#include <netinet/tcp.h>
#include <sys/socket.h>
#include <sys/stat.h>
#include <unistd.h>

enum { CALLS_MOST = 16, CALL = 44, ANSWER = 28, PAIRS = 1024, PIECE = 65536 };
enum { GETHASH = 2, TMPWRITE = 4, CONDWRITE = 5, COMMIT = 6, READ = 7 };
/* what stands behind a call's or an answer's header, without the bytes of a chunk */
enum { CHUNK_ARGUMENTS = 16, READ_RESULT = 104, HASHES_RESULT = 32 };

static void fail(const char *what)
{
    perror(what);
    exit(1);
}

/* ---- a connection: what came and was not taken yet, and what is ready to go */

struct line {
    int link;
    uint8_t *in, *out;
    size_t from, to, ready, space;
};

static struct line line_on(int link)
{
    int one = 1;
    setsockopt(link, IPPROTO_TCP, TCP_NODELAY, &one, sizeof one);
    return (struct line){link, room(4 * PIECE), room(64 * PIECE), 0, 0, 0, 64 * PIECE};
}

static void put_word(uint8_t *at, uint32_t word)
{
    word = htonl(word);
    memcpy(at, &word, 4);
}

static uint32_t word_at(const uint8_t *at)
{
    uint32_t word;
    memcpy(&word, at, 4);
    return ntohl(word);
}

static size_t padded(size_t count)
{
    return (count + 3) & ~(size_t)3;
}

static void flush(struct line *l)
{
    for (size_t done = 0; done < l->ready;) {
        ssize_t more = write(l->link, l->out + done, l->ready - done);
        if (more <= 0)
            fail("write");
        done += (size_t)more;
    }
    l->ready = 0;
}

/* A message of so many bytes is made ready; it gives where they are. Its word 1 says what it is. */
static uint8_t *say(struct line *l, size_t size, uint32_t what)
{
    if (l->ready + size > l->space)
        flush(l);
    uint8_t *at = l->out + l->ready;
    memset(at, 0, size < 128 ? size : 128);
    put_word(at, (uint32_t)(size - 4) | 0x80000000u);
    put_word(at + 4, what);
    l->ready += size;
    return at;
}

static int has_record(const struct line *l)
{
    return l->to - l->from >= 4 && l->to - l->from >= 4 + (word_at(l->in + l->from) & 0x7fffffffu);
}

/* The next message, copied into `record`; what is ready goes out before one is waited for. */
static int hear(struct line *l, uint8_t *record, size_t *size)
{
    while (!has_record(l)) {
        flush(l);
        memmove(l->in, l->in + l->from, l->to - l->from);
        l->to -= l->from;
        l->from = 0;
        ssize_t more = read(l->link, l->in + l->to, 4 * PIECE - l->to);
        if (more <= 0)
            return 0;
        l->to += (size_t)more;
    }
    *size = 4 + (word_at(l->in + l->from) & 0x7fffffffu);
    memcpy(record, l->in + l->from, *size);
    l->from += *size;
    return 1;
}

/* ---- files */

/* A flush of the folder that the path is in, so that its name is sure. */
static void flush_folder(const char *path)
{
    char folder[4096];
    snprintf(folder, sizeof folder, "%s", path);
    char *end = strrchr(folder, '/');
    if (end)
        *end = 0;
    int file = open(end ? folder : ".", O_RDONLY);
    if (file < 0 || fsync(file) || close(file))
        fail("fsync");
}

static void write_file(const char *path, const uint8_t *bytes, size_t count, int is_sure)
{
    char beside[4096];
    snprintf(beside, sizeof beside, "%s.new", path);
    int file = open(beside, O_WRONLY | O_CREAT | O_TRUNC, 0600);
    for (size_t done = 0; done < count;) {
        ssize_t more = write(file, bytes + done, count - done);
        if (more <= 0)
            fail("write");
        done += (size_t)more;
    }
    if (is_sure && fdatasync(file))
        fail("fdatasync");
    if (close(file) || rename(beside, path))
        fail("rename");
    if (is_sure)
        flush_folder(path);
}

static struct content read_file(const char *path)
{
    struct stat about;
    int file = open(path, O_RDONLY);
    if (file < 0 || fstat(file, &about))
        fail("open");
    struct content c = {room((size_t)about.st_size), (size_t)about.st_size, NULL, 0};
    for (size_t done = 0; done < c.count;) {
        ssize_t more = read(file, c.bytes + done, c.count - done);
        if (more <= 0)
            fail("read");
        done += (size_t)more;
    }
    close(file);
    return c;
}

/* ---- the server */

static void answer_hashes(struct line *l, const struct content *c, size_t from)
{
    size_t count = c->all - from < PAIRS ? c->all - from : PAIRS;
    uint8_t *at = say(l, ANSWER + HASHES_RESULT + 24 * count, GETHASH) + ANSWER;
    put_word(at, (uint32_t)count);
    at += HASHES_RESULT;
    for (size_t i = from; i < from + count; i++, at += 24) {
        memcpy(at, c->chunks[i].digest, 20);
        put_word(at + 20, (uint32_t)c->chunks[i].len);
    }
}

static void serve(int listener, const char *store, size_t most)
{
    struct content c = {room(most), 0, NULL, 0};
    uint8_t *record = room(4 * PIECE), whole[20];
    for (int sessions = 0; sessions < 2; sessions++) {
        struct line l = line_on(accept(listener, NULL, NULL));
        for (size_t size; hear(&l, record, &size);) {
            const uint8_t *arguments = record + CALL;
            size_t at = word_at(arguments), count = word_at(arguments + 4);
            switch (word_at(record + 4)) {
            case CONDWRITE:
                say(&l, ANSWER + 4, CONDWRITE);
                break;
            case TMPWRITE:
                memcpy(c.bytes + at, arguments + CHUNK_ARGUMENTS, count);
                c.count = at + count > c.count ? at + count : c.count;
                say(&l, ANSWER + 4, TMPWRITE);
                break;
            case COMMIT:
                cut(&c);
                sha1(c.bytes, c.count, whole);
                write_file(store, c.bytes, c.count, 1);
                say(&l, ANSWER + 16, COMMIT);
                break;
            case GETHASH:
                answer_hashes(&l, &c, at);
                break;
            case READ:
                memcpy(say(&l, ANSWER + READ_RESULT + padded(count), READ) + ANSWER + READ_RESULT, c.bytes + at, count);
                break;
            }
        }
        close(l.link);
    }
}

/* ---- the client */

static void call_chunk(struct line *l, const struct chunk *chunk, uint32_t what, size_t arguments, size_t behind)
{
    uint8_t *at = say(l, CALL + arguments + behind, what) + CALL;
    put_word(at, (uint32_t)chunk->start);
    put_word(at + 4, (uint32_t)chunk->len);
}

/* The answer to the call that was made next is awaited. */
static const uint8_t *answered(struct line *l, uint32_t what, uint8_t *record)
{
    size_t size;
    if (!hear(l, record, &size) || word_at(record + 4) != what)
        fail("an answer");
    return record + ANSWER;
}

static void put_file(struct line *l, const char *path, uint8_t *record)
{
    struct content c = read_file(path);
    uint8_t digest[20];
    cut(&c);
    sha1(c.bytes, c.count, digest);
    /* each chunk is asked for, then sent; calls are answered in order */
    uint32_t under_way[CALLS_MOST];
    size_t chunk_of[CALLS_MOST], first = 0, many = 0, next = 0;
    while (next < c.all || many > 0) {
        for (; many < CALLS_MOST && next < c.all; next++, many++) {
            call_chunk(l, &c.chunks[next], CONDWRITE, 36, 0);
            under_way[(first + many) % CALLS_MOST] = CONDWRITE;
            chunk_of[(first + many) % CALLS_MOST] = next;
        }
        uint32_t what = under_way[first];
        size_t of = chunk_of[first];
        answered(l, what, record);
        first = (first + 1) % CALLS_MOST, many--;
        if (what == CONDWRITE) {
            const struct chunk *chunk = &c.chunks[of];
            call_chunk(l, chunk, TMPWRITE, CHUNK_ARGUMENTS, padded(chunk->len));
            memcpy(l->out + l->ready - padded(chunk->len), c.bytes + chunk->start, chunk->len);
            under_way[(first + many) % CALLS_MOST] = TMPWRITE;
            chunk_of[(first + many) % CALLS_MOST] = of;
            many++;
        }
    }
    call_chunk(l, &c.chunks[0], COMMIT, 32, 0);
    answered(l, COMMIT, record);
}

static size_t get_hashes(struct line *l, struct chunk *chunks, uint8_t *record)
{
    size_t all = 0, start = 0, count = PAIRS;
    while (count == PAIRS) {
        struct chunk from = {all, 0, {0}};
        call_chunk(l, &from, GETHASH, 32, 0);
        const uint8_t *at = answered(l, GETHASH, record);
        count = word_at(at);
        at += HASHES_RESULT;
        for (size_t i = 0; i < count; i++, at += 24, all++) {
            chunks[all].start = start;
            chunks[all].len = word_at(at + 20);
            memcpy(chunks[all].digest, at, 20);
            start += chunks[all].len;
        }
    }
    return all;
}

static void get_file(struct line *l, const char *path, size_t most, uint8_t *record)
{
    struct content c = {room(most), 0, room((most / LEAST + 1) * sizeof *c.chunks), 0};
    uint8_t digest[20];
    c.all = get_hashes(l, c.chunks, record);
    for (size_t next = 0, done = 0; done < c.all; done++) {
        for (; next < c.all && next < done + CALLS_MOST; next++)
            call_chunk(l, &c.chunks[next], READ, 32, 0);
        const struct chunk *chunk = &c.chunks[done];
        memcpy(c.bytes + chunk->start, answered(l, READ, record) + READ_RESULT, chunk->len);
        sha1(c.bytes + chunk->start, chunk->len, digest);
        if (memcmp(digest, chunk->digest, 20) != 0)
            fail("a digest");
        c.count += chunk->len;
    }
    sha1(c.bytes, c.count, digest);
    write_file(path, c.bytes, c.count, 0);
}

static struct sockaddr_in at_port(const char *port)
{
    struct sockaddr_in at = {.sin_family = AF_INET, .sin_port = htons((uint16_t)atoi(port))};
    at.sin_addr.s_addr = htonl(INADDR_LOOPBACK);
    return at;
}

static int listening(const char *port)
{
    struct sockaddr_in at = at_port(port);
    int listener = socket(AF_INET, SOCK_STREAM, 0), one = 1;
    setsockopt(listener, SOL_SOCKET, SO_REUSEADDR, &one, sizeof one);
    if (bind(listener, (struct sockaddr *)&at, sizeof at) || listen(listener, 2))
        fail("listen");
    return listener;
}

static struct line dialled(const char *port)
{
    struct sockaddr_in at = at_port(port);
    int link = socket(AF_INET, SOCK_STREAM, 0);
    if (link < 0 || connect(link, (const struct sockaddr *)&at, sizeof at))
        fail("connect");
    return line_on(link);
}

int main(int count, char **words)
{
    if (count < 4)
        return 2;
    make_tables();
    if (count == 5 && !strcmp(words[1], "serve")) {
        serve(listening(words[2]), words[3], strtoul(words[4], NULL, 10));
        return 0;
    }
    struct line l = dialled(words[2]);
    uint8_t *record = room(4 * PIECE);
    if (count == 4 && !strcmp(words[1], "put"))
        put_file(&l, words[3], record);
    else if (count == 5 && !strcmp(words[1], "get"))
        get_file(&l, words[3], strtoul(words[4], NULL, 10), record);
    else
        return 2;
    return 0;
}
