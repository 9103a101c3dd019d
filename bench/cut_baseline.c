/* The command `cut` as a plain C program, to measure the proved one against: chunks that end where
 * Rabin's fingerprint of the last 48 bytes has 0x78 as its low 13 bits, by two tables of 256 words,
 * and SHA-1 (FIPS 180-4) in portable code. Like the proved program it reads its input to the end,
 * looks at no window that ends before the least size, and writes `chunk START LEN SHA1` lines.
 *
 *   cut_baseline < FILE          cuts
 *   cut_baseline make COUNT      writes COUNT bytes that are always the same
 */
#include <stdint.h>
#include <stdio.h>
#include <stdlib.h>
#include <string.h>

enum { WINDOW = 48, LEAST = 2048, MOST = 65536 };

static const uint64_t MODULUS = 0x3DA3358B4DC173;
static const uint64_t LOW = (UINT64_C(1) << 45) - 1;
static uint64_t high[256], oldest[256];

/* One bit more at the end of a remainder. */
static uint64_t shift(uint64_t print, unsigned bit)
{
    print = print << 1 | bit;
    return print >> 53 ? print ^ MODULUS : print;
}

static void make_tables(void)
{
    for (unsigned byte = 0; byte < 256; byte++) {
        uint64_t print = byte;
        for (int i = 0; i < 53; i++)
            print = shift(print, 0);
        high[byte] = print;
        print = byte;
        for (int i = 0; i < 8 * (WINDOW - 1); i++)
            print = shift(print, 0);
        oldest[byte] = print;
    }
}

static uint64_t append(uint64_t print, uint8_t byte)
{
    return ((print & LOW) << 8 | byte) ^ high[print >> 45];
}

/* How many bytes the chunk at the front of these has. */
static size_t chunk_len(const uint8_t *bytes, size_t count)
{
    size_t most = count < MOST ? count : MOST;
    if (most < LEAST)
        return most;
    uint64_t print = 0;
    for (size_t i = LEAST - WINDOW; i < LEAST; i++)
        print = append(print, bytes[i]);
    for (size_t end = LEAST;; end++) {
        if ((print & 0x1FFF) == 0x78 || end == most)
            return end;
        print = append(print ^ oldest[bytes[end - WINDOW]], bytes[end]);
    }
}

static uint32_t rotate(uint32_t word, int by)
{
    return word << by | word >> (32 - by);
}

static void compress(uint32_t state[5], const uint8_t *block)
{
    uint32_t w[80];
    for (int t = 0; t < 16; t++)
        w[t] = (uint32_t)block[4 * t] << 24 | (uint32_t)block[4 * t + 1] << 16 |
               (uint32_t)block[4 * t + 2] << 8 | block[4 * t + 3];
    for (int t = 16; t < 80; t++)
        w[t] = rotate(w[t - 3] ^ w[t - 8] ^ w[t - 14] ^ w[t - 16], 1);
    uint32_t a = state[0], b = state[1], c = state[2], d = state[3], e = state[4];
#define ROUND(f, k)                                                                                \
    do {                                                                                           \
        uint32_t next = rotate(a, 5) + (f) + e + (k) + w[t];                                       \
        e = d;                                                                                     \
        d = c;                                                                                     \
        c = rotate(b, 30);                                                                         \
        b = a;                                                                                     \
        a = next;                                                                                  \
    } while (0)
    for (int t = 0; t < 20; t++)
        ROUND((b & c) ^ (~b & d), 0x5A827999);
    for (int t = 20; t < 40; t++)
        ROUND(b ^ c ^ d, 0x6ED9EBA1);
    for (int t = 40; t < 60; t++)
        ROUND((b & c) ^ (b & d) ^ (c & d), 0x8F1BBCDC);
    for (int t = 60; t < 80; t++)
        ROUND(b ^ c ^ d, 0xCA62C1D6);
#undef ROUND
    state[0] += a;
    state[1] += b;
    state[2] += c;
    state[3] += d;
    state[4] += e;
}

static void sha1(const uint8_t *bytes, size_t count, uint8_t digest[20])
{
    uint32_t state[5] = {0x67452301, 0xEFCDAB89, 0x98BADCFE, 0x10325476, 0xC3D2E1F0};
    size_t left = count;
    for (; left >= 64; left -= 64, bytes += 64)
        compress(state, bytes);
    uint8_t tail[128] = {0};
    memcpy(tail, bytes, left);
    tail[left] = 0x80;
    size_t end = left < 56 ? 64 : 128;
    for (int i = 0; i < 8; i++)
        tail[end - 1 - i] = (uint8_t)((uint64_t)count * 8 >> 8 * i);
    for (size_t at = 0; at < end; at += 64)
        compress(state, tail + at);
    for (int i = 0; i < 20; i++)
        digest[i] = (uint8_t)(state[i / 4] >> (24 - 8 * (i % 4)));
}

static uint8_t *read_all(size_t *count)
{
    size_t room = 1 << 16;
    uint8_t *bytes = malloc(room);
    *count = 0;
    for (;;) {
        if (!bytes)
            exit(3);
        size_t read = fread(bytes + *count, 1, room - *count, stdin);
        *count += read;
        if (read == 0)
            return bytes;
        if (*count == room)
            bytes = realloc(bytes, room *= 2);
    }
}

static void make(unsigned long count)
{
    uint64_t state = 88172645463325252;
    while (count-- > 0) {
        state ^= state << 13;
        state ^= state >> 7;
        state ^= state << 17;
        putchar((int)(state >> 32 & 255));
    }
}

int main(int argc, char **argv)
{
    if (argc == 3 && strcmp(argv[1], "make") == 0) {
        make(strtoul(argv[2], NULL, 10));
        return 0;
    }
    make_tables();
    size_t count, chunks = 0;
    uint8_t *bytes = read_all(&count);
    for (size_t start = 0; start < count; chunks++) {
        uint8_t digest[20];
        size_t len = chunk_len(bytes + start, count - start);
        sha1(bytes + start, len, digest);
        printf("chunk %zu %zu ", start, len);
        for (int i = 0; i < 20; i++)
            printf("%02x", digest[i]);
        putchar('\n');
        start += len;
    }
    printf("chunks %zu bytes %zu\n", chunks, count);
    free(bytes);
    return 0;
}
