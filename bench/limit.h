/* What the programs limit_*.c have in common: hand-tuned programs that do what a subcommand does with its input of bench/, to
 * say how near the subcommand is to the least that its job takes. They read the same grammar and test each field, but know
 * only what these inputs have: at anything else they end with status 2. sh bench/run.sh --limits compares their outputs with
 * the subcommand's and counts both.
 */
#include <stdint.h>
#include <stdio.h>
#include <stdlib.h>
#include <string.h>
#include <unistd.h>
#include <tmmintrin.h>

#define LIKELY(x) __builtin_expect(!!(x), 1)
#define IN (1 << 16)
#define OUT (1 << 16)

/* A byte stands before the output, so that what is written with a space before it may begin a line. */
static unsigned char in_bytes[IN + 64], out_room[OUT + 8192], *const out_bytes = out_room + 1;
static unsigned char *in_at = in_bytes, *in_end = in_bytes, *out_at = out_room + 1;

static __attribute__((noreturn, cold, unused)) void unknown(void)
{
    fputs("limit: a line that it doesn't know\n", stderr);
    exit(2);
}

static __attribute__((noinline, unused)) void flush(void)
{
    for (unsigned char *at = out_bytes; at < out_at;) {
        ssize_t count = write(1, at, (size_t)(out_at - at));
        if (count <= 0)
            exit(1);
        at += count;
    }
    out_at = out_bytes;
}

/* Moves what is left of the input to the front and reads more: whether a whole line is there. */
static __attribute__((noinline, unused)) int fill(void)
{
    size_t left = (size_t)(in_end - in_at);
    memmove(in_bytes, in_at, left);
    in_at = in_bytes;
    in_end = in_bytes + left;
    flush();
    for (;;) {
        ssize_t count = read(0, in_end, (size_t)(in_bytes + IN - in_end));
        if (count < 0)
            exit(1);
        in_end += count;
        memset(in_end, 0, 64);
        if (memrchr(in_bytes, '\n', (size_t)(in_end - in_bytes)))
            return 1;
        if (count == 0) {
            if (in_end > in_bytes)
                unknown();
            return 0;
        }
    }
}

/* Whether a whole line stands at in_at. No line of these inputs has more than 512 bytes; it is looked for if fewer are there. */
static inline int line(void)
{
    return LIKELY(in_end - in_at >= 512) || (in_at < in_end && memchr(in_at, '\n', (size_t)(in_end - in_at))) || fill();
}

static inline uint64_t load8(const unsigned char *at)
{
    uint64_t word;
    memcpy(&word, at, 8);
    return word;
}

static inline uint32_t load4(const unsigned char *at)
{
    uint32_t word;
    memcpy(&word, at, 4);
    return word;
}

/* The bytes of 16 digits, of either case. */
static inline __m128i bytes_of(__m128i text)
{
    const __m128i all = _mm_setr_epi8('0', '1', '2', '3', '4', '5', '6', '7', '8', '9', 'A', 'B', 'C', 'D', 'E', 'F');
    __m128i letter = _mm_and_si128(_mm_srli_epi16(text, 6), _mm_set1_epi8(1));
    __m128i upper = _mm_andnot_si128(_mm_slli_epi16(letter, 5), text);
    __m128i nine = _mm_add_epi8(_mm_slli_epi16(letter, 3), letter);
    __m128i values = _mm_add_epi8(_mm_and_si128(text, _mm_set1_epi8(15)), nine);
    if (_mm_movemask_epi8(_mm_cmpeq_epi8(_mm_shuffle_epi8(all, values), upper)) != 0xFFFF)
        unknown();
    return _mm_maddubs_epi16(values, _mm_set1_epi16(0x0110));
}

/* Two words, each of eight digits, at two places: as they stand in memory. */
static inline uint64_t words_at(const unsigned char *one, const unsigned char *other)
{
    __m128i text = _mm_castps_si128(_mm_loadh_pi(_mm_castsi128_ps(_mm_loadl_epi64((const __m128i *)one)), (const __m64 *)other));
    return (uint64_t)_mm_cvtsi128_si64(_mm_packus_epi16(bytes_of(text), _mm_setzero_si128()));
}

/* The digits of 8 bytes. */
static inline __m128i digits_of(__m128i bytes)
{
    const __m128i all = _mm_setr_epi8('0', '1', '2', '3', '4', '5', '6', '7', '8', '9', 'A', 'B', 'C', 'D', 'E', 'F');
    __m128i high = _mm_and_si128(_mm_srli_epi16(bytes, 4), _mm_set1_epi8(15));
    return _mm_shuffle_epi8(all, _mm_unpacklo_epi8(high, _mm_and_si128(bytes, _mm_set1_epi8(15))));
}

/* Puts the digits of two words as they stand in memory, with so many spaces (0 or 1) behind each. */
static inline unsigned char *put_words(unsigned char *at, uint64_t words, const int spaces)
{
    __m128i digits = digits_of(_mm_cvtsi64_si128((long long)words));
    if (!spaces) {
        _mm_storeu_si128((__m128i *)at, digits);
        return at + 16;
    }
    _mm_storel_epi64((__m128i *)at, digits);
    at[8] = ' ';
    _mm_storeh_pi((__m64 *)(at + 9), _mm_castsi128_ps(digits));
    at[17] = ' ';
    return at + 18;
}

static inline unsigned char *put_word(unsigned char *at, uint32_t word, const int spaces)
{
    _mm_storel_epi64((__m128i *)at, digits_of(_mm_cvtsi32_si128((int)word)));
    if (spaces)
        at[8] = ' ';
    return at + 8 + spaces;
}

/* A word as it stands in a packet, its greatest byte first, from a number, and back. */
#define BIG(number) __builtin_bswap32(number)

/* Four digits: the number. */
static inline uint32_t number_at(const unsigned char *at)
{
    __m128i text = _mm_cvtsi32_si128((int)(load4(at)));
    text = _mm_unpacklo_epi32(text, _mm_set1_epi8('0'));
    text = _mm_unpacklo_epi64(text, _mm_set1_epi8('0'));
    uint32_t bytes = (uint32_t)_mm_cvtsi128_si32(bytes_of(text));
    return (bytes & 0xFF) << 8 | bytes >> 16;
}

/* Four letters as they stand in memory. */
#define WORD_OF(a, b, c, d) ((uint32_t)(a) | (uint32_t)(b) << 8 | (uint32_t)(c) << 16 | (uint32_t)(d) << 24)

/* Puts a text of known length. */
#define PUT(text) (memcpy(out_at, text, sizeof(text) - 1), out_at += sizeof(text) - 1)

/* Puts four digits of a number. */
static inline void put4(uint32_t number)
{
    uint32_t big = (number & 0xFF) << 8 | (number >> 8 & 0xFF);
    uint32_t digits = (uint32_t)_mm_cvtsi128_si32(digits_of(_mm_cvtsi32_si128((int)big)));
    memcpy(out_at, &digits, 4);
    out_at += 4;
}

/* Room for a line. */
static inline void room(void)
{
    if (out_at > out_bytes + OUT)
        flush();
}
