// What C with SSE2 takes for kernels of `bench/kernels`, on the same drawn bytes:
//
//     gcc -O2 -o /tmp/lanes_c bench/lanes_c.c && /tmp/lanes_c [ROUNDS]
//
// For each kernel it prints the name and the nanoseconds of processor time for one call, the median of the rounds (9).
// A call writes into a block that it has made, and releases it, as a call of the library does. The splits write a block of
// ranges of the text, and copy no part. Each answer is compared with that of a loop over bytes first.
#include <emmintrin.h>
#include <stdint.h>
#include <stdio.h>
#include <stdlib.h>
#include <string.h>
#include <time.h>

enum { SIZE = 1 << 20, MOST_ROUNDS = 99 };

typedef struct {
    uint32_t start, end;
} Range;

static uint8_t drawn[4 * SIZE], text[SIZE], padded[SIZE], digits[2 * SIZE], table[256];

static __m128i at(const uint8_t *bytes) { return _mm_loadu_si128((const __m128i *)bytes); }
static void put(uint8_t *bytes, __m128i lanes) { _mm_storeu_si128((__m128i *)bytes, lanes); }
static __m128i each(int value) { return _mm_set1_epi8((char)value); }
static unsigned mask_of(__m128i lanes) { return (unsigned)_mm_movemask_epi8(lanes); }
static void *block(size_t size) {
    void *made = malloc(size ? size : 1);
    if (!made)
        abort();
    return made;
}

// ---- bytes in equal steps

static void gather_halves(const uint8_t *source, size_t count, uint8_t *room) {
    const __m128i low = _mm_set1_epi16(255);
    size_t k = 0;
    for (; count - k > 16; k += 16)
        put(room + k, _mm_packus_epi16(_mm_and_si128(at(source + 2 * k), low), _mm_and_si128(at(source + 2 * k + 16), low)));
    for (; k < count; k++)
        room[k] = source[2 * k];
}

static void gather_quarters(const uint8_t *source, size_t count, uint8_t *room) {
    const __m128i low = _mm_set1_epi32(255);
    size_t k = 0;
    for (; count - k > 16; k += 16) {
        const uint8_t *from = source + 4 * k;
        __m128i one = _mm_packs_epi32(_mm_and_si128(at(from), low), _mm_and_si128(at(from + 16), low));
        __m128i other = _mm_packs_epi32(_mm_and_si128(at(from + 32), low), _mm_and_si128(at(from + 48), low));
        put(room + k, _mm_packus_epi16(one, other));
    }
    for (; k < count; k++)
        room[k] = source[4 * k];
}

// SSE2 has no shuffle of bytes that would help here.
static void gather_thirds(const uint8_t *source, size_t count, uint8_t *room) {
    for (size_t k = 0; k < count; k++)
        room[k] = source[3 * k];
}

static __m128i turned(__m128i lanes) {
    lanes = _mm_or_si128(_mm_slli_epi16(lanes, 8), _mm_srli_epi16(lanes, 8));
    lanes = _mm_shufflelo_epi16(lanes, _MM_SHUFFLE(0, 1, 2, 3));
    lanes = _mm_shufflehi_epi16(lanes, _MM_SHUFFLE(0, 1, 2, 3));
    return _mm_shuffle_epi32(lanes, _MM_SHUFFLE(1, 0, 3, 2));
}

static void reverse(const uint8_t *source, size_t count, uint8_t *room) {
    size_t k = 0;
    for (; count - k >= 16; k += 16)
        put(room + k, turned(at(source + count - k - 16)));
    for (; k < count; k++)
        room[k] = source[count - 1 - k];
}

// Over every second byte of a room.
static void scatter_halves(const uint8_t *source, size_t count, uint8_t *room) {
    const __m128i others = _mm_set1_epi16((short)0xff00), zero = _mm_setzero_si128();
    size_t k = 0;
    for (; count - k > 16; k += 16) {
        __m128i lanes = at(source + k);
        uint8_t *to = room + 2 * k;
        put(to, _mm_or_si128(_mm_and_si128(at(to), others), _mm_unpacklo_epi8(lanes, zero)));
        put(to + 16, _mm_or_si128(_mm_and_si128(at(to + 16), others), _mm_unpackhi_epi8(lanes, zero)));
    }
    for (; k < count; k++)
        room[2 * k] = source[k];
}

// ---- searching

static size_t place_of(const uint8_t *bytes, size_t count, uint8_t wanted) {
    const __m128i lanes = each(wanted);
    size_t k = 0;
    for (; count - k >= 32; k += 32) {
        __m128i one = _mm_cmpeq_epi8(at(bytes + k), lanes), other = _mm_cmpeq_epi8(at(bytes + k + 16), lanes);
        if (mask_of(_mm_or_si128(one, other)))
            return k + (size_t)__builtin_ctz(mask_of(one) | mask_of(other) << 16);
    }
    while (k < count && bytes[k] != wanted)
        k++;
    return k;
}

static size_t count_byte(const uint8_t *bytes, size_t count, uint8_t wanted) {
    const __m128i lanes = each(wanted), zero = _mm_setzero_si128();
    __m128i sums = zero;
    size_t k = 0;
    while (count - k >= 16) {
        size_t blocks = (count - k) / 16;
        __m128i found = zero;
        for (blocks = blocks < 255 ? blocks : 255; blocks; blocks--, k += 16)
            found = _mm_sub_epi8(found, _mm_cmpeq_epi8(at(bytes + k), lanes));
        sums = _mm_add_epi64(sums, _mm_sad_epu8(found, zero));
    }
    size_t all = (size_t)_mm_cvtsi128_si64(_mm_add_epi64(sums, _mm_srli_si128(sums, 8)));
    for (; k < count; k++)
        all += bytes[k] == wanted;
    return all;
}

static int is_blank(uint8_t byte) { return byte == 32 || (uint8_t)(byte - 9) < 5; }

static unsigned blanks_of(__m128i lanes) {
    __m128i from_tab = _mm_sub_epi8(lanes, each(9));
    return mask_of(_mm_or_si128(_mm_cmpeq_epi8(lanes, each(32)), _mm_cmpeq_epi8(_mm_min_epu8(from_tab, each(4)), from_tab)));
}

static Range stripped(const uint8_t *bytes, size_t count) {
    size_t start = 0, end = count;
    for (; count - start >= 16; start += 16) {
        unsigned others = ~blanks_of(at(bytes + start)) & 0xffff;
        if (others) {
            start += (size_t)__builtin_ctz(others);
            break;
        }
    }
    while (start < count && is_blank(bytes[start]))
        start++;
    for (; end - start >= 16; end -= 16) {
        unsigned others = ~blanks_of(at(bytes + end - 16)) & 0xffff;
        if (others) {
            end -= (size_t)__builtin_clz(others << 16);
            break;
        }
    }
    while (end > start && is_blank(bytes[end - 1]))
        end--;
    return (Range){(uint32_t)start, (uint32_t)end};
}

// ---- splits, as ranges

static unsigned commas_of(__m128i lanes) { return mask_of(_mm_cmpeq_epi8(lanes, each(','))); }
static unsigned line_ends_of(__m128i lanes) {
    return mask_of(_mm_or_si128(_mm_cmpeq_epi8(lanes, each('\n')), _mm_cmpeq_epi8(lanes, each('\r'))));
}

static size_t split_comma(const uint8_t *bytes, size_t count, Range *parts) {
    size_t made = 0, start = 0, k = 0;
    for (; count - k >= 16; k += 16)
        for (unsigned found = commas_of(at(bytes + k)); found; found &= found - 1) {
            size_t end = k + (size_t)__builtin_ctz(found);
            parts[made++] = (Range){(uint32_t)start, (uint32_t)end};
            start = end + 1;
        }
    for (; k < count; k++)
        if (bytes[k] == ',') {
            parts[made++] = (Range){(uint32_t)start, (uint32_t)k};
            start = k + 1;
        }
    parts[made++] = (Range){(uint32_t)start, (uint32_t)count};
    return made;
}

static size_t split_lines(const uint8_t *bytes, size_t count, Range *parts) {
    size_t made = 0, start = 0, k = 0;
    while (k < count) {
        size_t end;
        unsigned found = 0;
        for (; count - k >= 16; k += 16)
            if ((found = line_ends_of(at(bytes + k))))
                break;
        if (found)
            k += (size_t)__builtin_ctz(found);
        else
            while (k < count && bytes[k] != '\n' && bytes[k] != '\r')
                k++;
        end = k;
        if (k < count)
            k += bytes[k] == '\r' && k + 1 < count && bytes[k + 1] == '\n' ? 2 : 1;
        parts[made++] = (Range){(uint32_t)start, (uint32_t)end};
        start = k;
    }
    return made;
}

static size_t split_blanks(const uint8_t *bytes, size_t count, Range *parts) {
    size_t made = 0, start = 0, k = 0;
    unsigned before = 1;
    for (; count - k >= 16; k += 16) {
        unsigned blanks = blanks_of(at(bytes + k)), turns = (blanks ^ (blanks << 1 | before)) & 0xffff;
        for (; turns; turns &= turns - 1) {
            unsigned lane = (unsigned)__builtin_ctz(turns);
            if (blanks >> lane & 1)
                parts[made++] = (Range){(uint32_t)start, (uint32_t)(k + lane)};
            else
                start = k + lane;
        }
        before = blanks >> 15;
    }
    for (; k < count; k++) {
        unsigned blank = (unsigned)is_blank(bytes[k]);
        if (blank && !before)
            parts[made++] = (Range){(uint32_t)start, (uint32_t)k};
        else if (!blank && before)
            start = k;
        before = blank;
    }
    if (!before)
        parts[made++] = (Range){(uint32_t)start, (uint32_t)count};
    return made;
}

// ---- bytes that are mapped

static void upper(const uint8_t *bytes, size_t count, uint8_t *room) {
    size_t k = 0;
    for (; count - k >= 16; k += 16) {
        __m128i lanes = at(bytes + k), from_a = _mm_sub_epi8(lanes, each('a'));
        __m128i letters = _mm_cmpeq_epi8(_mm_min_epu8(from_a, each(25)), from_a);
        put(room + k, _mm_sub_epi8(lanes, _mm_and_si128(letters, each(32))));
    }
    for (; k < count; k++)
        room[k] = (uint8_t)(bytes[k] - ((uint8_t)(bytes[k] - 'a') < 26 ? 32 : 0));
}

// SSE2 looks nothing up.
static void translate(const uint8_t *bytes, size_t count, uint8_t *room) {
    for (size_t k = 0; k < count; k++)
        room[k] = table[bytes[k]];
}

// ---- hexadecimal digits

static __m128i digits_of(__m128i numbers) {
    __m128i letters = _mm_and_si128(_mm_cmpgt_epi8(numbers, each(9)), each('a' - '0' - 10));
    return _mm_add_epi8(_mm_add_epi8(numbers, each('0')), letters);
}

static void write_hex(const uint8_t *bytes, size_t count, uint8_t *room) {
    static const char names[] = "0123456789abcdef";
    size_t k = 0;
    for (; count - k >= 16; k += 16) {
        __m128i lanes = at(bytes + k);
        __m128i high = digits_of(_mm_and_si128(_mm_srli_epi16(lanes, 4), each(15))), low = digits_of(_mm_and_si128(lanes, each(15)));
        put(room + 2 * k, _mm_unpacklo_epi8(high, low));
        put(room + 2 * k + 16, _mm_unpackhi_epi8(high, low));
    }
    for (; k < count; k++) {
        room[2 * k] = (uint8_t)names[bytes[k] >> 4];
        room[2 * k + 1] = (uint8_t)names[bytes[k] & 15];
    }
}

static int value_of(uint8_t digit) {
    uint8_t number = (uint8_t)(digit - '0'), letter = (uint8_t)((digit | 32) - 'a');
    return number < 10 ? number : letter < 6 ? letter + 10 : -1;
}

// The values of sixteen digits, where `bad` gets the lanes that are none.
static __m128i values_of(__m128i lanes, unsigned *bad) {
    __m128i number = _mm_sub_epi8(lanes, each('0')), letter = _mm_sub_epi8(_mm_or_si128(lanes, each(32)), each('a'));
    __m128i is_number = _mm_cmpeq_epi8(_mm_min_epu8(number, each(9)), number);
    __m128i is_letter = _mm_cmpeq_epi8(_mm_min_epu8(letter, each(5)), letter);
    *bad |= ~mask_of(_mm_or_si128(is_number, is_letter)) & 0xffff;
    return _mm_or_si128(_mm_and_si128(is_number, number), _mm_andnot_si128(is_number, _mm_add_epi8(letter, each(10))));
}

static __m128i pairs_of(__m128i values) {
    return _mm_or_si128(_mm_and_si128(_mm_slli_epi16(values, 4), _mm_set1_epi16(0xf0)), _mm_srli_epi16(values, 8));
}

// How many bytes were read before the first pair that is none.
static size_t read_hex(const uint8_t *source, size_t count, uint8_t *room) {
    size_t k = 0;
    for (; count - k >= 16; k += 16) {
        unsigned bad = 0;
        __m128i one = values_of(at(source + 2 * k), &bad), other = values_of(at(source + 2 * k + 16), &bad);
        if (bad)
            break;
        put(room + k, _mm_packus_epi16(pairs_of(one), pairs_of(other)));
    }
    for (; k < count; k++) {
        int high = value_of(source[2 * k]), low = value_of(source[2 * k + 1]);
        if (high < 0 || low < 0)
            break;
        room[k] = (uint8_t)(high * 16 + low);
    }
    return k;
}

// ---- the kernels

// What a call answers: a block or none, its size, and a number.
typedef struct {
    void *made;
    size_t size, number;
} Answer;

static Answer writes(void (*write)(const uint8_t *, size_t, uint8_t *), const uint8_t *source, size_t count, size_t size) {
    uint8_t *room = block(size);
    write(source, count, room);
    return (Answer){room, size, 0};
}

static Answer splits(size_t (*split)(const uint8_t *, size_t, Range *)) {
    Range *parts = block((SIZE + 1) * sizeof *parts);
    size_t made = split(text, SIZE, parts);
    parts = realloc(parts, made * sizeof *parts);
    return (Answer){parts, made * sizeof *parts, made};
}

static uint8_t scattered[2 * SIZE];

static Answer stepped(void) { return writes(gather_halves, drawn, SIZE, SIZE); }
static Answer thirds(void) { return writes(gather_thirds, drawn, SIZE, SIZE); }
static Answer quarters(void) { return writes(gather_quarters, drawn, SIZE, SIZE); }
static Answer reversed(void) { return writes(reverse, drawn, SIZE, SIZE); }
static Answer set_stepped(void) {
    scatter_halves(drawn, SIZE, scattered);
    return (Answer){0, 0, scattered[2 * SIZE - 2]};
}
static Answer find_byte(void) { return (Answer){0, 0, place_of(text, SIZE, 'z')}; }
static Answer count_of_byte(void) { return (Answer){0, 0, count_byte(text, SIZE, 'a')}; }
static Answer comma(void) { return splits(split_comma); }
static Answer blanks(void) { return splits(split_blanks); }
static Answer lines(void) { return splits(split_lines); }
static Answer translated(void) { return writes(translate, text, SIZE, SIZE); }
static Answer uppered(void) { return writes(upper, text, SIZE, SIZE); }
static Answer strip(void) {
    Range part = stripped(padded, SIZE);
    size_t size = part.end - part.start;
    return (Answer){memcpy(block(size), padded + part.start, size), size, part.start};
}
static Answer hex(void) { return writes(write_hex, drawn, SIZE, 2 * SIZE); }
static Answer from_hex(void) {
    uint8_t *room = block(SIZE);
    size_t number = read_hex(digits, SIZE, room);
    return (Answer){room, SIZE, number};
}

static const struct {
    const char *name;
    Answer (*call)(void);
} KERNELS[] = {
    {"tobytes-stepped", stepped},  {"tobytes-thirds", thirds},   {"tobytes-quarters", quarters}, {"tobytes-reversed", reversed},
    {"set-stepped", set_stepped},  {"find-byte", find_byte},     {"count-byte", count_of_byte},  {"split-comma", comma},
    {"split-blanks", blanks},      {"splitlines", lines},        {"translate", translated},      {"upper", uppered},
    {"strip", strip},              {"hex", hex},                 {"fromhex", from_hex},
};
enum { MANY = sizeof KERNELS / sizeof *KERNELS };

// ---- the bytes

static uint8_t letter_of(uint8_t byte) {
    if (byte < 200)
        return (uint8_t)(97 + byte % 23);
    if (byte < 216)
        return (uint8_t)(65 + byte - 200);
    return byte < 240 ? ' ' : byte < 252 ? ',' : '\n';
}

static void fill(void) {
    uint64_t state = 0x9E3779B97F4A7C15u | 1;
    for (size_t k = 0; k < sizeof drawn; k += 8) {
        state ^= state << 13;
        state ^= state >> 7;
        state ^= state << 17;
        memcpy(drawn + k, &state, 8);
    }
    for (size_t k = 0; k < SIZE; k++) {
        text[k] = letter_of(drawn[k]);
        padded[k] = k < SIZE / 4 || k >= SIZE - SIZE / 4 ? ' ' : 'x';
    }
    for (size_t k = 2; k < SIZE; k++)
        if (text[k - 2] == 'c' && text[k - 1] == 'b' && text[k] == 'a')
            text[k] = 'd';
    for (int byte = 0; byte < 256; byte++)
        table[byte] = (uint8_t)(255 - byte);
    write_hex(drawn, SIZE, digits);
}

// ---- the same by loops over bytes

static void agree(int is_same, const char *name) {
    if (!is_same) {
        fprintf(stderr, "lanes_c: %s differs from a loop over bytes\n", name);
        exit(1);
    }
}

static void agree_on_bytes(void) {
    static const int steps[] = {2, 3, 4, -1};
    static const char *const names[] = {"stepped", "thirds", "quarters", "reversed"};
    Answer (*const calls[])(void) = {stepped, thirds, quarters, reversed};
    for (int n = 0; n < 4; n++) {
        Answer answer = calls[n]();
        const uint8_t *made = answer.made;
        for (size_t k = 0; k < SIZE; k++)
            agree(made[k] == (steps[n] < 0 ? drawn[SIZE - 1 - k] : drawn[(size_t)steps[n] * k]), names[n]);
        free(answer.made);
    }
    set_stepped();
    for (size_t k = 0; k < 2 * SIZE; k++)
        agree(scattered[k] == (k % 2 ? 0 : drawn[k / 2]), "set-stepped");
    Answer case_of = uppered(), bytes = from_hex(), pairs = hex();
    for (size_t k = 0; k < SIZE; k++) {
        uint8_t byte = text[k];
        agree(((uint8_t *)case_of.made)[k] == ('a' <= byte && byte <= 'z' ? byte - 32 : byte), "upper");
        agree(((uint8_t *)bytes.made)[k] == drawn[k], "fromhex");
        char two[3];
        snprintf(two, sizeof two, "%02x", drawn[k]);
        agree(!memcmp(two, (char *)pairs.made + 2 * k, 2), "hex");
    }
    agree(bytes.number == SIZE, "fromhex");
    free(case_of.made);
    free(bytes.made);
    free(pairs.made);
}

static void agree_on_places(void) {
    size_t found = SIZE, as = 0, commas = 1, words = 0, ends = 0;
    for (size_t k = 0; k < SIZE; k++) {
        found = found == SIZE && text[k] == 'z' ? k : found;
        as += text[k] == 'a';
        commas += text[k] == ',';
        words += !is_blank(text[k]) && (k == 0 || is_blank(text[k - 1]));
        ends += text[k] == '\n' || k == SIZE - 1;
    }
    Answer parts[] = {comma(), blanks(), lines()}, middle = strip();
    agree(find_byte().number == found, "find-byte");
    agree(count_of_byte().number == as, "count-byte");
    agree(parts[0].number == commas, "split-comma");
    agree(parts[1].number == words, "split-blanks");
    agree(parts[2].number == ends, "splitlines");
    agree(middle.number == SIZE / 4 && middle.size == SIZE / 2, "strip");
    for (int n = 0; n < 3; n++)
        free(parts[n].made);
    free(middle.made);
}

// ---- the times

static double now(void) {
    struct timespec time;
    clock_gettime(CLOCK_PROCESS_CPUTIME_ID, &time);
    return (double)time.tv_sec * 1e9 + (double)time.tv_nsec;
}

static int by_size(const void *one, const void *other) {
    double a = *(const double *)one, b = *(const double *)other;
    return (a > b) - (a < b);
}

static double nanoseconds(Answer (*call)(void)) {
    enum { CALLS = 20 };
    double start = now();
    for (int k = 0; k < CALLS; k++) {
        // the compiler can neither leave the call out nor do it once for all
        Answer (*volatile one)(void) = call;
        free(one().made);
    }
    return (now() - start) / CALLS;
}

int main(int count, char **words) {
    int rounds = count > 1 ? atoi(words[1]) : 9;
    if (count > 2 || rounds < 1 || rounds > MOST_ROUNDS) {
        fprintf(stderr, "lanes_c: [ROUNDS], from 1 to %d\n", MOST_ROUNDS);
        return 2;
    }
    fill();
    agree_on_bytes();
    agree_on_places();
    for (size_t kernel = 0; kernel < MANY; kernel++) {
        double taken[MOST_ROUNDS];
        for (int round = 0; round < rounds; round++)
            taken[round] = nanoseconds(KERNELS[kernel].call);
        qsort(taken, (size_t)rounds, sizeof *taken, by_size);
        printf("%-18s %10.0f\n", KERNELS[kernel].name, taken[rounds / 2]);
    }
    return 0;
}
