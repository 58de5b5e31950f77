/* Reads bytes as calls, and makes them: on a bytearray, on views of it that come and go, by lines, and on formats. After each call this has
 * to hold: the status is one of the header's; results and rooms are written only as the header says; and the bytearray has the bytes, and
 * as many unreleased views, as a plain array and a count beside it say.
 *
 * libFuzzer calls LLVMFuzzerTestOneInput. With STANDALONE there is a main that reads the files that it is named, as those of corpus/. */
#include "pybuf.h"

#include <stdio.h>
#include <stdlib.h>
#include <string.h>

int LLVMFuzzerTestOneInput(const uint8_t *data, size_t size);

#define HOLDS(condition)                                        \
    do {                                                        \
        if (!(condition)) {                                     \
            printf("line %d: not %s\n", __LINE__, #condition);  \
            fflush(stdout);                                     \
            abort();                                            \
        }                                                       \
    } while (0)

enum { LONGEST = 2048, OBJECTS = 64, ROOM = 40, FILL = 0xa5 };

static const uint8_t *at, *end;

/* The array that the model has, object 0, and which objects are unreleased views of it. */
static uint8_t model[2 * LONGEST];
static size_t model_length;
static bool live[OBJECTS];
static size_t made;
static pybuf_world *world;

static uint8_t byte(void)
{
    return at < end ? *at++ : 0;
}

/* A small index mostly, and now and then one of the ends of its type. */
static int64_t index_in(void)
{
    int64_t it = (int8_t)byte();
    return it == 127 ? INT64_MAX : it == -128 ? INT64_MIN : it;
}

/* An object that was made, or one that wasn't. */
static pybuf_object object(void)
{
    return byte() % (made + 1);
}

static size_t views(void)
{
    size_t count = 0;
    for (size_t i = 0; i < made; i++)
        count += live[i];
    return count;
}

static bool is_refusal(pybuf_status status)
{
    return status >= PYBUF_INDEX_ERROR && status <= PYBUF_UNKNOWN_NAME;
}

/* Every status that a call on real pointers may answer here. */
static void is_known(pybuf_status status)
{
    HOLDS(status == PYBUF_OK || status == PYBUF_TOO_SMALL || status == PYBUF_NOTHING || status == PYBUF_BAD_ARGUMENT || is_refusal(status));
}

/* Takes note of an object that a call may have made. */
static void is_made(pybuf_status status, const pybuf_object *got, bool is_view)
{
    is_known(status);
    if (status != PYBUF_OK) {
        HOLDS(*got == 77);
        return;
    }
    HOLDS(*got == made);
    HOLDS(made < OBJECTS);
    live[made++] = is_view;
}

static pybuf_slice slice(void)
{
    uint8_t has = byte();
    pybuf_slice it;
    it.start = index_in();
    it.stop = index_in();
    it.step = index_in();
    it.has_start = has & 1;
    it.has_stop = has & 2;
    it.has_step = has & 4;
    return it;
}

/* The array is as the model, or, where something else may have written its bytes, as long as it. */
static void is_as_model(bool written)
{
    static uint8_t bytes[2 * LONGEST];
    size_t length = 0;
    pybuf_number exports = {0, false};
    HOLDS(pybuf_bytes(world, 0, bytes, sizeof bytes, &length) == PYBUF_OK);
    HOLDS(length == model_length);
    if (written)
        memcpy(model, bytes, length);
    HOLDS(memcmp(model, bytes, length) == 0);
    HOLDS(pybuf_property_number(world, 0, PYBUF_EXPORTS, &exports) == PYBUF_OK);
    HOLDS(exports.magnitude == views());
}

/* A call that copies to a room writes as much as it says, and nothing where it refuses. */
#define IN_ROOM(call)                                                                   \
    do {                                                                                \
        uint8_t room[ROOM];                                                             \
        size_t room_length = byte() % (ROOM + 1), length = 77;                          \
        memset(room, FILL, sizeof room);                                                \
        pybuf_status status = (call);                                                   \
        is_known(status);                                                               \
        HOLDS(status != PYBUF_TOO_SMALL || length > room_length);                       \
        HOLDS(status != PYBUF_OK || length <= room_length);                             \
        HOLDS(status == PYBUF_OK || status == PYBUF_TOO_SMALL || length == 77);         \
        for (size_t i = status == PYBUF_OK ? length : 0; i < ROOM; i++)                 \
            HOLDS(room[i] == FILL);                                                     \
    } while (0)

/* An edit of the array is refused if there is a view, and else changes the model. */
static void edit(uint8_t which)
{
    uint8_t value = byte();
    int64_t index = index_in();
    pybuf_number number = {77, true};
    pybuf_status status;
    size_t n = model_length, place;
    bool there = index < 0 ? (uint64_t)-(index + 1) < n : (uint64_t)index < n;
    if (n > LONGEST)
        return;
    switch (which) {
    case 0:
        status = pybuf_append(world, 0, pybuf_number_of(value));
        HOLDS(status == (views() ? PYBUF_BUFFER_ERROR : PYBUF_OK));
        if (status == PYBUF_OK)
            model[model_length++] = value;
        break;
    case 1:
        status = pybuf_insert(world, 0, index, pybuf_number_of(value));
        HOLDS(status == (views() ? PYBUF_BUFFER_ERROR : PYBUF_OK));
        if (status != PYBUF_OK)
            break;
        place = there ? (size_t)(index < 0 ? index + (int64_t)n : index) : index < 0 ? 0 : n;
        memmove(model + place + 1, model + place, n - place);
        model[place] = value;
        model_length++;
        break;
    case 2:
        status = pybuf_pop(world, 0, index, &number);
        HOLDS(status == PYBUF_OK ? there && !views() : number.magnitude == 77 && (!there || views()));
        if (status != PYBUF_OK)
            break;
        place = (size_t)(index < 0 ? index + (int64_t)n : index);
        HOLDS(number.magnitude == model[place] && !number.negative);
        memmove(model + place, model + place + 1, n - place - 1);
        model_length--;
        break;
    case 3:
        status = pybuf_clear(world, 0);
        HOLDS(status == (views() ? PYBUF_BUFFER_ERROR : PYBUF_OK));
        if (status == PYBUF_OK)
            model_length = 0;
        break;
    case 4:
        HOLDS(pybuf_reverse(world, 0) == PYBUF_OK);
        for (place = 0; place < n / 2; place++) {
            uint8_t kept = model[place];
            model[place] = model[n - 1 - place];
            model[n - 1 - place] = kept;
        }
        break;
    case 5:
        status = pybuf_set(world, 0, index, pybuf_number_of((int64_t)value * 2));
        HOLDS(status == PYBUF_OK ? there && value < 128 : !there || value >= 128);
        if (status == PYBUF_OK)
            model[(size_t)(index < 0 ? index + (int64_t)n : index)] = (uint8_t)(value * 2);
        break;
    default:
        place = (size_t)(end - at) < value ? (size_t)(end - at) : value;
        status = pybuf_extend(world, 0, at, place);
        HOLDS(status == (views() ? PYBUF_BUFFER_ERROR : PYBUF_OK));
        if (status == PYBUF_OK) {
            memcpy(model + n, at, place);
            model_length += place;
        }
        at += place;
    }
    is_as_model(false);
}

static void view(uint8_t which)
{
    static const char *const formats[] = {"B", "b", "c", "H", "<i", "Q", "?", "", "\xff", "z"};
    pybuf_object of = object(), got = 77;
    pybuf_slice part = slice();
    int64_t shape[2] = {index_in(), index_in()};
    bool of_array = of == 0 || (of < made && live[of]);
    pybuf_status status;
    if (made + 2 > OBJECTS)
        return;
    switch (which) {
    case 0:
        is_made(pybuf_view(world, of, &got), &got, of_array);
        break;
    case 1:
        /* a slice of an exporter is bytes, and no object */
        if (of != 0)
            is_made(pybuf_get_slice(world, of, &part, &got), &got, of_array);
        break;
    case 2:
        is_made(pybuf_cast(world, of, formats[byte() % 10], byte() & 1 ? shape : NULL, 2, &got), &got, of_array);
        break;
    case 3:
        is_made(pybuf_to_readonly(world, of, &got), &got, of_array);
        break;
    case 4:
        status = pybuf_iterate(world, of, &got);
        /* (an iterator iterates itself) */
        if (status != PYBUF_OK || got == made)
            is_made(status, &got, false);
        else
            HOLDS(got == of && !live[of]);
        break;
    default:
        if (of == 0)
            break;
        is_known(pybuf_release(world, of));
        if (of < made)
            live[of] = false;
    }
    is_as_model(false);
}

static void use(uint8_t which)
{
    pybuf_object of = object(), other = object();
    pybuf_slice part = slice();
    pybuf_number number = {77, true}, items[4];
    pybuf_truth truth;
    int64_t at_two[2] = {index_in(), index_in()};
    bool there = true;
    size_t count = 77;
    pybuf_status status;
    switch (which) {
    case 0:
        status = pybuf_get(world, of, at_two[0], &number);
        is_known(status);
        HOLDS(status == PYBUF_OK || (number.magnitude == 77 && number.negative));
        break;
    case 1:
        if (of != 0)
            is_known(pybuf_set(world, of, at_two[0], pybuf_number_of(at_two[1])));
        break;
    case 2:
        is_known(pybuf_get_at(world, of, at_two, byte() % 3, &number));
        break;
    case 3:
        is_known(pybuf_set_at(world, of, at_two, byte() % 3, pybuf_number_of((int8_t)byte())));
        break;
    case 4:
        if (of != 0)
            is_known(pybuf_set_slice_of(world, of, &part, other));
        break;
    case 5:
        status = pybuf_items(world, of, items, 4, &count);
        is_known(status);
        HOLDS(status != PYBUF_TOO_SMALL || count > 4);
        break;
    case 6:
        is_known(pybuf_compare_with(world, of, (pybuf_operator)(byte() % 7), other, &truth));
        break;
    case 7:
        is_known(pybuf_next(world, of, &there, &number));
        break;
    case 8:
        is_known(pybuf_property_numbers(world, of, (pybuf_property)(byte() % 14), items, 4, &count));
        break;
    case 9:
        IN_ROOM(pybuf_bytes(world, of, room, room_length, &length));
        break;
    case 10:
        IN_ROOM(pybuf_shown(world, of, (char *)room, room_length, &length));
        break;
    case 11:
        IN_ROOM(pybuf_last_bytes(world, room, room_length, &length));
        break;
    case 12:
        IN_ROOM(pybuf_get_item_bytes(world, of, at_two[0], room, room_length, &length));
        break;
    default:
        IN_ROOM(pybuf_property_text(world, of, (pybuf_property)(byte() % 14), (char *)room, room_length, &length));
    }
    is_as_model(true);
}

/* Whether no number in a text has more than three digits, so that no repetition fills the memory. */
static bool is_small(const uint8_t *text, size_t length)
{
    size_t digits = 0;
    for (size_t i = 0; i < length && digits < 4; i++)
        digits = text[i] >= '0' && text[i] <= '9' ? digits + 1 : 0;
    return digits < 4;
}

static void lines(void)
{
    pybuf_world *other = NULL;
    char room[256];
    size_t count = 77, length = 77, rest = (size_t)(end - at);
    uint64_t line = 0;
    if (!is_small(at, rest))
        return;
    HOLDS(pybuf_world_new(&other) == PYBUF_OK);
    pybuf_status status = pybuf_world_run(other, (const char *)at, rest, &count, &line);
    HOLDS(status == PYBUF_OK || (status == PYBUF_BAD_LINE && line > 0 && count == 0));
    for (size_t i = 0; i < count; i++) {
        status = pybuf_world_reply(other, i, room, sizeof room, &length);
        HOLDS(status == PYBUF_OK ? length > 0 && length <= sizeof room : status == PYBUF_TOO_SMALL && length > sizeof room);
    }
    HOLDS(pybuf_world_reply(other, count, room, sizeof room, &length) == PYBUF_NOTHING);
    HOLDS(pybuf_world_free(other) == PYBUF_OK);
    at = end;
}

/* What a format unpacks, it packs to bytes that it unpacks to the same. */
static void format(void)
{
    enum { VALUES = 8, SIZE = 64 };
    pybuf_format *it = NULL;
    pybuf_value values[VALUES], again[VALUES];
    uint8_t bytes[SIZE], packed[SIZE], texts[VALUES][SIZE], text[SIZE];
    size_t rest = (size_t)(end - at), told = byte() % 12, size = 77, count = 77, length = 77;
    told = rest ? (told < rest - 1 ? told : rest - 1) : 0;
    pybuf_status status = is_small(at, told) ? pybuf_format_parse((const char *)at, told, &it) : PYBUF_STRUCT_ERROR;
    at += told;
    HOLDS(status == PYBUF_OK ? it != NULL : status == PYBUF_STRUCT_ERROR && it == NULL);
    if (status != PYBUF_OK)
        return;
    HOLDS(pybuf_format_size(it, &size) == PYBUF_OK && pybuf_format_count(it, &count) == PYBUF_OK);
    for (size_t i = 0; i < SIZE; i++)
        bytes[i] = byte();
    size_t fields = count;
    if (size <= SIZE && count <= VALUES) {
        HOLDS(pybuf_format_unpack(it, bytes, size, values, VALUES, &count) == PYBUF_OK && count == fields);
        for (size_t i = 0; i < count; i++)
            if (values[i].kind == PYBUF_BYTES_VALUE) {
                HOLDS(pybuf_format_value_bytes(it, i, texts[i], SIZE, &length) == PYBUF_OK && length == values[i].length);
                values[i].bytes = texts[i];
            }
        HOLDS(pybuf_format_pack(it, values, count, packed, SIZE, &length) == PYBUF_OK && length == size);
        HOLDS(pybuf_format_unpack(it, packed, size, again, VALUES, &count) == PYBUF_OK && count == fields);
        for (size_t i = 0; i < count; i++) {
            HOLDS(again[i].kind == values[i].kind && again[i].length == values[i].length);
            HOLDS(again[i].number.magnitude == values[i].number.magnitude && again[i].number.negative == values[i].number.negative);
            if (again[i].kind == PYBUF_BYTES_VALUE) {
                HOLDS(pybuf_format_value_bytes(it, i, text, SIZE, &length) == PYBUF_OK);
                HOLDS(memcmp(text, texts[i], length) == 0);
            }
        }
    }
    HOLDS(size == 0 || pybuf_format_unpack(it, bytes, size - 1, values, fields <= VALUES ? VALUES : 0, &count)
                           == (fields <= VALUES ? PYBUF_STRUCT_ERROR : PYBUF_TOO_SMALL));
    HOLDS(pybuf_format_free(it) == PYBUF_OK);
}

int LLVMFuzzerTestOneInput(const uint8_t *data, size_t size)
{
    pybuf_object array = 77;
    at = data;
    end = data + size;
    model_length = made = 0;
    HOLDS(pybuf_world_new(&world) == PYBUF_OK);
    is_made(pybuf_new(world, PYBUF_BYTEARRAY, NULL, 0, &array), &array, false);
    while (at < end) {
        uint8_t which = byte();
        if (which < 70)
            edit(which % 7);
        else if (which < 140)
            view(which % 6);
        else if (which < 240)
            use(which % 14);
        else if (which < 248)
            format();
        else
            lines();
    }
    HOLDS(pybuf_world_free(world) == PYBUF_OK);
    return 0;
}

#ifdef STANDALONE
int main(int count, char **names)
{
    static uint8_t data[1 << 16];
    for (int i = 1; i < count; i++) {
        FILE *file = fopen(names[i], "rb");
        if (!file) {
            printf("%s can't be read\n", names[i]);
            return 1;
        }
        size_t length = fread(data, 1, sizeof data, file);
        fclose(file);
        LLVMFuzzerTestOneInput(data, length);
    }
    printf("%d inputs keep to what the header says\n", count - 1);
    return 0;
}
#endif
