/* Four threads hand one world and one format on, each in turn: a thread uses them, lets the next one go, and waits. It is built with
 * ThreadSanitizer, which tells a use that nothing puts behind the one before. */
#include "pybuf.h"

#include <pthread.h>
#include <stdio.h>

enum { THREADS = 4, TURNS = 200 };

struct handed {
    pthread_mutex_t lock;
    pthread_cond_t on;
    pybuf_world *world;
    pybuf_format *format;
    pybuf_object array;
    int turn;
    bool failed;
};

struct hand {
    struct handed *handed;
    int number;
};

/* What a thread does in its turn: a byte more, a view of all that writes it once more, and a record. */
static bool uses(struct handed *it, int turn)
{
    pybuf_object view;
    pybuf_number last = {0, false};
    pybuf_value value = pybuf_number_value(pybuf_number_of(turn)), read;
    unsigned char room[4];
    size_t length = 0, count = 0;
    bool held = pybuf_append(it->world, it->array, pybuf_number_of(turn & 255)) == PYBUF_OK
        && pybuf_view(it->world, it->array, &view) == PYBUF_OK && pybuf_get(it->world, view, -1, &last) == PYBUF_OK
        && pybuf_set(it->world, view, 0, last) == PYBUF_OK && pybuf_release(it->world, view) == PYBUF_OK
        && pybuf_length(it->world, it->array, &length) == PYBUF_OK;
    return held && length == (size_t)turn + 1 && last.magnitude == (uint64_t)(turn & 255)
        && pybuf_format_pack(it->format, &value, 1, room, sizeof room, &length) == PYBUF_OK
        && pybuf_format_unpack(it->format, room, length, &read, 1, &count) == PYBUF_OK && read.number.magnitude == (uint64_t)turn;
}

static void *thread(void *given)
{
    struct hand *hand = (struct hand *)given;
    struct handed *it = hand->handed;
    for (;;) {
        pthread_mutex_lock(&it->lock);
        while (it->turn < TURNS && it->turn % THREADS != hand->number)
            pthread_cond_wait(&it->on, &it->lock);
        if (it->turn >= TURNS)
            break;
        it->failed = it->failed || !uses(it, it->turn);
        it->turn++;
        pthread_cond_broadcast(&it->on);
        pthread_mutex_unlock(&it->lock);
    }
    pthread_mutex_unlock(&it->lock);
    return NULL;
}

/* A world of its own: threads that share nothing wait for nothing. */
static void *alone(void *given)
{
    pybuf_world *world = NULL;
    struct handed it = {.turn = 0};
    (void)given;
    if (pybuf_world_new(&world) != PYBUF_OK)
        return NULL;
    it.world = world;
    bool held = pybuf_format_parse("<I", 2, &it.format) == PYBUF_OK && pybuf_new(world, PYBUF_BYTEARRAY, NULL, 0, &it.array) == PYBUF_OK;
    for (int turn = 0; turn < TURNS; turn++)
        held = held && uses(&it, turn);
    pybuf_format_free(it.format);
    pybuf_world_free(world);
    return held ? given : NULL;
}

int main(void)
{
    struct handed it = {.lock = PTHREAD_MUTEX_INITIALIZER, .on = PTHREAD_COND_INITIALIZER};
    pthread_t threads[THREADS];
    struct hand hands[THREADS];
    if (pybuf_world_new(&it.world) || pybuf_format_parse("<I", 2, &it.format) || pybuf_new(it.world, PYBUF_BYTEARRAY, NULL, 0, &it.array))
        return 1;
    for (int i = 0; i < THREADS; i++) {
        hands[i] = (struct hand){&it, i};
        if (pthread_create(&threads[i], NULL, thread, &hands[i]))
            return 1;
    }
    for (int i = 0; i < THREADS; i++)
        pthread_join(threads[i], NULL);
    for (int i = 0; i < THREADS; i++)
        if (pthread_create(&threads[i], NULL, alone, &it))
            return 1;
    for (int i = 0; i < THREADS; i++) {
        void *back = NULL;
        pthread_join(threads[i], &back);
        it.failed = it.failed || !back;
    }
    if (pybuf_format_free(it.format) || pybuf_world_free(it.world) || it.failed || it.turn != TURNS) {
        printf("a call failed\n");
        return 1;
    }
    printf("four threads handed one world on %d times, and used four worlds at once\n", TURNS);
    return 0;
}
