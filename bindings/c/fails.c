/* Lets each request for memory of a story fail in turn. The story is told once without a failure,
 * which counts the requests. Where a call answers PYBUF_NO_MEMORY it is made once more, and the story has to go on as without: so nothing
 * but memory was missing.
 * At the end of each story as many blocks are freed as were given.
 *
 * It is linked with --wrap for malloc, calloc, realloc and free. */
#include "story.h"

void *__real_malloc(size_t size);
void *__real_calloc(size_t count, size_t size);
void *__real_realloc(void *block, size_t size);
void __real_free(void *block);
void *__wrap_malloc(size_t size);
void *__wrap_calloc(size_t count, size_t size);
void *__wrap_realloc(void *block, size_t size);
void __wrap_free(void *block);

static size_t requests, failing, given, freed;

static bool fails(void)
{
    return ++requests == failing;
}

static void *gives(void *block)
{
    given += block != NULL;
    return block;
}

void *__wrap_malloc(size_t size)
{
    return fails() ? NULL : gives(__real_malloc(size));
}

void *__wrap_calloc(size_t count, size_t size)
{
    return fails() ? NULL : gives(__real_calloc(count, size));
}

void *__wrap_realloc(void *block, size_t size)
{
    return fails() ? NULL : block ? __real_realloc(block, size) : gives(__real_realloc(block, size));
}

void __wrap_free(void *block)
{
    freed += block != NULL;
    __real_free(block);
}

/* Tells the story with this request failing, and answers how many calls were made once more. */
static size_t told(size_t which, size_t *wrong)
{
    struct story story = {NULL, NULL, 0, 0};
    size_t before = given - freed;
    requests = 0;
    failing = which;
    story_of_objects(&story);
    story_of_formats(&story);
    story_ends(&story);
    failing = 0;
    if (given - freed != before) {
        printf("request %zu: %zu blocks aren't freed\n", which, given - freed - before);
        story.wrong++;
    }
    *wrong += story.wrong;
    return story.tries;
}

int main(void)
{
    size_t wrong = 0;
    size_t none = told(0, &wrong), count = requests, noticed = 0;
    for (size_t which = 1; which <= count; which++) {
        size_t tries = told(which, &wrong);
        if (tries > 1) {
            printf("request %zu: %zu calls found no memory\n", which, tries);
            wrong++;
        }
        noticed += tries;
    }
    if (none != 0 || count == 0 || wrong != 0) {
        printf("%zu wrong\n", wrong + none);
        return 1;
    }
    printf("each of %zu requests for memory failed in turn, and %zu calls said so\n", count, noticed);
    return 0;
}
