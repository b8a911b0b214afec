/* The functions that the archive leaves undefined: its heap, over this program's malloc. Each block has cache lines of its own, so that
 * threads at work on different blocks do not slow each other down. */
#include <stdbool.h>
#include <stddef.h>
#include <stdint.h>
#include <stdlib.h>

struct tried {
    bool ok;
    void *at;
};

static char nothing;

static struct tried got(void *at) {
    struct tried tried = { at != NULL, at ? at : &nothing };
    return tried;
}

struct tried rattle_alloc(size_t size, size_t align) {
    (void)align; /* at most 16 */
    return got(size > SIZE_MAX - 256 ? NULL : aligned_alloc(128, ((size ? size : 1) + 127) / 128 * 128));
}

struct tried rattle_realloc(void *at, size_t kept, size_t size, size_t align) {
    (void)kept;
    return got(realloc(at, size ? size : align));
}

void rattle_dealloc(void *at) {
    free(at);
}
