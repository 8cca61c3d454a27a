/* Ten offers against memcpy of the same bytes, in one run: `offers WHAT FILE..`, the ten segments of a disk, even or not, in one byte order. */
#include <string.h>

#include "bench.h"

static void copy_all(void *with)
{
    const Bench *b = with;
    for (int i = 0; i < FILES; i++) {
        size_t bytes = 2 * (b->starts[i + 1] - b->starts[i]);
        memcpy(b->frame + b->starts[i], b->files[i] + b->lengths[i] - bytes, bytes);
    }
}

int main(int count, char **words)
{
    static Bench b;
    if (count < 2)
        fail("say what is offered");
    begin(&b, count - 2, words + 2);
    compare(words[1], offer_all, copy_all, &b);
    return 0;
}
