/* Answers requests from standard input, for compare.py.
 *
 * A request (requests.h) is an image, a parents table and a taxa table.  The
 * answer is one line: refusal, tree, place, duplications, losses.
 *
 * Compiled as it is, it asks fast.c; with -DASK_PANHERON it asks the archive.
 */
#include "requests.h"

#ifdef ASK_PANHERON
#include "panheron.h"
#else
#include "fast.h"
#endif

#ifdef ASK_PANHERON
static void answer(struct slice image, struct slice parents, struct slice taxa)
{
#define ASK(call)                                                            \
    (unsigned)call(image.bytes, image.length, parents.bytes, parents.length, \
                   taxa.bytes, taxa.length)
    printf("%u %u %u %u %u\n", ASK(panheron_refusal), ASK(panheron_tree),
           ASK(panheron_place), ASK(panheron_duplications),
           ASK(panheron_losses));
}
#else
static void answer(struct slice image, struct slice parents, struct slice taxa)
{
#define ASK(call)                                                    \
    call(image.bytes, image.length, parents.bytes, parents.length,   \
         taxa.bytes, taxa.length)
    struct fast_answer all = ASK(fast_answer);
    if (ASK(fast_refusal) != all.refusal
        || ASK(fast_refusal_bytewise) != all.refusal)
        stop("the three calls of fast.h don't agree");
    printf("%u %u %u %u %u\n", (unsigned)all.refusal, (unsigned)all.tree,
           (unsigned)all.place, (unsigned)all.duplications,
           (unsigned)all.losses);
}
#endif

int main(void)
{
    struct slice slices[3];
    while (next_request(slices, 3)) {
        answer(slices[0], slices[1], slices[2]);
        free_request(slices, 3);
    }
    return fflush(stdout) == 0 ? 0 : 2;
}
