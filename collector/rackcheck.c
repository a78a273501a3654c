/* rackcheck: which stored images does the rack's release still accept?
 *
 *     rackcheck PARENTS TAXA IMAGE..
 *
 * `usage` below says what it prints.  The judging is Panheron's (panheron.h);
 * this program reads files, puts refusals into words and adds up.
 */
#define _POSIX_C_SOURCE 200809L

#include <errno.h>
#include <inttypes.h>
#include <stdbool.h>
#include <stdio.h>
#include <stdlib.h>
#include <string.h>
#include <unistd.h>

#include "panheron.h"

enum { ALL_ACCEPTED = 0, SOME_NOT = 1, NOT_DONE = 2 };

enum {
    FIRST_ROOM = 1 << 16, /* no table or image of today is longer */
    MOST_BYTES = 1 << 20, /* none ever is */
    BLOCK_BYTES = 512,
    NUMBERS = 64,         /* refusal numbers from here on are counted as 0 */
    PROGRESS_STEP = 32    /* images between two signs of progress */
};

static const char usage[] =
    "usage: rackcheck PARENTS TAXA IMAGE..\n"
    "\n"
    "Judges stored images of gene histories against a release.  PARENTS and TAXA\n"
    "are files with the release's species tables as raw bytes, low byte first,\n"
    "2 bytes a parent and 4 bytes a taxon.  Each IMAGE is a file with one image.\n"
    "\n"
    "Prints a line for each image that is refused,\n"
    "    IMAGE: refused NUMBER TREE PLACE: why\n"
    "(tree 0 none, 1 species, 2 gene) or that can't be read, and then the totals.\n"
    "Images of another release are refused by number 18.\n"
    "\n"
    "Exit status: 0 every image was accepted; 1 some image was refused or can't\n"
    "be read; 2 bad usage, an unusable release, or the report can't be written.\n";

/* The bytes of a file.  The pointer is not null once something was read. */
struct file {
    uint8_t *bytes;
    size_t length, room;
};

struct release {
    struct file parents, taxa;
};

struct refusal {
    uint32_t number, tree, place;
};

struct totals {
    uint64_t accepted, refused, unreadable;
    uint64_t refused_by[NUMBERS];
    uint64_t duplications, losses;
};

/* Files */

static bool make_room(struct file *file)
{
    size_t room = file->room == 0 ? FIRST_ROOM : 2 * file->room;
    uint8_t *bytes;
    if (room > MOST_BYTES)
        room = MOST_BYTES + 1;
    bytes = realloc(file->bytes, room);
    if (bytes == NULL)
        return false;
    file->bytes = bytes;
    file->room = room;
    return true;
}

/* Reads a stream to its end, or to one byte more than any table or image has:
 * what is so long is refused for its length, whatever it holds. */
static bool read_stream(struct file *file, FILE *stream)
{
    file->length = 0;
    do {
        if (file->length == file->room && !make_room(file))
            return false;
        file->length += fread(file->bytes + file->length, 1,
                              file->room - file->length, stream);
        if (ferror(stream))
            return false;
    } while (!feof(stream) && file->length <= MOST_BYTES);
    return true;
}

/* Reads a file over what was read before; if that fails, errno says why. */
static bool read_file(struct file *file, const char *path)
{
    FILE *stream = fopen(path, "rb");
    bool done;
    int why;
    if (stream == NULL)
        return false;
    done = read_stream(file, stream);
    why = errno;
    fclose(stream);
    errno = why;
    return done;
}

/* Words */

/* What a refusal number is about, and why: the node or block at fault is named
 * between `before` and `after`, or not at all if there is no `after`. */
static const struct words {
    const char *topic, *before, *after;
} all_words[NUMBERS] = {
    [PANHERON_PARENT_ORDER] = {"gene tree unsound", "the parent of ",
        " is no node of the tree, or a second root's 65535"},
    [PANHERON_ROOT_UNREACHED] = {"gene tree unsound", "going up from ",
        " never leads to the root"},
    [PANHERON_CHILD_COUNT] = {"gene tree unsound", "",
        " has neither two children nor none"},
    [PANHERON_TAXON_KIND] = {"gene tree unsound", "",
        " is a leaf without a taxon, or an inner node with one"},
    [PANHERON_TAXON_REPEATED] = {"species tree unsound", "",
        " repeats the taxon of a leaf before it"},
    [PANHERON_TAXON_UNKNOWN] = {"gene tree unsound", "",
        " has a taxon that is not in this release"},
    [PANHERON_PLACE_OR_LABEL] = {"history not legal", "",
        " has a place that is no species node, or a label of the wrong kind"},
    [PANHERON_LEAF_MISPLACED] = {"history not legal", "",
        " is a leaf, and not placed at the species of its taxon"},
    [PANHERON_CHILD_ABOVE] = {"history not legal", "",
        " is not placed at or below its parent's place"},
    [PANHERON_FALSE_SPECIATION] = {"history not legal", "",
        " is called a speciation, but its children are not on two sides"},
    [PANHERON_IMAGE_LENGTH] = {"wrong length", "", NULL},
    [PANHERON_BLOCK_CHECK] = {"damaged", "",
        " is damaged: its check differs"},
    [PANHERON_BLOCK_NUMBER] = {"blocks in disorder", "",
        " has another number: blocks are missing, repeated or out of order"},
    [PANHERON_FORM] = {"another form",
        "not an image of form 1: from a newer program, or no image", NULL},
    [PANHERON_COUNTS] = {"counts or filling wrong",
        "its counts don't fit its length, or its filling is not zero", NULL},
    [PANHERON_OTHER_RELEASE] = {"another release",
        "species tables are another release's: first difference at ", ""}
};

static struct words words_for(uint32_t number)
{
    static const struct words unknown = {"not known to this rackcheck",
        "not known to this rackcheck, which is older than its archive", NULL};
    if (number < NUMBERS && all_words[number].topic != NULL)
        return all_words[number];
    return unknown;
}

static void explain_length(FILE *out, size_t length)
{
    if (length == 0)
        fprintf(out, "the file is empty");
    else if (length > MOST_BYTES)
        fprintf(out, "over %d bytes are far too long", MOST_BYTES);
    else if (length % BLOCK_BYTES != 0)
        fprintf(out, "%zu bytes are not whole blocks of %d: cut short, or "
                "something was added", length, BLOCK_BYTES);
    else
        fprintf(out, "%zu blocks are more than any image has",
                length / BLOCK_BYTES);
}

/* Says why an image of this length was refused, or the release with it. */
static void explain(FILE *out, struct refusal refusal, size_t length)
{
    static const char *const nouns[] = {"block", "species node", "gene node"};
    struct words words = words_for(refusal.number);
    if (refusal.number == PANHERON_IMAGE_LENGTH)
        explain_length(out, length);
    else if (refusal.number == PANHERON_OTHER_RELEASE
             && refusal.place == PANHERON_COUNTS_DIFFER)
        fprintf(out, "species tables are another release's: another number of "
                "species nodes");
    else if (refusal.number == PANHERON_PARENT_ORDER
             && refusal.place == PANHERON_NO_ROOT)
        fprintf(out, "the %s tree has no root: no parent is 65535",
                refusal.tree == 1 ? "species" : "gene");
    else if (words.after == NULL || refusal.tree > 2)
        fprintf(out, "%s", words.before);
    else
        fprintf(out, "%s%s %u%s", words.before, nouns[refusal.tree],
                (unsigned)refusal.place, words.after);
}

static void print_refusal(FILE *out, const char *what, struct refusal refusal)
{
    fprintf(out, "%s: refused %u %u %u: ", what, (unsigned)refusal.number,
            (unsigned)refusal.tree, (unsigned)refusal.place);
}

/* Judging */

typedef uint32_t call(const uint8_t *, size_t, const uint8_t *, size_t,
                      const uint8_t *, size_t);

static uint32_t ask(call *about, const struct file *image,
                    const struct release *release)
{
    return about(image->bytes, image->length, release->parents.bytes,
                 release->parents.length, release->taxa.bytes,
                 release->taxa.length);
}

static struct refusal judge(const struct file *image,
                            const struct release *release)
{
    struct refusal refusal = {ask(panheron_refusal, image, release), 0, 0};
    if (refusal.number != PANHERON_ACCEPTED) {
        refusal.tree = ask(panheron_tree, image, release);
        refusal.place = ask(panheron_place, image, release);
    }
    return refusal;
}

/* The release */

static bool read_table(struct file *table, const char *path)
{
    if (read_file(table, path))
        return true;
    fprintf(stderr, "rackcheck: %s: can't be read: %s\n", path,
            strerror(errno));
    return false;
}

/* Whether any image can be accepted at all.  The release is judged before the
 * image, so with an empty image a sound release leaves the image's length. */
static bool release_is_sound(const struct release *release)
{
    static uint8_t nothing[1] = {0};
    const struct file empty = {nothing, 0, 0};
    struct refusal refusal = judge(&empty, release);
    if (refusal.number == PANHERON_IMAGE_LENGTH)
        return true;
    print_refusal(stderr, "rackcheck: the release itself", refusal);
    if (refusal.number == PANHERON_TABLE_SIZE)
        fprintf(stderr, "%zu bytes of parents and %zu of taxa are not 2 and 4 "
                "for each of 1 to 2047 species nodes",
                release->parents.length, release->taxa.length);
    else
        explain(stderr, refusal, 0);
    fputs("; no image was judged\n", stderr);
    return false;
}

/* The images */

static void show_progress(int done, int all)
{
    if (done % PROGRESS_STEP == 0)
        fprintf(stderr, "\r%d of %d images", done, all);
}

/* Takes the sign of progress away, so that a line can stand in its place. */
static void hide_progress(bool progress)
{
    if (progress)
        fputs("\r\033[K", stderr);
}

static void judge_image(struct totals *totals, const char *path,
                        struct file *image, const struct release *release,
                        bool progress)
{
    struct refusal refusal;
    if (!read_file(image, path)) {
        const char *why = strerror(errno);
        hide_progress(progress);
        printf("%s: can't be read: %s\n", path, why);
        totals->unreadable++;
        return;
    }
    refusal = judge(image, release);
    if (refusal.number != PANHERON_ACCEPTED) {
        hide_progress(progress);
        print_refusal(stdout, path, refusal);
        explain(stdout, refusal, image->length);
        putchar('\n');
        totals->refused++;
        totals->refused_by[refusal.number < NUMBERS ? refusal.number : 0]++;
        return;
    }
    totals->accepted++;
    totals->duplications += ask(panheron_duplications, image, release);
    totals->losses += ask(panheron_losses, image, release);
}

static void print_totals(const struct totals *totals)
{
    printf("accepted: %" PRIu64 ", with %" PRIu64 " duplications and %" PRIu64
           " losses\n", totals->accepted, totals->duplications,
           totals->losses);
    printf("refused: %" PRIu64 "\n", totals->refused);
    for (uint32_t number = 0; number < NUMBERS; number++)
        if (totals->refused_by[number] != 0)
            printf("  by %u: %" PRIu64 " (%s)\n", (unsigned)number,
                   totals->refused_by[number], words_for(number).topic);
    printf("unreadable: %" PRIu64 "\n", totals->unreadable);
}

static int judge_images(const struct release *release, int count, char **paths)
{
    struct totals totals = {0};
    struct file image = {NULL, 0, 0};
    bool progress = isatty(STDERR_FILENO) == 1;
    for (int i = 0; i < count; i++) {
        judge_image(&totals, paths[i], &image, release, progress);
        if (progress)
            show_progress(i + 1, count);
    }
    hide_progress(progress);
    free(image.bytes);
    print_totals(&totals);
    return totals.accepted == (uint64_t)count ? ALL_ACCEPTED : SOME_NOT;
}

static int check_rack(const char *parents, const char *taxa, int count,
                      char **images)
{
    struct release release = {{NULL, 0, 0}, {NULL, 0, 0}};
    int status = NOT_DONE;
    if (read_table(&release.parents, parents)
        && read_table(&release.taxa, taxa) && release_is_sound(&release))
        status = judge_images(&release, count, images);
    free(release.parents.bytes);
    free(release.taxa.bytes);
    return status;
}

int main(int argc, char **argv)
{
    int status = ALL_ACCEPTED;
    if (argc > 1 && strcmp(argv[1], "--help") == 0) {
        fputs(usage, stdout);
    } else if (argc < 4) {
        fputs("rackcheck: two tables and at least one image are needed\n\n",
              stderr);
        fputs(usage, stderr);
        return NOT_DONE;
    } else {
        status = check_rack(argv[1], argv[2], argc - 3, argv + 3);
    }
    if (fflush(stdout) != 0 || ferror(stdout)) {
        fputs("rackcheck: the report can't be written\n", stderr);
        return NOT_DONE;
    }
    return status;
}
