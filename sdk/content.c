/* The content of files, in blocks: nothing is copied twice when a file grows. */
#include <errno.h>
#include <stdlib.h>
#include <string.h>
#include "files.h"
#include "jet.h"

static unsigned least(unsigned a, unsigned b) { return a < b ? a : b; }

/* Gives up what stands from `size` on. */
static void cut(struct file *f, unsigned size)
{
    while (f->block_count > size / BLOCK + (size % BLOCK > 0))
        free(f->blocks[--f->block_count]);
    if (size % BLOCK && size / BLOCK < f->block_count)
        memset(f->blocks[size / BLOCK] + size % BLOCK, 0, BLOCK - size % BLOCK);
}

void kit_drop_content(struct file *f)
{
    cut(f, 0);
    f->size = f->there = 0;
    f->channel = -1;
}

/* Makes the list of blocks long enough for `count`. */
static int make_room(struct file *f, unsigned count)
{
    unsigned room = f->room ? f->room : 4;
    while (room < count)
        room *= 2;
    if (room > f->room) {
        unsigned char **blocks = realloc(f->blocks, room * sizeof *blocks);
        if (!blocks)
            return -ENOSPC;
        f->blocks = blocks;
        f->room = room;
    }
    return 0;
}

/* Makes blocks for a content of `size` bytes. */
static int make_blocks(struct file *f, unsigned size)
{
    unsigned count = size / BLOCK + (size % BLOCK > 0);
    int result = make_room(f, count);
    while (result == 0 && f->block_count < count) {
        if (!(f->blocks[f->block_count] = calloc(1, BLOCK)))
            return -ENOSPC;
        f->block_count++;
    }
    return result;
}

/* Reads of an input until its first `size` bytes are there. */
static int fetch(struct file *f, unsigned size)
{
    if (f->channel < 0 || size <= f->there)
        return 0;
    int result = make_blocks(f, size);
    if (result < 0)
        return result;
    while (f->there < size) {
        unsigned place = f->there % BLOCK, rest = least(BLOCK - place, f->size - f->there);
        int count = jet_read(f->channel, f->blocks[f->there / BLOCK] + place, rest);
        if (count <= 0) {           /* it is shorter than was told */
            f->size = f->there;
            return count;
        }
        f->there += count;
    }
    return 0;
}

int kit_fetch_all(struct file *f) { return fetch(f, f->size); }

int kit_read_file(struct file *f, unsigned at, void *to, unsigned count)
{
    if (f->is_folder)
        return -EISDIR;
    if (f->is_null || at >= f->size)
        return 0;
    count = least(count, f->size - at);
    int result = fetch(f, at + count);
    if (result < 0 || at >= f->size)
        return result;
    count = least(count, f->size - at);
    for (unsigned done = 0, piece; done < count; done += piece) {
        unsigned place = (at + done) % BLOCK;
        piece = least(BLOCK - place, count - done);
        memcpy((char *)to + done, f->blocks[(at + done) / BLOCK] + place, piece);
    }
    return count;
}

/* Before the content is changed: all of an input is read, and there are blocks up to `size`. */
static int prepare(struct file *f, unsigned size)
{
    int result = kit_fetch_all(f);
    if (result >= 0)
        result = make_blocks(f, size);
    if (result >= 0) {
        f->channel = -1;
        f->is_made = 1;
    }
    return result;
}

int kit_write_file(struct file *f, unsigned at, const void *from, unsigned count)
{
    if (f->is_null || count == 0)
        return count;
    if (at + count > 0x7fffffff || at + count < at)
        return -EFBIG;
    int result = prepare(f, at + count);
    if (result < 0)
        return result;
    for (unsigned done = 0, piece; done < count; done += piece) {
        unsigned place = (at + done) % BLOCK;
        piece = least(BLOCK - place, count - done);
        memcpy(f->blocks[(at + done) / BLOCK] + place, (const char *)from + done, piece);
    }
    if (at + count > f->size)
        f->size = at + count;
    return count;
}

int kit_change_size(struct file *f, unsigned size)
{
    int result = f->is_null ? 0 : prepare(f, size);
    if (result >= 0 && !f->is_null) {
        cut(f, size);
        f->size = size;
    }
    return result;
}
