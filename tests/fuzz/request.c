/* Requests for a rename, drawn from bytes on an image: most paths lead to a name of the tree, or beside one. */
#include "request.h"

#include "mirepillar.h"
#include "tree.h"

#include <string.h>

/* What does not fit is left out. */
static void append(struct path *path, const void *bytes, size_t len)
{
    if (path->len + len > LONGEST_PATH)
        return;
    memcpy(path->bytes + path->len, bytes, len);
    path->len += len;
}

static void prepend(struct path *path, const void *bytes, size_t len)
{
    if (path->len + len > LONGEST_PATH)
        return;
    memmove(path->bytes + len, path->bytes, path->len);
    memcpy(path->bytes, bytes, len);
    path->len += len;
}

/* What a path is for. The same bytes lead old and new to neighbours, since two names of one file are little to do. */
enum role { OLD, NEW };

/* An entry in use, or as many as there are slots where none is. */
static size_t draw_slot(struct draws *draws, const struct image *image, enum role role)
{
    size_t slots = image->layout.entries, first = slots == 0 ? 0 : draw_below(draws, slots) + role;
    for (size_t i = 0; i < slots; i++)
        if (entry_of(image, (first + i) % slots)[4] != 0)
            return (first + i) % slots;
    return slots;
}

/* The only entry of a directory. */
static const uint8_t *entry_for(const struct image *image, size_t directory)
{
    size_t slot = 0;
    while (entry_of(image, slot)[4] == 0 || get_u16(entry_of(image, slot) + 2) != directory)
        slot++;
    return entry_of(image, slot);
}

/* The way from the root, in front of a name in that directory. */
static void prepend_way(struct path *path, const struct image *image, size_t directory)
{
    for (; directory != 0; directory = get_u16(entry_for(image, directory))) {
        const uint8_t *entry = entry_for(image, directory);
        prepend(path, "/", 1);
        prepend(path, entry + 8, entry[4]);
    }
    prepend(path, "/", 1);
}

static void append_name(struct draws *draws, struct path *path)
{
    uint8_t name[MOST_NAME];
    size_t len = draw_name(draws, name);
    append(path, name, len);
}

/* A name of the tree, by its way from the root; or by itself, for a path that begins in its directory. */
static void draw_existing(struct draws *draws, const struct image *image, enum role role, struct path *path)
{
    size_t slot = draw_slot(draws, image, role);
    if (slot == image->layout.entries)
        return;
    const uint8_t *entry = entry_of(image, slot);
    append(path, entry + 8, entry[4]);
    if (!draw_one_in(draws, 6))
        prepend_way(path, image, get_u16(entry));
}

static void draw_missing(struct draws *draws, const struct image *image, struct path *path)
{
    append_name(draws, path);
    prepend_way(path, image, draw_one_in(draws, 2) ? 0 : draw_directory(draws, image));
}

/* Through what a name of the tree stands for, which may be a symlink. */
static void draw_beyond(struct draws *draws, const struct image *image, struct path *path)
{
    draw_existing(draws, image, OLD, path);
    append(path, "/", 1);
    append_name(draws, path);
}

static void draw_components(struct draws *draws, struct path *path)
{
    static const char *const parts[] = {"..", ".", "/", "//", "../..", "a", "b"};
    size_t count = draw_below(draws, 8);
    for (size_t i = 0; i < count; i++) {
        const char *part = parts[draw_below(draws, 7)];
        append(path, part, strlen(part));
        append(path, "/", draw_below(draws, 4) != 0);
    }
    append_name(draws, path);
}

static void draw_long(struct draws *draws, const struct image *image, struct path *path)
{
    size_t len = draw_one_in(draws, 2) ? 25 + draw_below(draws, 8) : 230 + draw_below(draws, 70);
    bool of_one_name = draw_one_in(draws, 3);
    draw_existing(draws, image, OLD, path);
    while (path->len < len)
        prepend(path, of_one_name ? "x" : "./", of_one_name ? 1 : 2);
}

static void draw_bytes(struct draws *draws, struct path *path)
{
    for (size_t left = draw_below(draws, 12); left != 0; left--) {
        uint8_t byte = draw_byte(draws);
        append(path, &byte, 1);
    }
}

static void draw_trimmings(struct draws *draws, struct path *path)
{
    if (draw_one_in(draws, 12))
        append(path, "//", 1 + draw_below(draws, 2));
    if (draw_one_in(draws, 24))
        append(path, "/..", 2 + draw_below(draws, 2));
    if (draw_one_in(draws, 24))
        prepend(path, "a/../", 5);
}

static void draw_path(struct draws *draws, const struct image *image, enum role role, struct path *path)
{
    size_t kind = draw_below(draws, 64);
    path->len = 0;
    if (kind < (role == OLD ? 48 : 28))
        draw_existing(draws, image, role, path);
    else if (kind < 50)
        draw_missing(draws, image, path);
    else if (kind < 56)
        draw_beyond(draws, image, path);
    else if (kind < 59)
        draw_components(draws, path);
    else if (kind < 61)
        draw_long(draws, image, path);
    else if (kind < 63)
        draw_bytes(draws, path);
    else
        append(path, "///", draw_below(draws, 4));
    draw_trimmings(draws, path);
}

static uint32_t draw_user(struct draws *draws)
{
    static const uint32_t common[] = {0, 0, 0, 100, 100, 200};
    size_t which = draw_below(draws, 7);
    return which < 6 ? common[which] : draw_u32(draws);
}

static uint8_t draw_start(struct draws *draws, const struct image *image)
{
    if (!draw_one_in(draws, 4))
        return MP_CURRENT_DIRECTORY;
    return (uint8_t)(draw_one_in(draws, 6) ? draw_byte(draws) : draw_below(draws, image->layout.handles + 1));
}

static uint32_t draw_flags(struct draws *draws)
{
    static const uint32_t common[] = {0, 0, 0, 0, 0, 0, 0, MP_NOREPLACE, MP_EXCHANGE, MP_EXCHANGE, MP_EXCHANGE, MP_EXCHANGE};
    size_t which = draw_below(draws, 64);
    if (which == 62)
        return MP_NOREPLACE | MP_EXCHANGE;
    return which == 63 ? draw_u32(draws) : common[which % 12];
}

void draw_request(struct draws *draws, const struct image *image, struct request *request)
{
    request->user = draw_user(draws);
    request->group = draw_user(draws);
    request->groups_len = draw_one_in(draws, 32) ? 16 + draw_below(draws, 5) : draw_below(draws, 4);
    for (size_t i = 0; i < request->groups_len; i++)
        request->groups[i] = draw_user(draws);
    request->cwd = (uint16_t)(draw_one_in(draws, 48) ? draw_u16(draws) : draw_directory(draws, image));
    request->old_start = draw_start(draws, image);
    request->new_start = draw_start(draws, image);
    request->now = draw_one_in(draws, 4) ? draw_u64(draws) : 500;
    request->flags = draw_flags(draws);
    draw_path(draws, image, OLD, &request->old_path);
    draw_path(draws, image, NEW, &request->new_path);
}
