/* Consistent trees drawn from bytes: what a check asks of an image is kept up with each inode and entry that is added. */
#include "tree.h"

#include <stdio.h>
#include <string.h>

/* An inode's fields, by their places in its record. */
enum { FILE_SYSTEM = 1, MODE = 2, OWNER = 4, GROUP = 8, LINKS = 12, FIELD = 14, MODIFIED = 16, CHANGED = 24 };

/* A tree on the way: which slots and texts are still to be used, and the directories that there are. */
struct builder {
    struct draws *draws;
    struct image *image;
    size_t slots_used, texts_used, directories_len;
    bool falling, wide;
    uint16_t directories[MOST_INODES];
};

static size_t drawn_length(struct draws *draws)
{
    return draw_one_in(draws, 24) ? MOST_NAME : 1 + draw_below(draws, 4);
}

/* Most names are of few letters, so that a path drawn apart from the tree finds some. */
size_t draw_name(struct draws *draws, uint8_t name[MOST_NAME])
{
    static const char portable[] = "abcdefghABC019._-";
    size_t kind = draw_below(draws, 16);
    size_t len = kind < 12 ? 1 : drawn_length(draws);
    for (size_t i = 0; i < len; i++) {
        uint8_t any = draw_byte(draws);
        bool may_be_any = kind == 15 && any != 0 && any != '/';
        name[i] = may_be_any ? any : (uint8_t)portable[any % (kind < 12 ? 8 : sizeof portable - 1)];
    }
    if ((len == 1 && name[0] == '.') || (len == 2 && name[0] == '.' && name[1] == '.'))
        name[0] = 'd';
    return len;
}

/* Slots are used from the first on, or from the last. */
static size_t slot_of(const struct builder *builder, size_t turn)
{
    return builder->falling ? builder->image->layout.entries - 1 - turn : turn;
}

static bool is_taken(const struct builder *builder, size_t parent, const uint8_t *name, size_t len)
{
    for (size_t turn = 0; turn < builder->slots_used; turn++) {
        const uint8_t *entry = entry_of(builder->image, slot_of(builder, turn));
        if (entry[4] == len && get_u16(entry) == parent && memcmp(entry + 8, name, len) == 0)
            return true;
    }
    return false;
}

/* A free name of the directory: drawn, or else made from the slot's number. In a large tree most short names are taken,
 * so that one try is enough. */
static size_t free_name(struct builder *builder, size_t parent, size_t slot, uint8_t name[MOST_NAME])
{
    int most = builder->image->layout.entries > 64 ? 1 : 4;
    for (int tries = 0; tries < most; tries++) {
        size_t len = draw_name(builder->draws, name);
        if (!is_taken(builder, parent, name, len))
            return len;
    }
    char made[MOST_NAME];
    int len = snprintf(made, sizeof made, "~%zu~", slot);
    memcpy(name, made, (size_t)len);
    return is_taken(builder, parent, name, (size_t)len) ? 0 : (size_t)len;
}

/* Puts an entry into the next slot, unless it is skipped and stays free; whether there is one now. */
static bool add_entry(struct builder *builder, size_t parent, size_t target)
{
    struct image *image = builder->image;
    builder->slots_used += draw_one_in(builder->draws, 16);
    if (builder->slots_used >= image->layout.entries)
        return false;
    size_t slot = slot_of(builder, builder->slots_used);
    uint8_t name[MOST_NAME];
    size_t len = free_name(builder, parent, slot, name);
    if (len == 0)
        return false;
    builder->slots_used++;
    uint8_t *entry = entry_at(image, slot);
    put_u16(entry, parent);
    put_u16(entry + 2, target);
    entry[4] = (uint8_t)len;
    memcpy(entry + 8, name, len);
    return true;
}

static uint32_t draw_owner(struct draws *draws)
{
    static const uint32_t common[] = {100, 100, 100, 200, 0, 7};
    size_t which = draw_below(draws, 7);
    return which < 6 ? common[which] : draw_u32(draws);
}

static void put_inode(struct builder *builder, size_t number, uint8_t kind, uint8_t file_system)
{
    static const uint16_t common[] = {0755, 0777, 0755, 01777, 0700, 0555};
    struct draws *draws = builder->draws;
    uint8_t *inode = inode_at(builder->image, number);
    size_t which = draw_below(draws, 8);
    inode[0] = kind;
    inode[FILE_SYSTEM] = file_system;
    put_u16(inode + MODE, which < 6 ? common[which] : draw_u16(draws) % 4096);
    put_u32(inode + OWNER, draw_owner(draws));
    put_u32(inode + GROUP, draw_owner(draws));
    put_u64(inode + MODIFIED, draw_byte(draws));
    put_u64(inode + CHANGED, draw_byte(draws));
}

static void count_link(struct builder *builder, size_t number, size_t more)
{
    uint8_t *links = inode_at(builder->image, number) + LINKS;
    put_u16(links, get_u16(links) + more);
}

static bool has_room(const struct builder *builder, size_t number)
{
    return get_u16(inode_of(builder->image, number) + LINKS) < MOST_LINKS;
}

/* A text of names, dots and slashes. Most names are of one letter, so that some texts lead back to their own symlink. */
static void draw_text(struct draws *draws, uint8_t *text)
{
    size_t parts = 1 + draw_below(draws, 3), len = draw_one_in(draws, 6);
    text[1] = '/';
    for (size_t part = 0; part < parts; part++) {
        uint8_t name[MOST_NAME];
        size_t name_len = draw_name(draws, name);
        bool goes_up = draw_one_in(draws, 6);
        if (len + name_len + 3 > TEXT_BYTES - 1)
            break;
        memcpy(text + 1 + len, goes_up ? (const uint8_t *)".." : name, goes_up ? 2 : name_len);
        len += goes_up ? 2 : name_len;
        text[1 + len] = '/';
        len += part + 1 < parts || draw_one_in(draws, 8);
    }
    text[0] = (uint8_t)len;
    memset(text + 1 + len, 0, TEXT_BYTES - 1 - len);
}

/* A wide tree has most names in its root, which gets as many links as it may have. */
static size_t draw_parent(struct builder *builder)
{
    if (builder->wide && !draw_one_in(builder->draws, 8))
        return 0;
    size_t last = builder->directories_len - 1;
    bool deeper = draw_one_in(builder->draws, 3);
    return builder->directories[deeper ? last : draw_below(builder->draws, builder->directories_len)];
}

static uint8_t draw_kind(struct builder *builder, size_t parent)
{
    static const uint8_t kinds[] = {PLAIN_FILE, PLAIN_FILE, PLAIN_FILE, DIRECTORY, DIRECTORY, DIRECTORY, SYMLINK, FREE};
    uint8_t kind = kinds[draw_below(builder->draws, 8)];
    if (builder->wide && !draw_one_in(builder->draws, 4))
        kind = DIRECTORY;
    if (kind == SYMLINK && builder->texts_used == builder->image->layout.texts)
        return PLAIN_FILE;
    return kind == DIRECTORY && !has_room(builder, parent) ? PLAIN_FILE : kind;
}

/* One inode with its first entry. Another file system is mounted at some directories, and some are read-only. */
static void add_inode(struct builder *builder, size_t number)
{
    size_t parent = draw_parent(builder);
    uint8_t kind = draw_kind(builder, parent), file_system = inode_of(builder->image, parent)[FILE_SYSTEM];
    if (kind == FREE || !add_entry(builder, parent, number))
        return;
    if (kind == DIRECTORY && draw_one_in(builder->draws, 16))
        file_system = draw_byte(builder->draws);
    put_inode(builder, number, kind, file_system);
    if (kind == DIRECTORY) {
        put_u16(inode_at(builder->image, number) + FIELD, parent);
        count_link(builder, number, 2);
        count_link(builder, parent, 1);
        builder->directories[builder->directories_len++] = (uint16_t)number;
        return;
    }
    count_link(builder, number, 1);
    if (kind == SYMLINK) {
        draw_text(builder->draws, text_at(builder->image, builder->texts_used));
        put_u16(inode_at(builder->image, number) + FIELD, builder->texts_used++);
    }
}

/* A further name for a file or a symlink, in a directory of its file system. */
static void add_link(struct builder *builder)
{
    size_t parent = draw_parent(builder);
    size_t number = draw_used_inode(builder->draws, builder->image);
    const uint8_t *inode = inode_of(builder->image, number);
    bool fits = inode[0] != DIRECTORY && inode[FILE_SYSTEM] == inode_of(builder->image, parent)[FILE_SYSTEM];
    if (fits && has_room(builder, number) && add_entry(builder, parent, number))
        count_link(builder, number, 1);
}

size_t draw_used_inode(struct draws *draws, const struct image *image)
{
    size_t number = draw_below(draws, image->layout.inodes);
    while (inode_of(image, number)[0] == FREE)
        number--;
    return number;
}

size_t draw_directory(struct draws *draws, const struct image *image)
{
    size_t number = draw_below(draws, image->layout.inodes);
    while (inode_of(image, number)[0] != DIRECTORY)
        number--;
    return number;
}

static void draw_handles(struct builder *builder)
{
    for (size_t number = 0; number < builder->image->layout.handles; number++) {
        uint8_t *handle = handle_at(builder->image, number);
        size_t inode = draw_used_inode(builder->draws, builder->image);
        handle[0] = (uint8_t)draw_below(builder->draws, 3);
        put_u16(handle + 2, handle[0] == 0 ? 0 : inode);
    }
}

/* Most images are small, for speed; one in 64 is as large as any. */
static void draw_sizes(struct draws *draws, struct image *image)
{
    bool largest = draw_one_in(draws, 64), larger = draw_one_in(draws, 8);
    size_t inodes = largest ? MOST_INODES : larger ? 80 + draw_below(draws, 60) : 4 + draw_below(draws, 16);
    size_t more = largest ? MOST_ENTRIES - MOST_INODES : draw_below(draws, 8);
    size_t texts = largest ? MOST_TEXTS : draw_below(draws, 5);
    size_t handles = draw_one_in(draws, 8) ? MOST_HANDLES : draw_below(draws, 4);
    if (draw_one_in(draws, 32))
        inodes = 1 + draw_below(draws, 3);
    lay_out(image, inodes, inodes - 1 + more, texts, handles);
}

void draw_tree(struct draws *draws, struct image *image)
{
    draw_sizes(draws, image);
    struct builder builder = {.draws = draws, .image = image, .directories_len = 1};
    builder.falling = draw_one_in(draws, 3);
    builder.wide = draw_one_in(draws, 3);
    size_t last = image->layout.inodes - 1, links = draw_below(draws, 8);
    put_inode(&builder, 0, DIRECTORY, draw_one_in(draws, 16) ? draw_byte(draws) : 0);
    count_link(&builder, 0, 2);
    for (size_t i = 1; i <= last; i++)
        add_inode(&builder, builder.falling ? last + 1 - i : i);
    if (image->layout.inodes == MOST_INODES)
        links = MOST_ENTRIES;
    for (size_t i = 0; i < links; i++)
        add_link(&builder);
    draw_handles(&builder);
}
