/* Images drawn from bytes: consistent trees, trees with a few faults, and any bytes at all. */
#ifndef TREE_H
#define TREE_H

#include "draws.h"
#include "image.h"

/* A consistent image with its journal record clear. */
void draw_tree(struct draws *draws, struct image *image);

/* A name that an entry may have; its length. */
size_t draw_name(struct draws *draws, uint8_t name[MOST_NAME]);

/* An inode in use, and a directory. */
size_t draw_used_inode(struct draws *draws, const struct image *image);
size_t draw_directory(struct draws *draws, const struct image *image);

/* A few bytes of the image set, its journal record written, or its length changed; often nothing. */
void draw_damage(struct draws *draws, struct image *image);

/* Any bytes, with or without a table of contents that is right. */
void draw_raw_image(struct draws *draws, struct image *image);

#endif
