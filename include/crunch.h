/* CRN files (crunched DXT textures), opened, unpacked and made into pixels by proved code: link target/host/libcrunch_abi.a, which
 * `rust/archive crunch_abi` makes, for a 64-bit processor.
 *
 * Every function takes any argument and ends with an answer. Nothing is allocated, no pointer is kept when a call is over, and nothing is
 * bound to a thread: calls may run at once, where none writes what another one reads or writes. A call takes less than 256 KB of stack, for
 * any file and any level.
 *
 * What C itself asks of a caller stays to be met: a pointer points to as many elements as the length beside it says, and no buffer that is
 * written overlaps another. Where a length is 0 the pointer may be NULL. */
#ifndef CRUNCH_H
#define CRUNCH_H

#include <stddef.h>
#include <stdint.h>

#if SIZE_MAX != 0xFFFFFFFFFFFFFFFF
#error "libcrunch_abi.a is for 64-bit processors: size_t has to have 8 bytes"
#endif

#ifdef __cplusplus
extern "C" {
#endif

/* The edition of the archive's functions and structs that this header tells of, and the one that the archive has: where the two are not
 * equal, they don't belong together, and no other function may be called. */
#define CRUNCH_ABI_VERSION 1
uint32_t crunch_abi_version(void);

/* What an answer has as its refusal: 0, or why there is none. */
enum crunch_refusal {
    CRUNCH_OK = 0,           /* nothing is refused */
    CRUNCH_NOT_CRN = 1,      /* under 74 bytes, or no signature */
    CRUNCH_LIMIT = 2,        /* a header field beyond its limit; of texels, format, width or height */
    CRUNCH_SIZE = 3,         /* header size or data size */
    CRUNCH_SEGMENT = 4,      /* a segment that is empty, backwards or past the file */
    CRUNCH_PALETTE = 5,      /* a lent palette that is too short */
    CRUNCH_TABLE = 6,        /* a code table */
    CRUNCH_CODE = 7,         /* bits that begin no code */
    CRUNCH_ENDED = 8,        /* a segment that ended too soon */
    CRUNCH_SELECTOR = 9,     /* a selector symbol of a palette */
    CRUNCH_LEVEL = 10,       /* a level number that the file does not have */
    CRUNCH_PITCH = 11,       /* pitch or distance */
    CRUNCH_DESTINATION = 12, /* a destination that is too short */
    CRUNCH_CHUNK = 13,       /* a chunk symbol */
    CRUNCH_INDEX = 14,       /* a palette index */
    CRUNCH_BUDGET = 15,      /* a budget that is already spent */
    CRUNCH_FORMAT = 16,      /* a format that DDS has no letters for */
    CRUNCH_DISAGREES = 17,   /* a header that is not this file's */
    CRUNCH_TEXEL_PITCH = 18, /* a pitch below four bytes a pixel */
    CRUNCH_BLOCKS = 28       /* too few bytes of blocks */
};

/* A refusal as a sentence for a person. */
static inline const char *crunch_refusal_sentence(uint32_t refusal)
{
    switch (refusal) {
    case CRUNCH_OK:
        return "nothing is refused";
    case CRUNCH_NOT_CRN:
        return "this is no CRN file: it does not begin with the letters Hx, or is shorter than any CRN file";
    case CRUNCH_LIMIT:
        return "the header is damaged or of another edition: its width, height, levels, faces, format or a palette's size is beyond what a "
               "CRN file can have";
    case CRUNCH_SIZE:
        return "the header is damaged or the file was cut short: its header size or data size does not fit the file";
    case CRUNCH_SEGMENT:
        return "the file was cut short, or its header is damaged: a part of it is empty or would lie past the file's end";
    case CRUNCH_PALETTE:
        return "the memory lent for a palette is too short for this file";
    case CRUNCH_TABLE:
        return "the compressed data are damaged: a code table makes no sense";
    case CRUNCH_CODE:
        return "the compressed data are damaged: there are bits that mean nothing";
    case CRUNCH_ENDED:
        return "the compressed data end too soon: a part of the file is damaged or cut short";
    case CRUNCH_SELECTOR:
        return "the compressed data are damaged: a palette has a selector that can't be";
    case CRUNCH_LEVEL:
        return "the file has no level of this number";
    case CRUNCH_PITCH:
        return "the pitch or the distance is no multiple of 4, or too small for this level";
    case CRUNCH_DESTINATION:
        return "the memory lent for the blocks is too short for this level or file";
    case CRUNCH_CHUNK:
        return "the compressed data are damaged: a chunk is laid out in a way that can't be";
    case CRUNCH_INDEX:
        return "the compressed data are damaged: a block asks for an entry that its palette does not have";
    case CRUNCH_BUDGET:
        return "the level needs more symbols than it was allowed";
    case CRUNCH_FORMAT:
        return "DDS has no letters for this file's format, only for DXT1, DXT5, DXN XY and DXT5A";
    case CRUNCH_DISAGREES:
        return "the header that was handed over is not this file's: it is of another file, or one of the two was changed";
    case CRUNCH_TEXEL_PITCH:
        return "the pitch is too small for the picture: each pixel of a row takes four bytes";
    case CRUNCH_BLOCKS:
        return "there are too few blocks for a picture of this format and size";
    default:
        return "this number is no refusal";
    }
}

/* The formats of blocks, as a header numbers them. */
enum crunch_format {
    CRUNCH_DXT1 = 0,      /* a colour block of 8 bytes */
    CRUNCH_DXT5 = 2,      /* an alpha block, then a colour block; 16 bytes */
    CRUNCH_DXT5_CCXY = 3, /* DXT5 whose channels hold luma and chroma */
    CRUNCH_DXT5_XGXR = 4, /* DXT5 whose channels hold two components */
    CRUNCH_DXT5_XGBR = 5, /* DXT5 whose channels hold three components */
    CRUNCH_DXT5_AGBR = 6, /* DXT5 whose channels hold four components in another order */
    CRUNCH_DXN_XY = 7,    /* two alpha blocks; 16 bytes */
    CRUNCH_DXN_YX = 8,    /* DXN whose two components are exchanged */
    CRUNCH_DXT5A = 9      /* an alpha block of 8 bytes */
};

/* A format's name. */
static inline const char *crunch_format_name(uint32_t format)
{
    switch (format) {
    case CRUNCH_DXT1:
        return "DXT1";
    case CRUNCH_DXT5:
        return "DXT5";
    case CRUNCH_DXT5_CCXY:
        return "DXT5 CCxY";
    case CRUNCH_DXT5_XGXR:
        return "DXT5 xGxR";
    case CRUNCH_DXT5_XGBR:
        return "DXT5 xGBR";
    case CRUNCH_DXT5_AGBR:
        return "DXT5 AGBR";
    case CRUNCH_DXN_XY:
        return "DXN XY";
    case CRUNCH_DXN_YX:
        return "DXN YX";
    case CRUNCH_DXT5A:
        return "DXT5A";
    default:
        return "an unknown format";
    }
}

/* Where a part of the file stands, and how many palette entries it has. */
struct crunch_part {
    uint32_t offset, size, count;
};

/* The header's fields as read. A level that the file does not have is at offset 0. */
struct crunch_header {
    uint32_t header_size, header_crc16, data_size, data_crc16;
    uint32_t width, height, levels, faces;
    uint32_t format; /* enum crunch_format */
    uint32_t flags, reserved, userdata0, userdata1;
    struct crunch_part color_endpoints, color_selectors, alpha_endpoints, alpha_selectors;
    uint32_t tables_size, tables_offset;
    uint32_t level_offsets[13];
};

/* A code table: how many symbols it was sent for, and each symbol's code length, zero beyond the count. */
struct crunch_table {
    uint32_t count;
    uint8_t lengths[8192];
};

/* The five code tables of a file's levels. */
struct crunch_tables {
    struct crunch_table chunk_encoding, color_endpoint_delta, color_selector_delta, alpha_endpoint_delta, alpha_selector_delta;
};

/* An opened file, without its palettes: some 41,000 bytes. */
struct crunch_record {
    struct crunch_header header;
    struct crunch_tables tables;
};

/* The header of a file, by which the palettes' buffers are sized: refusal 1, 2 or 3 with zeros, or 0. */
struct crunch_looked {
    uint32_t refusal;
    struct crunch_header header;
};
struct crunch_looked crunch_look(const uint8_t *file, size_t file_len);

/* The same of a file's first bytes and of how many it has in all, for who does not want the rest: with the file's first CRUNCH_HEAD_BYTES,
 * or all of a shorter file, the answer is that of crunch_look for the whole file. Bytes of head after those are not looked at. Where there
 * are fewer, those that are missing count as 0. */
#define CRUNCH_HEAD_BYTES 122
struct crunch_looked crunch_look_at(const uint8_t *head, size_t head_len, size_t file_len);

/* How many words the buffer of each palette has to hold. */
struct crunch_words {
    size_t color_endpoints, color_selectors, alpha_endpoints, alpha_selectors;
};
struct crunch_words crunch_palette_words(struct crunch_header header);

/* The four palettes' buffers and how many words each has. 8,192 of each are enough for any file, and three times as many for the alpha
 * selectors. Each function that takes the buffers one by one has a like, named .._with, that takes this: opening fills them, the others
 * read them. */
struct crunch_palettes {
    uint32_t *color_endpoints;
    size_t color_endpoints_len;
    uint32_t *color_selectors;
    size_t color_selectors_len;
    uint16_t *alpha_endpoints;
    size_t alpha_endpoints_len;
    uint16_t *alpha_selectors;
    size_t alpha_selectors_len;
};

/* How many symbols each of a record's five tables is for. */
struct crunch_counts {
    uint32_t chunk_encoding, color_endpoint_delta, color_selector_delta, alpha_endpoint_delta, alpha_selector_delta;
};

/* A file opened: refusal 0; or the refusal and the bit at which the compressed data are at fault. Accepted, it leaves the opened file in
 * *record, refused an empty one, whatever was there before. Refused by 1 to 5 it leaves the buffers untouched, refused later it leaves them
 * zero. */
struct crunch_opened {
    uint32_t refusal;
    size_t at;
};
static inline struct crunch_opened crunch_open_with(
    struct crunch_record *record, const uint8_t *file, size_t file_len, const struct crunch_palettes *palettes);
static inline struct crunch_opened crunch_open(
    struct crunch_record *record, const uint8_t *file, size_t file_len,
    uint32_t *color_endpoints, size_t color_endpoints_len, uint32_t *color_selectors, size_t color_selectors_len,
    uint16_t *alpha_endpoints, size_t alpha_endpoints_len, uint16_t *alpha_selectors, size_t alpha_selectors_len);

/* The same by the record's parts, as the archive has it: the header and the counts in the answer, the lengths of each table in an array of
 * 8,192 bytes. */
struct crunch_opened_header {
    uint32_t refusal;
    size_t at;
    struct crunch_header header;
    struct crunch_counts counts;
};
struct crunch_opened_header crunch_open_parts(
    const uint8_t *file, size_t file_len,
    uint32_t *color_endpoints, size_t color_endpoints_len, uint32_t *color_selectors, size_t color_selectors_len,
    uint16_t *alpha_endpoints, size_t alpha_endpoints_len, uint16_t *alpha_selectors, size_t alpha_selectors_len,
    uint8_t *chunk_encoding, uint8_t *color_endpoint_delta, uint8_t *color_selector_delta,
    uint8_t *alpha_endpoint_delta, uint8_t *alpha_selector_delta);

/* Opening in two calls: a file loaded whose header was looked at before, by crunch_look or crunch_look_at. Where the header is not what
 * crunch_look gives of this file, in any field, the refusal is 17, also where that refuses the file; it comes before all others, and
 * neither *record nor a buffer is then written. Else all is as crunch_open has it: 4 to 9, what is left in *record and in the buffers. */
static inline struct crunch_opened crunch_load_with(
    struct crunch_record *record, struct crunch_header header, const uint8_t *file, size_t file_len,
    const struct crunch_palettes *palettes);
static inline struct crunch_opened crunch_load(
    struct crunch_record *record, struct crunch_header header, const uint8_t *file, size_t file_len,
    uint32_t *color_endpoints, size_t color_endpoints_len, uint32_t *color_selectors, size_t color_selectors_len,
    uint16_t *alpha_endpoints, size_t alpha_endpoints_len, uint16_t *alpha_selectors, size_t alpha_selectors_len);

/* The same by the record's parts: at 17 the answer has an empty header and counts of 0, and the arrays stay as they were. */
struct crunch_opened_header crunch_load_parts(
    struct crunch_header header, const uint8_t *file, size_t file_len,
    uint32_t *color_endpoints, size_t color_endpoints_len, uint32_t *color_selectors, size_t color_selectors_len,
    uint16_t *alpha_endpoints, size_t alpha_endpoints_len, uint16_t *alpha_selectors, size_t alpha_selectors_len,
    uint8_t *chunk_encoding, uint8_t *color_endpoint_delta, uint8_t *color_selector_delta,
    uint8_t *alpha_endpoint_delta, uint8_t *alpha_selector_delta);

/* A level's blocks; the least pitch, distance and destination for them, in bytes; and the full symbol allowance, with which no level runs
 * out. Refusal 2 (a header beyond its limits) and 10 (a level that the file does not have) come with zeros. */
struct crunch_sizes {
    uint32_t refusal;
    size_t columns, rows, block_bytes, pitch, distance, bytes;
    uint64_t symbols;
};
struct crunch_sizes crunch_level_sizes(struct crunch_header header, uint32_t level);

/* A level of every face unpacked into dst: face f starts at f times the distance, rows of blocks are a pitch apart. Refusal 0 with the
 * symbols drawn and the cut-outs (DXT1 blocks whose first colour word is below the second); or the refusal, the bit and the symbols drawn.
 * Each symbol drawn is taken off the budget. Bytes that belong to no block stay as they were.
 *
 * Refused by 2, 4, 5, 6, 10, 11 or 12, before its first draw, the level leaves dst untouched. Refused later, by 7, 8, 13, 14 or 15, it
 * leaves every block of its grid zero and all else as it was. A budget of 0 is refused at the first draw, so by 15 with 0 symbols and
 * blocks zero. */
struct crunch_answer {
    uint32_t refusal;
    size_t at;
    uint64_t symbols, cutouts;
};
static inline struct crunch_answer crunch_unpack_level_with(
    const struct crunch_record *record, const uint8_t *file, size_t file_len, const struct crunch_palettes *palettes,
    uint32_t level, size_t pitch, size_t distance, uint64_t *budget, uint8_t *dst, size_t dst_len);
static inline struct crunch_answer crunch_unpack_level(
    const struct crunch_record *record, const uint8_t *file, size_t file_len,
    const uint32_t *color_endpoints, size_t color_endpoints_len, const uint32_t *color_selectors, size_t color_selectors_len,
    const uint16_t *alpha_endpoints, size_t alpha_endpoints_len, const uint16_t *alpha_selectors, size_t alpha_selectors_len,
    uint32_t level, size_t pitch, size_t distance, uint64_t *budget, uint8_t *dst, size_t dst_len);

/* The same by the record's parts. */
struct crunch_answer crunch_unpack_level_parts(
    struct crunch_header header, struct crunch_counts counts, const uint8_t *chunk_encoding,
    const uint8_t *color_endpoint_delta, const uint8_t *color_selector_delta,
    const uint8_t *alpha_endpoint_delta, const uint8_t *alpha_selector_delta,
    const uint8_t *file, size_t file_len,
    const uint32_t *color_endpoints, size_t color_endpoints_len, const uint32_t *color_selectors, size_t color_selectors_len,
    const uint16_t *alpha_endpoints, size_t alpha_endpoints_len, const uint16_t *alpha_selectors, size_t alpha_selectors_len,
    uint32_t level, size_t pitch, size_t distance, uint64_t *budget, uint8_t *dst, size_t dst_len);

/* The levels from `first` on to the last, each with its rows and faces close together (crunch_level_sizes), and its blocks where those of
 * the level before end: a small file's sooner than one by one. How many went through, the symbols drawn in all, the cut-outs of those that
 * went through; and the refusal of the level after them with its bit, 0 where each went through. Each symbol drawn is taken off the budget.
 *
 * The levels before the refused one keep their blocks, and all bytes after its own stay as they were. Its own are as crunch_unpack_level
 * leaves them: untouched where it is refused before its first draw (2, 4, 5, 6, 10, 11, 12), zero where it is refused later (7, 8, 13, 14,
 * 15). A budget of 0 is refused at the first draw of the level `first`, so by 15 with 0 levels, 0 symbols and that level's blocks zero. */
struct crunch_several {
    uint32_t refusal;
    size_t at;
    uint32_t levels;
    uint64_t symbols, cutouts;
};
static inline struct crunch_several crunch_unpack_levels_with(
    const struct crunch_record *record, const uint8_t *file, size_t file_len, const struct crunch_palettes *palettes,
    uint32_t first, uint64_t *budget, uint8_t *dst, size_t dst_len);
static inline struct crunch_several crunch_unpack_levels(
    const struct crunch_record *record, const uint8_t *file, size_t file_len,
    const uint32_t *color_endpoints, size_t color_endpoints_len, const uint32_t *color_selectors, size_t color_selectors_len,
    const uint16_t *alpha_endpoints, size_t alpha_endpoints_len, const uint16_t *alpha_selectors, size_t alpha_selectors_len,
    uint32_t first, uint64_t *budget, uint8_t *dst, size_t dst_len);

/* The same by the record's parts. */
struct crunch_several crunch_unpack_levels_parts(
    struct crunch_header header, struct crunch_counts counts, const uint8_t *chunk_encoding,
    const uint8_t *color_endpoint_delta, const uint8_t *color_selector_delta,
    const uint8_t *alpha_endpoint_delta, const uint8_t *alpha_selector_delta,
    const uint8_t *file, size_t file_len,
    const uint32_t *color_endpoints, size_t color_endpoints_len, const uint32_t *color_selectors, size_t color_selectors_len,
    const uint16_t *alpha_endpoints, size_t alpha_endpoints_len, const uint16_t *alpha_selectors, size_t alpha_selectors_len,
    uint32_t first, uint64_t *budget, uint8_t *dst, size_t dst_len);

/* How many bytes the DDS file of an opened file has. Refusal 2 (a header beyond its limits) and 16 (a format that DDS has no letters for:
 * 3 to 6 and 8) come with 0 bytes. */
struct crunch_needed {
    uint32_t refusal;
    size_t bytes;
};
struct crunch_needed crunch_dds_bytes(struct crunch_header header);

/* A DDS file, written into the first bytes of dst: the magic, a header of 124 bytes, and the blocks of each face after the other, of a face
 * each level from large to small, all close together. Formats 0, 2, 7 and 9 go out as DXT1, DXT5, BC5U and BC4U. Each level has its full
 * symbol allowance. Refusal 0 with the bytes written and the symbols and cut-outs of all levels; or the refusal, the level that it is of,
 * the bit in that level's segment and the symbols drawn in all levels up to it, with 0 bytes and 0 cut-outs.
 *
 * Refused by 2, 6, 16 or 12, which are looked at in this order before any level, it leaves dst untouched, and level, at and symbols are 0.
 * Refused by 4, 5, 7, 8, 13 or 14, which are a level's, it leaves the whole file's bytes (as many as crunch_dds_bytes says) zero and all
 * beyond them as it was, also where the levels before went through; at is 0 with 4 and 5. */
struct crunch_written {
    uint32_t refusal, level;
    size_t at, bytes;
    uint64_t symbols, cutouts;
};
static inline struct crunch_written crunch_write_dds_with(
    const struct crunch_record *record, const uint8_t *file, size_t file_len, const struct crunch_palettes *palettes,
    uint8_t *dst, size_t dst_len);
static inline struct crunch_written crunch_write_dds(
    const struct crunch_record *record, const uint8_t *file, size_t file_len,
    const uint32_t *color_endpoints, size_t color_endpoints_len, const uint32_t *color_selectors, size_t color_selectors_len,
    const uint16_t *alpha_endpoints, size_t alpha_endpoints_len, const uint16_t *alpha_selectors, size_t alpha_selectors_len,
    uint8_t *dst, size_t dst_len);

/* The same by the record's parts. */
struct crunch_written crunch_write_dds_parts(
    struct crunch_header header, struct crunch_counts counts, const uint8_t *chunk_encoding,
    const uint8_t *color_endpoint_delta, const uint8_t *color_selector_delta,
    const uint8_t *alpha_endpoint_delta, const uint8_t *alpha_selector_delta,
    const uint8_t *file, size_t file_len,
    const uint32_t *color_endpoints, size_t color_endpoints_len, const uint32_t *color_selectors, size_t color_selectors_len,
    const uint16_t *alpha_endpoints, size_t alpha_endpoints_len, const uint16_t *alpha_selectors, size_t alpha_selectors_len,
    uint8_t *dst, size_t dst_len);

/* The pixels of one face of a level, four bytes R, G, B, A each, made of its blocks, which stand row by row with nothing between them (of
 * an unpacked level with the sizes that crunch_level_sizes tells, face f begins at f times the distance). Row y of the picture begins y
 * times the pitch after rgba, in bytes. Blocks of four by four pixels reach over the right and the lower edge where a side is no multiple
 * of 4: what lies beyond is left out. A level's sides are those of level 0, shifted right by the level's number, and 1 at least. Blocks
 * may as well come from elsewhere.
 *
 * What a pixel is goes by the format, and channels come as stored:
 *
 *     0       BC1 with alpha: four colours where the first colour word is above the second, else three, and selector 3 is 0, 0, 0, 0
 *     2 to 6  BC3: an alpha of its own, and always four colours; of 3 to 6, whose channels hold other components, nothing is exchanged
 *     7, 8    BC5: R, G, 0, 255; of 8, whose components are exchanged, nothing is exchanged back
 *     9       BC4: R, 0, 0, 255
 *
 * Ends of 5 and 6 bits are widened to 8 by repeating their upper bits, and what lies between two ends is rounded down after that.
 *
 * The answer is 0 or the refusal, looked at in this order: 2 (no format has this number, or width or height is not 1 to 4,096), 18 (the
 * pitch is below 4 times the width), 28 (blocks_len is below a block's bytes times the blocks that cover the picture), 12 (rgba_len is
 * below (height - 1) times the pitch and 4 times the width). Each leaves rgba untouched. Accepted, the call writes the pixels and nothing
 * else: bytes between two rows and behind the last stay as they were. */
struct crunch_face {
    size_t width, height, pitch;
};
uint32_t crunch_texels(
    uint32_t format, struct crunch_face face, const uint8_t *blocks, size_t blocks_len, uint8_t *rgba, size_t rgba_len);

/* ---- the archive's structs have as many bytes here as there */

#if defined(__cplusplus) && __cplusplus >= 201103L
#define CRUNCH_BYTES(name, bytes) static_assert(sizeof(struct name) == bytes, "struct " #name " is not as the archive has it")
#elif !defined(__cplusplus) && defined(__STDC_VERSION__) && __STDC_VERSION__ >= 201112L
#define CRUNCH_BYTES(name, bytes) _Static_assert(sizeof(struct name) == bytes, "struct " #name " is not as the archive has it")
#else
#define CRUNCH_BYTES(name, bytes) typedef char name##_is_not_as_the_archive_has_it[sizeof(struct name) == bytes ? 1 : -1]
#endif

CRUNCH_BYTES(crunch_part, 12);
CRUNCH_BYTES(crunch_header, 160);
CRUNCH_BYTES(crunch_table, 8196);
CRUNCH_BYTES(crunch_tables, 40980);
CRUNCH_BYTES(crunch_record, 41140);
CRUNCH_BYTES(crunch_looked, 164);
CRUNCH_BYTES(crunch_words, 32);
CRUNCH_BYTES(crunch_counts, 20);
CRUNCH_BYTES(crunch_opened, 16);
CRUNCH_BYTES(crunch_opened_header, 200);
CRUNCH_BYTES(crunch_sizes, 64);
CRUNCH_BYTES(crunch_answer, 32);
CRUNCH_BYTES(crunch_several, 40);
CRUNCH_BYTES(crunch_needed, 16);
CRUNCH_BYTES(crunch_written, 40);
CRUNCH_BYTES(crunch_face, 24);

#undef CRUNCH_BYTES

/* ---- a record by its parts: nothing of its 41,000 bytes is copied but the header and the counts */

#define CRUNCH_LENGTHS \
    record->tables.chunk_encoding.lengths, record->tables.color_endpoint_delta.lengths, record->tables.color_selector_delta.lengths, \
    record->tables.alpha_endpoint_delta.lengths, record->tables.alpha_selector_delta.lengths

#define CRUNCH_LENT \
    color_endpoints, color_endpoints_len, color_selectors, color_selectors_len, \
    alpha_endpoints, alpha_endpoints_len, alpha_selectors, alpha_selectors_len

/* what the archive answered, put into the record; at 17 nothing is, since the archive left the tables' lengths too */
static inline struct crunch_opened crunch_opened_as(struct crunch_record *record, const struct crunch_opened_header *o)
{
    struct crunch_opened answer = {o->refusal, o->at};
    if (o->refusal != CRUNCH_DISAGREES) {
        record->header = o->header;
        record->tables.chunk_encoding.count = o->counts.chunk_encoding;
        record->tables.color_endpoint_delta.count = o->counts.color_endpoint_delta;
        record->tables.color_selector_delta.count = o->counts.color_selector_delta;
        record->tables.alpha_endpoint_delta.count = o->counts.alpha_endpoint_delta;
        record->tables.alpha_selector_delta.count = o->counts.alpha_selector_delta;
    }
    return answer;
}

static inline struct crunch_opened crunch_open(
    struct crunch_record *record, const uint8_t *file, size_t file_len,
    uint32_t *color_endpoints, size_t color_endpoints_len, uint32_t *color_selectors, size_t color_selectors_len,
    uint16_t *alpha_endpoints, size_t alpha_endpoints_len, uint16_t *alpha_selectors, size_t alpha_selectors_len)
{
    struct crunch_opened_header o = crunch_open_parts(file, file_len, CRUNCH_LENT, CRUNCH_LENGTHS);
    return crunch_opened_as(record, &o);
}

static inline struct crunch_opened crunch_load(
    struct crunch_record *record, struct crunch_header header, const uint8_t *file, size_t file_len,
    uint32_t *color_endpoints, size_t color_endpoints_len, uint32_t *color_selectors, size_t color_selectors_len,
    uint16_t *alpha_endpoints, size_t alpha_endpoints_len, uint16_t *alpha_selectors, size_t alpha_selectors_len)
{
    struct crunch_opened_header o = crunch_load_parts(header, file, file_len, CRUNCH_LENT, CRUNCH_LENGTHS);
    return crunch_opened_as(record, &o);
}

static inline struct crunch_counts crunch_counts_of(const struct crunch_record *record)
{
    struct crunch_counts counts = {
        record->tables.chunk_encoding.count, record->tables.color_endpoint_delta.count, record->tables.color_selector_delta.count,
        record->tables.alpha_endpoint_delta.count, record->tables.alpha_selector_delta.count,
    };
    return counts;
}

/* what each of them hands on: the record by its parts, the file, the palettes */
#define CRUNCH_PARTS record->header, crunch_counts_of(record), CRUNCH_LENGTHS, file, file_len, CRUNCH_LENT

static inline struct crunch_answer crunch_unpack_level(
    const struct crunch_record *record, const uint8_t *file, size_t file_len,
    const uint32_t *color_endpoints, size_t color_endpoints_len, const uint32_t *color_selectors, size_t color_selectors_len,
    const uint16_t *alpha_endpoints, size_t alpha_endpoints_len, const uint16_t *alpha_selectors, size_t alpha_selectors_len,
    uint32_t level, size_t pitch, size_t distance, uint64_t *budget, uint8_t *dst, size_t dst_len)
{
    return crunch_unpack_level_parts(CRUNCH_PARTS, level, pitch, distance, budget, dst, dst_len);
}

static inline struct crunch_several crunch_unpack_levels(
    const struct crunch_record *record, const uint8_t *file, size_t file_len,
    const uint32_t *color_endpoints, size_t color_endpoints_len, const uint32_t *color_selectors, size_t color_selectors_len,
    const uint16_t *alpha_endpoints, size_t alpha_endpoints_len, const uint16_t *alpha_selectors, size_t alpha_selectors_len,
    uint32_t first, uint64_t *budget, uint8_t *dst, size_t dst_len)
{
    return crunch_unpack_levels_parts(CRUNCH_PARTS, first, budget, dst, dst_len);
}

static inline struct crunch_written crunch_write_dds(
    const struct crunch_record *record, const uint8_t *file, size_t file_len,
    const uint32_t *color_endpoints, size_t color_endpoints_len, const uint32_t *color_selectors, size_t color_selectors_len,
    const uint16_t *alpha_endpoints, size_t alpha_endpoints_len, const uint16_t *alpha_selectors, size_t alpha_selectors_len,
    uint8_t *dst, size_t dst_len)
{
    return crunch_write_dds_parts(CRUNCH_PARTS, dst, dst_len);
}

#undef CRUNCH_PARTS
#undef CRUNCH_LENT
#undef CRUNCH_LENGTHS

/* ---- the same with the palettes in a struct */

#define CRUNCH_LENT \
    palettes->color_endpoints, palettes->color_endpoints_len, palettes->color_selectors, palettes->color_selectors_len, \
    palettes->alpha_endpoints, palettes->alpha_endpoints_len, palettes->alpha_selectors, palettes->alpha_selectors_len

static inline struct crunch_opened crunch_open_with(
    struct crunch_record *record, const uint8_t *file, size_t file_len, const struct crunch_palettes *palettes)
{
    return crunch_open(record, file, file_len, CRUNCH_LENT);
}

static inline struct crunch_opened crunch_load_with(
    struct crunch_record *record, struct crunch_header header, const uint8_t *file, size_t file_len,
    const struct crunch_palettes *palettes)
{
    return crunch_load(record, header, file, file_len, CRUNCH_LENT);
}

static inline struct crunch_answer crunch_unpack_level_with(
    const struct crunch_record *record, const uint8_t *file, size_t file_len, const struct crunch_palettes *palettes,
    uint32_t level, size_t pitch, size_t distance, uint64_t *budget, uint8_t *dst, size_t dst_len)
{
    return crunch_unpack_level(record, file, file_len, CRUNCH_LENT, level, pitch, distance, budget, dst, dst_len);
}

static inline struct crunch_several crunch_unpack_levels_with(
    const struct crunch_record *record, const uint8_t *file, size_t file_len, const struct crunch_palettes *palettes,
    uint32_t first, uint64_t *budget, uint8_t *dst, size_t dst_len)
{
    return crunch_unpack_levels(record, file, file_len, CRUNCH_LENT, first, budget, dst, dst_len);
}

static inline struct crunch_written crunch_write_dds_with(
    const struct crunch_record *record, const uint8_t *file, size_t file_len, const struct crunch_palettes *palettes,
    uint8_t *dst, size_t dst_len)
{
    return crunch_write_dds(record, file, file_len, CRUNCH_LENT, dst, dst_len);
}

#undef CRUNCH_LENT

#ifdef __cplusplus
}
#endif

#endif
