/* What the archive gives through include/crunch.h, for rust/tests/c.rs to compare. */
#include <crunch.h>
#include <inttypes.h>
#include <stdio.h>
#include <string.h>

static uint8_t file[1 << 16], blocks[1 << 16];
static uint32_t ce[8192], cs[8192];
static uint16_t ae[8192], al[3 * 8192];
static struct crunch_record record;

/* all that the palettes' buffers have; a part of it, as a file needs */
#define ALL ce, 8192, cs, 8192, ae, 8192, al, 3 * 8192
#define PART ce, w.color_endpoints, cs, w.color_selectors, ae, w.alpha_endpoints, al, w.alpha_selectors

static size_t sample(const char *name)
{
    char path[64];
    snprintf(path, sizeof path, "samples/%s", name);
    FILE *in = fopen(path, "rb");
    return in ? fread(file, 1, sizeof file, in) : 0;
}

static uint64_t hash_of(const uint8_t *bytes, size_t len)
{
    uint64_t hash = 0xcbf29ce484222325u;
    for (size_t i = 0; i < len; i++)
        hash = (hash ^ bytes[i]) * 0x100000001b3u;
    return hash;
}

static void told(const char *name)
{
    size_t size = sample(name);
    struct crunch_looked looked = crunch_look(file, size);
    struct crunch_header h = looked.header;
    struct crunch_words w = crunch_palette_words(h);
    struct crunch_opened o = crunch_open(&record, file, size, PART);
    struct crunch_sizes s = crunch_level_sizes(record.header, 1);
    uint64_t budget = s.symbols;
    struct crunch_answer a = crunch_unpack_level(&record, file, size, PART, 1, s.pitch, s.distance, &budget, blocks, s.bytes);
    uint64_t hash = hash_of(blocks, s.bytes);
    printf("%s %u %u %u %u %u %u\n", name, h.width, h.height, h.levels, h.faces, h.format, h.level_offsets[1]);
    printf("words %zu %zu %zu %zu\n", w.color_endpoints, w.color_selectors, w.alpha_endpoints, w.alpha_selectors);
    printf("sizes %zu %zu %zu %zu %zu %zu %" PRIu64 "\n", s.columns, s.rows, s.block_bytes, s.pitch, s.distance, s.bytes, s.symbols);
    printf("opened %u %zu\n", o.refusal, o.at);
    printf("level %u %zu %" PRIu64 " %" PRIu64 " %" PRIu64 "\n", a.refusal, a.at, a.symbols, a.cutouts, budget);
    printf("blocks %" PRIu64 "\n", hash);
    size_t bytes = 0;
    for (uint32_t level = 1; level < h.levels; level++)
        bytes += crunch_level_sizes(record.header, level).bytes;
    budget = 1 << 20;
    struct crunch_several all = crunch_unpack_levels(&record, file, size, PART, 1, &budget, blocks, bytes);
    hash = hash_of(blocks, bytes);
    printf("levels %u %zu %u %" PRIu64 " %" PRIu64 " %" PRIu64 "\n", all.refusal, all.at, all.levels, all.symbols, all.cutouts, hash);
}

/* The destination: bytes none of which is zero. */
static void pattern(size_t len)
{
    for (size_t i = 0; i < len; i++)
        blocks[i] = i % 251 + 1;
}

/* A budget of 0, with room between rows, faces and after the last; and a level that is not there, with that budget. */
static void without_budget(const char *name)
{
    size_t size = sample(name), len = 4096;
    uint64_t budget = 0;
    crunch_open(&record, file, size, ALL);
    struct crunch_sizes s = crunch_level_sizes(record.header, 1);
    size_t pitch = s.pitch + 24, distance = s.rows * pitch + 12;
    const uint32_t asked[] = {1, 13};
    for (int i = 0; i < 2; i++) {
        uint32_t level = asked[i];
        pattern(len);
        struct crunch_answer a = crunch_unpack_level(&record, file, size, ALL, level, pitch, distance, &budget, blocks, len);
        printf("level %u %zu %" PRIu64 " %" PRIu64 " %" PRIu64 " %" PRIu64 "\n", a.refusal, a.at, a.symbols, a.cutouts, budget,
               hash_of(blocks, len));
        pattern(len);
        struct crunch_several all = crunch_unpack_levels(&record, file, size, ALL, level, &budget, blocks, len);
        printf("levels %u %zu %u %" PRIu64 " %" PRIu64 " %" PRIu64 " %" PRIu64 "\n", all.refusal, all.at, all.levels, all.symbols,
               all.cutouts, budget, hash_of(blocks, len));
    }
}

static void written(size_t len)
{
    struct crunch_needed n = crunch_dds_bytes(record.header);
    size_t size = record.header.data_size;
    pattern(sizeof blocks);
    struct crunch_written w = crunch_write_dds(&record, file, size, ALL, blocks, len);
    printf("dds %u %zu %u %u %zu %zu %" PRIu64 " %" PRIu64 " %" PRIu64 "\n", n.refusal, n.bytes, w.refusal, w.level, w.at, w.bytes,
           w.symbols, w.cutouts, hash_of(blocks, 8192));
}

/* A DDS file: whole, with one byte too few, with a level that has no bytes, and of a format that has no letters. */
static void as_dds(const char *name)
{
    size_t size = sample(name);
    crunch_open(&record, file, size, ALL);
    size_t bytes = crunch_dds_bytes(record.header).bytes;
    written(bytes + 7);
    written(bytes - 1);
    record.header.level_offsets[3] = record.header.level_offsets[2];
    written(bytes);
    record.header.format = 5;
    written(bytes);
}

/* Into so many of 4,096 bytes, all of which hold the pattern: the answer and what they hold then. */
static void texels(uint32_t format, size_t width, size_t height, size_t pitch, size_t blocks_len, size_t rgba_len)
{
    struct crunch_face face = {width, height, pitch};
    static uint8_t rgba[4096];
    for (size_t i = 0; i < sizeof rgba; i++)
        rgba[i] = i % 251 + 1;
    uint32_t refusal = crunch_texels(format, face, blocks, blocks_len, rgba, rgba_len);
    printf("texels %u %" PRIu64 "\n", refusal, hash_of(rgba, sizeof rgba));
}

/* Pixels of the first face of a level of 10 by 6: clipped, with rows apart; then each refusal with all that come after it. */
static void as_pixels(const char *name)
{
    size_t size = sample(name);
    crunch_open(&record, file, size, ALL);
    struct crunch_sizes s = crunch_level_sizes(record.header, 1);
    uint64_t budget = s.symbols;
    crunch_unpack_level(&record, file, size, ALL, 1, s.pitch, s.distance, &budget, blocks, s.bytes);
    uint32_t format = record.header.format;
    texels(format, 10, 6, 40, s.bytes, 240);
    texels(format, 9, 5, 60, s.bytes, 4096);
    texels(format, 10, 6, 40, s.bytes, 239);
    texels(format, 10, 6, 40, s.bytes - 1, 239);
    texels(format, 10, 6, 39, s.bytes - 1, 239);
    texels(format, 10, 4097, 39, s.bytes - 1, 239);
    texels(format, 0, 6, 39, s.bytes - 1, 239);
    texels(1, 10, 6, 39, s.bytes - 1, 239);
    texels(format, 10, 6, SIZE_MAX, s.bytes, 4096);
}

/* All that a load may write, and a copy of it. */
static struct {
    struct crunch_record record;
    uint32_t ce[64], cs[64];
    uint16_t ae[64], al[192];
} lent, kept;

#define LENT lent.ce, 64, lent.cs, 64, lent.ae, 64, lent.al, 192

static int as_before(void)
{
    return memcmp(&lent, &kept, sizeof lent) == 0;
}

/* What was never zero: what is cleared is seen. */
static void filled(void)
{
    memset(&lent, 0x5A, sizeof lent);
    memcpy(&kept, &lent, sizeof lent);
}

/* A file looked at by its first bytes and loaded, against the same file opened; then by headers that are not its own. */
static void in_two_calls(const char *name, const char *another)
{
    struct crunch_header other = crunch_look(file, sample(another)).header;
    size_t size = sample(name);
    struct crunch_looked l = crunch_look_at(file, CRUNCH_HEAD_BYTES, size), whole = crunch_look(file, size);
    printf("looked %u %u %d\n", l.refusal, crunch_look_at(file, CRUNCH_HEAD_BYTES, size - 1).refusal, memcmp(&l, &whole, sizeof l) == 0);
    filled();
    crunch_open(&lent.record, file, size, LENT);
    memcpy(&kept, &lent, sizeof lent);
    memset(&lent, 0x5A, sizeof lent);
    struct crunch_opened o = crunch_load(&lent.record, l.header, file, size, LENT);
    int same = as_before();
    filled();
    struct crunch_header changed = l.header;
    changed.level_offsets[12] ^= 1;
    struct crunch_opened no = crunch_load(&lent.record, changed, file, size, LENT);
    int left = as_before();
    uint32_t foreign = crunch_load(&lent.record, other, file, size, LENT).refusal;
    printf("loaded %u %zu %d %u %zu %d %u %d\n", o.refusal, o.at, same, no.refusal, no.at, left, foreign, as_before());
    /* by its parts the answer has an empty header, and counts of 0 */
    const struct crunch_header no_header = {0};
    const struct crunch_counts no_counts = {0, 0, 0, 0, 0};
    struct crunch_tables *t = &lent.record.tables;
    struct crunch_opened_header parts = crunch_load_parts(
        other, file, size, LENT, t->chunk_encoding.lengths, t->color_endpoint_delta.lengths, t->color_selector_delta.lengths,
        t->alpha_endpoint_delta.lengths, t->alpha_selector_delta.lengths);
    printf("parts %u %zu %d %d %d\n", parts.refusal, parts.at, memcmp(&parts.header, &no_header, sizeof no_header) == 0,
           memcmp(&parts.counts, &no_counts, sizeof no_counts) == 0, as_before());
}

/* A file whose tables lie past its end, by another file's header and by its own. */
static void in_two_calls_refused(void)
{
    size_t size = sample("dxt5.crn");
    struct crunch_header before = crunch_look(file, size).header;
    file[65] = file[66] = 0xFF;
    filled();
    uint32_t no = crunch_load(&lent.record, before, file, size, LENT).refusal;
    int left = as_before();
    struct crunch_opened o = crunch_load(&lent.record, crunch_look(file, size).header, file, size, LENT);
    printf("loaded %u %d %u %zu %u\n", no, left, o.refusal, o.at, lent.record.header.width + lent.record.tables.chunk_encoding.count);
}

int main(void)
{
    told("cube.crn");
    told("dxt5.crn");
    without_budget("cube.crn");
    as_dds("dxt5.crn");
    as_pixels("dxt5a.crn");
    printf("head %d\n", CRUNCH_HEAD_BYTES);
    in_two_calls("cube.crn", "dxn.crn");
    in_two_calls("dxt5.crn", "dxn.crn");
    in_two_calls_refused();
    sample("dxt5.crn");
    struct crunch_opened none = crunch_open(&record, file, 73, ALL);
    struct crunch_header h = crunch_look(file, sizeof file).header;
    struct crunch_header wide = h;
    wide.width = 5000;
    printf("empty %u %u %u\n", record.header.width, record.tables.color_endpoint_delta.count, record.tables.chunk_encoding.lengths[0]);
    printf("refused %u %u %u %u\n", none.refusal, crunch_look((const uint8_t *)"", 0).refusal, crunch_level_sizes(h, 13).refusal,
           crunch_level_sizes(wide, 0).refusal);
    return 0;
}
