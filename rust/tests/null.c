/* NULL where a length is 0, for each pointer that has a length: what is answered, for rust/tests/c.rs to compare. */
#include <crunch.h>
#include <stdio.h>

static uint8_t file[1 << 16], blocks[1 << 16];
static uint32_t ce[8192], cs[8192];
static uint16_t ae[8192], al[3 * 8192];
static struct crunch_record record;

int main(void)
{
    const struct crunch_palettes none = {NULL, 0, NULL, 0, NULL, 0, NULL, 0}, color = {ce, 8192, cs, 8192, NULL, 0, NULL, 0};
    const struct crunch_palettes selectors = {NULL, 0, cs, 8192, NULL, 0, NULL, 0}, endpoints = {ce, 8192, NULL, 0, NULL, 0, NULL, 0};
    const struct crunch_palettes alpha = {ce, 8192, cs, 8192, NULL, 0, al, 3 * 8192}, least = {ce, 8192, cs, 8192, ae, 8192, NULL, 0};
    uint64_t budget = 1 << 20;

    printf("no file: %u %u\n", crunch_look(NULL, 0).refusal, crunch_open_with(&record, NULL, 0, &none).refusal);
    struct crunch_header h = crunch_look_at(NULL, 0, 0).header;
    printf("no head: %u %u %u; loaded %u %u\n", crunch_look_at(NULL, 0, 0).refusal, crunch_look_at(NULL, 0, 1000).refusal,
           crunch_look_at(file, 0, 1000).refusal, crunch_load_with(&record, h, NULL, 0, &none).refusal,
           crunch_load_with(&record, h, NULL, 0, &color).refusal);

    FILE *in = fopen("samples/dxt5.crn", "rb");
    size_t size = in ? fread(file, 1, sizeof file, in) : 0;
    printf("no palette, of four: %u %u %u %u %u\n", crunch_open_with(&record, file, size, &none).refusal,
           crunch_open_with(&record, file, size, &selectors).refusal, crunch_open_with(&record, file, size, &endpoints).refusal,
           crunch_open_with(&record, file, size, &alpha).refusal, crunch_open_with(&record, file, size, &least).refusal);

    h = crunch_look_at(file, CRUNCH_HEAD_BYTES, size).header;
    printf("loaded: %u %u %u %u %u, no file %u\n", crunch_load_with(&record, h, file, size, &none).refusal,
           crunch_load_with(&record, h, file, size, &selectors).refusal, crunch_load_with(&record, h, file, size, &endpoints).refusal,
           crunch_load_with(&record, h, file, size, &alpha).refusal, crunch_load_with(&record, h, file, size, &least).refusal,
           crunch_load_with(&record, h, NULL, 0, &least).refusal);

    in = fopen("samples/dxt1.crn", "rb");
    size = in ? fread(file, 1, sizeof file, in) : 0;
    h = crunch_look(file, size).header;
    printf("no alpha: %u %u\n", crunch_load_with(&record, h, file, size, &color).refusal,
           crunch_open_with(&record, file, size, &color).refusal);
    struct crunch_sizes s = crunch_level_sizes(record.header, 0);

#define LEVEL(file, size, palettes, dst, len) \
    crunch_unpack_level_with(&record, file, size, palettes, 0, s.pitch, s.distance, &budget, dst, len).refusal
#define LEVELS(file, size, palettes, dst, len) crunch_unpack_levels_with(&record, file, size, palettes, 0, &budget, dst, len).refusal
#define DDS(file, size, palettes, dst, len) crunch_write_dds_with(&record, file, size, palettes, dst, len).refusal
#define EACH(call) call(file, size, &color, blocks, sizeof blocks), call(NULL, 0, &color, blocks, sizeof blocks), \
                   call(file, size, &none, blocks, sizeof blocks), call(file, size, &color, NULL, 0), call(NULL, 0, &none, NULL, 0)
    printf("level: %u, no file %u, no palettes %u, no room %u, nothing %u\n", EACH(LEVEL));
    printf("levels: %u, no file %u, no palettes %u, no room %u, nothing %u\n", EACH(LEVELS));
    printf("dds: %u, no file %u, no palettes %u, no room %u, nothing %u\n", EACH(DDS));

    struct crunch_face face = {4, 4, 16};
#define TEXELS(blocks, blocks_len, rgba, rgba_len) crunch_texels(CRUNCH_DXT1, face, blocks, blocks_len, rgba, rgba_len)
    printf("texels: %u, no blocks %u, no room %u, nothing %u\n", TEXELS(blocks, 8, file, 64), TEXELS(NULL, 0, file, 64),
           TEXELS(blocks, 8, NULL, 0), TEXELS(NULL, 0, NULL, 0));
    return 0;
}
