/* stack SYMBOLS FILE..: how much stack each function of the archive takes on these files, a line each: bytes, function, refusal. A call
 * runs on a thread whose stack was painted: what lies between its caller and the last byte that lost its colour is its own. Each table is
 * for SYMBOLS at least, of which those added have no code: the archive then takes other arrays. */
#define _GNU_SOURCE
#include <crunch.h>
#include <pthread.h>
#include <stdio.h>
#include <stdlib.h>
#include <string.h>

enum { STACK = 2 << 20, COLOUR = 0xA5 };
static unsigned char *stack;

static uint8_t *file, *dst, *rgba;
static size_t size, dst_len, rgba_len;
static uint32_t ce[8192], cs[8192], refusal, level;
static uint16_t ae[8192], al[3 * 8192];
static const struct crunch_palettes palettes = {ce, 8192, cs, 8192, ae, 8192, al, 3 * 8192};
static struct crunch_record record;
static uint64_t budget;

/* ---- the calls: each leaves its refusal */

static void abi_version(void)
{
    refusal = crunch_abi_version() != CRUNCH_ABI_VERSION;
}

static void look(void)
{
    refusal = crunch_look(file, size).refusal;
}

static void look_at(void)
{
    refusal = crunch_look_at(file, size < CRUNCH_HEAD_BYTES ? size : CRUNCH_HEAD_BYTES, size).refusal;
}

static void palette_words(void)
{
    refusal = crunch_palette_words(record.header).color_endpoints > 8192;
}

static void open_parts(void)
{
    refusal = crunch_open_with(&record, file, size, &palettes).refusal;
}

static void load_parts(void)
{
    refusal = crunch_load_with(&record, crunch_look(file, size).header, file, size, &palettes).refusal;
}

static void level_sizes(void)
{
    refusal = crunch_level_sizes(record.header, level).refusal;
}

static void unpack_level_parts(void)
{
    struct crunch_sizes s = crunch_level_sizes(record.header, level);
    refusal = crunch_unpack_level_with(&record, file, size, &palettes, level, s.pitch, s.distance, &budget, dst, dst_len).refusal;
}

static void unpack_levels_parts(void)
{
    refusal = crunch_unpack_levels_with(&record, file, size, &palettes, level, &budget, dst, dst_len).refusal;
}

static void dds_bytes(void)
{
    refusal = crunch_dds_bytes(record.header).refusal;
}

static void write_dds_parts(void)
{
    refusal = crunch_write_dds_with(&record, file, size, &palettes, dst, dst_len).refusal;
}

/* of a level that was unpacked before: of its first face */
static void texels(void)
{
    struct crunch_face face = {record.header.width >> level, record.header.height >> level, 0};
    face.width += face.width == 0;
    face.height += face.height == 0;
    face.pitch = 4 * face.width;
    refusal = crunch_texels(record.header.format, face, dst, crunch_level_sizes(record.header, level).distance, rgba, rgba_len);
}

/* ---- a call on a painted stack */

struct call {
    void (*made)(void);
    unsigned char *from;
};

static void *make(void *arg)
{
    struct call *call = arg;
    unsigned char here;
    call->from = &here;
    call->made();
    return NULL;
}

static void measure(const char *name, void (*made)(void))
{
    struct call call = {made, NULL};
    pthread_attr_t attr;
    pthread_t thread;
    memset(stack, COLOUR, STACK);
    pthread_attr_init(&attr);
    if (pthread_attr_setstack(&attr, stack, STACK) || pthread_create(&thread, &attr, make, &call) || pthread_join(thread, NULL)) {
        fprintf(stderr, "no thread\n");
        exit(1);
    }
    const unsigned char *last = stack;
    while (*last == COLOUR)
        last++;
    printf("%td crunch_%s %u\n", call.from - last, name, refusal);
}

static void measure_all(const char *path, uint32_t symbols)
{
    FILE *in = fopen(path, "rb");
    if (!in || fseek(in, 0, SEEK_END) != 0) {
        perror(path);
        exit(1);
    }
    size = ftell(in);
    rewind(in);
    file = malloc(size);
    size = fread(file, 1, size, in);
    fclose(in);
    printf("%s\n", path);
    measure("abi_version", abi_version);
    measure("look", look);
    measure("look_at", look_at);
    measure("open_parts", open_parts);
    measure("load_parts", load_parts);
    struct crunch_tables *t = &record.tables;
    struct crunch_table *tables[] = {&t->chunk_encoding, &t->color_endpoint_delta, &t->color_selector_delta, &t->alpha_endpoint_delta,
                                     &t->alpha_selector_delta};
    for (size_t i = 0; i < 5; i++)
        if (tables[i]->count > 0 && tables[i]->count < symbols)
            tables[i]->count = symbols;
    measure("palette_words", palette_words);
    measure("dds_bytes", dds_bytes);
    dst_len = 128;
    for (uint32_t i = 0; i < record.header.levels; i++)
        dst_len += crunch_level_sizes(record.header, i).bytes;
    dst = malloc(dst_len);
    rgba_len = (size_t)4 * record.header.width * record.header.height;
    rgba = malloc(rgba_len);
    for (level = 0; level < record.header.levels; level++) {
        measure("level_sizes", level_sizes);
        budget = UINT64_MAX;
        measure("unpack_level_parts", unpack_level_parts);
        /* and refused at its last symbol, where it is deepest */
        budget = UINT64_MAX - budget - 1;
        measure("unpack_level_parts", unpack_level_parts);
        budget = UINT64_MAX;
        measure("unpack_levels_parts", unpack_levels_parts);
        measure("texels", texels);
    }
    measure("write_dds_parts", write_dds_parts);
    free(rgba);
    free(dst);
    free(file);
}

int main(int argc, char **argv)
{
    stack = aligned_alloc(4096, STACK);
    for (int i = 2; i < argc; i++)
        measure_all(argv[i], strtoul(argv[1], NULL, 10));
    return 0;
}
