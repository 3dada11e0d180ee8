// unpack CRN BLOCKS DDS [RGBA]: a CRN file's levels, one by one and all at once, as raw blocks, as a DDS file and as pixels.
#include <crunch.h>

#include <algorithm>
#include <cstring>
#include <fstream>
#include <iostream>
#include <iterator>
#include <string>
#include <vector>

// Says what was refused, if anything was.
static bool went_through(const char *what, uint32_t refusal)
{
    if (refusal != CRUNCH_OK)
        std::cerr << what << ": refused, " << refusal << ": " << crunch_refusal_sentence(refusal) << "\n";
    return refusal == CRUNCH_OK;
}

static void write(const char *path, const std::vector<uint8_t> &bytes)
{
    std::ofstream(path, std::ios::binary).write(reinterpret_cast<const char *>(bytes.data()), static_cast<std::streamsize>(bytes.size()));
}

int main(int argc, char **argv)
{
    if (argc != 4 && argc != 5)
        return 2;
    std::ifstream in(argv[1], std::ios::binary);
    const std::vector<char> chars((std::istreambuf_iterator<char>(in)), std::istreambuf_iterator<char>());
    const std::vector<uint8_t> file(chars.begin(), chars.end());

    // by its first bytes, as a crawler has them
    const crunch_looked looked = crunch_look_at(file.data(), std::min<size_t>(file.size(), CRUNCH_HEAD_BYTES), file.size());
    if (!went_through("look", looked.refusal))
        return 1;
    const crunch_words words = crunch_palette_words(looked.header);
    std::vector<uint32_t> color_endpoints(words.color_endpoints), color_selectors(words.color_selectors);
    std::vector<uint16_t> alpha_endpoints(words.alpha_endpoints), alpha_selectors(words.alpha_selectors);
    const crunch_palettes palettes = {
        color_endpoints.data(), color_endpoints.size(), color_selectors.data(), color_selectors.size(),
        alpha_endpoints.data(), alpha_endpoints.size(), alpha_selectors.data(), alpha_selectors.size(),
    };
    std::vector<crunch_record> crn(1);
    if (!went_through("load", crunch_load_with(&crn[0], looked.header, file.data(), file.size(), &palettes).refusal))
        return 1;
    // in one call it is the same, and by another header nothing is written
    std::vector<crunch_record> opened(1);
    const crunch_header none = {};
    if (!went_through("open", crunch_open_with(&opened[0], file.data(), file.size(), &palettes).refusal) ||
        crunch_load_with(&opened[0], none, file.data(), file.size(), &palettes).refusal != CRUNCH_DISAGREES ||
        std::memcmp(&opened[0], &crn[0], sizeof opened[0]) != 0)
        return 1;
    const crunch_header &header = crn[0].header;
    std::cout << crunch_format_name(header.format) << " " << header.width << " " << header.height << "\n";

    std::vector<uint8_t> blocks, pixels;
    uint64_t allowed = 0;
    for (uint32_t level = 0; level < header.levels; level++) {
        crunch_sizes s = crunch_level_sizes(header, level);
        std::vector<uint8_t> one(s.bytes);
        uint64_t budget = s.symbols;
        const crunch_answer answer = crunch_unpack_level_with(
            &crn[0], file.data(), file.size(), &palettes, level, s.pitch, s.distance, &budget, one.data(), one.size());
        if (!went_through("level", answer.refusal))
            return 1;
        std::cout << level << " " << answer.symbols << " " << answer.cutouts << "\n";
        blocks.insert(blocks.end(), one.begin(), one.end());
        allowed += s.symbols;
        const size_t width = std::max(header.width >> level, 1u), height = std::max(header.height >> level, 1u);
        for (uint32_t face = 0; face < header.faces; face++) {
            std::vector<uint8_t> rgba(4 * width * height);
            const crunch_face picture = {width, height, 4 * width};
            const uint8_t *first = one.data() + face * s.distance;
            if (!went_through("texels", crunch_texels(header.format, picture, first, s.distance, rgba.data(), rgba.size())))
                return 1;
            pixels.insert(pixels.end(), rgba.begin(), rgba.end());
        }
    }
    std::vector<uint8_t> all(blocks.size());
    const crunch_several several =
        crunch_unpack_levels_with(&crn[0], file.data(), file.size(), &palettes, 0, &allowed, all.data(), all.size());
    if (!went_through("levels", several.refusal) || all != blocks)
        return 1;
    write(argv[2], blocks);
    if (argc == 5)
        write(argv[4], pixels);

    std::vector<uint8_t> dds(crunch_dds_bytes(header).bytes);
    const crunch_written written = crunch_write_dds_with(&crn[0], file.data(), file.size(), &palettes, dds.data(), dds.size());
    if (!went_through("dds", written.refusal))
        return 1;
    write(argv[3], dds);
    return 0;
}
