//! The C header against the archive and the package, compiled and run as a user would.
mod common;
use common::{archive, c, compiled, compiler, hash, of_format, pattern, room, root, sample, samples, told};
use crunch_proved::{raw, Crn, Refusal};
use std::collections::BTreeMap;
use std::mem::{align_of, offset_of, size_of};
use std::path::{Path, PathBuf};
use std::process::Command;

/// What the compiler says of a source, of which it makes nothing.
fn only_read(standard: &str, words: &[&str], source: &Path) -> (i32, String, String) {
    told(compiler(standard).args(words).arg("-fsyntax-only").arg(source).output().unwrap())
}

#[test]
fn the_header_compiles_by_every_standard() {
    let c = ["c99", "c11", "c17"].map(|standard| (standard, "rust/tests/header.c"));
    let cpp = ["c++11", "c++17", "c++20"].map(|standard| (standard, "rust/tests/unpack.cpp"));
    for (standard, source) in c.into_iter().chain(cpp) {
        assert_eq!(only_read(standard, &[], &root(source)), (0, String::new(), String::new()), "{standard}");
    }
}

/// In several units of one program, of both languages.
#[test]
fn units_that_include_the_header_go_together() {
    let room = room("units");
    let unit = |name: &str, code: &str| std::fs::write(room.join(name), format!("#include <crunch.h>\n{code}\n")).unwrap();
    unit("a.c", "int c(void) { return crunch_look(NULL, 0).refusal == CRUNCH_NOT_CRN; }");
    unit("b.cpp", "extern \"C\" int c(void);\nint main() { return c() && crunch_look(nullptr, 0).refusal == CRUNCH_NOT_CRN ? 0 : 1; }");
    let run = |command: &mut Command| assert_eq!(told(command.output().unwrap()), (0, String::new(), String::new()));
    run(compiler("c99").arg("-c").arg(room.join("a.c")).arg("-o").arg(room.join("a.o")));
    run(compiler("c++11").arg(room.join("b.cpp")).arg(room.join("a.o")).arg(archive()).arg("-o").arg(room.join("program")));
    run(&mut Command::new(room.join("program")));
}

/// A compiler that lays structs out in another way is stopped, by each of the three ways to say so.
#[test]
fn a_struct_of_another_size_does_not_compile() {
    for (standard, source) in [("c99", "header.c"), ("c11", "header.c"), ("c++11", "unpack.cpp")] {
        let (status, _, said) = only_read(standard, &["-fpack-struct=1"], &root("rust/tests").join(source));
        assert!(status != 0 && said.contains("crunch_opened"), "{standard}: {said}");
    }
}

/// Another processor's compiler would be needed elsewhere.
#[cfg(target_arch = "x86_64")]
#[test]
fn a_32_bit_processor_is_told_plainly() {
    let (status, _, said) = only_read("c11", &["-m32", "-ffreestanding", "-include", "crunch.h", "-x", "c"], Path::new("/dev/null"));
    assert!(status != 0 && said.contains("libcrunch_abi.a is for 64-bit processors"), "{said}");
}

/// The names of the functions that the header declares and does not define.
fn functions() -> Vec<String> {
    let header = header();
    let declared = header.lines().filter(|line| line.starts_with("struct ") || line.starts_with("uint32_t "));
    let name = |line: &str| line.split_once('(').map(|(before, _)| before.rsplit(' ').next().unwrap().to_string());
    let mut names: Vec<String> = declared.filter_map(name).collect();
    names.sort();
    names
}

#[test]
fn the_archive_has_the_headers_functions_and_no_others() {
    let (status, out, _) = told(Command::new("nm").args(["-g", "--defined-only"]).arg(archive()).output().unwrap());
    let mut has: Vec<String> = out.lines().filter_map(|line| line.split_once(" T ")).map(|(_, name)| name.to_string()).collect();
    has.sort();
    assert_eq!((status, has), (0, functions()));
}

/// Nor anything else that another object could see.
#[test]
fn the_archive_has_nothing_but_functions() {
    let (status, out, _) = told(Command::new("nm").args(["-g", "--defined-only"]).arg(archive()).output().unwrap());
    // a line for each object; of each symbol its place, its letter and its name
    let mut has: Vec<&str> = out.lines().filter_map(|line| line.split_once(' ')).map(|(_, symbol)| symbol).collect();
    has.sort();
    let asked: Vec<String> = functions().iter().map(|name| format!("T {name}")).collect();
    assert_eq!((status, has), (0, asked.iter().map(String::as_str).collect()));
}

#[test]
fn the_archive_has_the_headers_version() {
    let room = room("version-c");
    let main = "int main(void)\n{\n    printf(\"%u %u\\n\", crunch_abi_version(), CRUNCH_ABI_VERSION);\n    return 0;\n}\n";
    std::fs::write(room.join("version.c"), format!("#include <crunch.h>\n#include <stdio.h>\n{main}")).unwrap();
    assert_eq!(c(&room.join("version.c"), &room), (0, "1 1\n".into(), String::new()));
    assert_eq!((raw::abi_version(), raw::ABI_VERSION), (1, 1));
}

/// The header's text.
fn header() -> String {
    std::fs::read_to_string(root("include/crunch.h")).unwrap()
}

/// Each struct of the header that the archive has too, and the names of its fields.
fn structs() -> Vec<(String, Vec<String>)> {
    let header = header();
    let code: String = header.split("/*").map(|text| text.split_once("*/").map_or(text, |(_, after)| after)).collect();
    let word = |name: &str| name.chars().all(|c| c.is_alphanumeric() || c == '_');
    let bodies = code.split("\nstruct ").filter_map(|rest| rest.split_once(" {\n")).filter(|(name, _)| word(name));
    let field = |declared: &str| declared.split_whitespace().last().unwrap().split('[').next().unwrap().to_string();
    let fields = |body: &str| body.split("};").next().unwrap().split([';', ',']).filter(|f| !f.trim().is_empty()).map(field).collect();
    // the palettes' buffers are put into one struct by the header alone
    bodies.filter(|(name, _)| *name != "crunch_palettes").map(|(name, body)| (name.to_string(), fields(body))).collect()
}

/// The width of a field.
fn width<S, F>(_: impl Fn(&S) -> &F) -> usize {
    size_of::<F>()
}

/// The names of the structs that the package hands to the archive, and of their fields.
fn package_structs() -> Vec<(String, Vec<String>)> {
    let text = std::fs::read_to_string(root("rust/src/raw.rs")).unwrap();
    let of = |rest: &str| {
        let (name, body) = rest.split_once("\npub struct ").unwrap().1.split_once(" {\n").unwrap();
        let fields = body.split("\n}").next().unwrap().lines().filter_map(|line| line.trim().strip_prefix("pub ")?.split_once(':'));
        (format!("raw::{name}"), fields.map(|(field, _)| field.to_string()).collect())
    };
    text.split("#[repr(C)]\n").skip(1).map(of).collect()
}

/// A line for each struct, with its size and alignment, and for each of its fields, with its place and width. Every struct and field of the
/// package is named.
macro_rules! layout {
    ($($name:ident $struct:path { $($field:ident),+ })+) => {{
        let mut told = String::new();
        let mut named = vec![$((stringify!($struct).to_string(), vec![$(stringify!($field).to_string()),+])),+];
        let mut all = package_structs();
        named.sort();
        all.sort();
        assert_eq!(named, all);
        $(
            told += &format!("{} {} {}\n", stringify!($name), size_of::<$struct>(), align_of::<$struct>());
            $(told += &format!("{}.{} {} {}\n", stringify!($name), stringify!($field), offset_of!($struct, $field), width(|s: &$struct| &s.$field));)+
        )+
        told
    }};
}

/// Every field of every struct: those that the header has, as the C compiler lays them out, and those that the package has.
#[test]
fn the_c_headers_structs_are_the_packages() {
    let asked = layout! {
        crunch_part raw::Part { offset, size, count }
        crunch_header raw::Header {
            header_size, header_crc16, data_size, data_crc16, width, height, levels, faces, format, flags, reserved, userdata0, userdata1,
            color_endpoints, color_selectors, alpha_endpoints, alpha_selectors, tables_size, tables_offset, level_offsets
        }
        crunch_table raw::Table { count, lengths }
        crunch_tables raw::Tables { chunk_encoding, color_endpoint_delta, color_selector_delta, alpha_endpoint_delta, alpha_selector_delta }
        crunch_record raw::Record { header, tables }
        crunch_looked raw::Looked { refusal, header }
        crunch_words raw::PaletteWords { color_endpoints, color_selectors, alpha_endpoints, alpha_selectors }
        crunch_counts raw::TableCounts { chunk_encoding, color_endpoint_delta, color_selector_delta, alpha_endpoint_delta, alpha_selector_delta }
        crunch_opened raw::Opened { refusal, at }
        crunch_opened_header raw::OpenedHeader { refusal, at, header, counts }
        crunch_sizes raw::LevelSizes { refusal, columns, rows, block_bytes, pitch, distance, bytes, symbols }
        crunch_answer raw::Answer { refusal, at, symbols, cutouts }
        crunch_several raw::Several { refusal, at, levels, symbols, cutouts }
        crunch_needed raw::Needed { refusal, bytes }
        crunch_written raw::Written { refusal, level, at, bytes, symbols, cutouts }
        crunch_face raw::Face { width, height, pitch }
    };
    let mut program = String::from("#include <crunch.h>\n#include <stdio.h>\n");
    program += "#define STRUCT(s) printf(#s \" %zu %zu\\n\", sizeof(struct s), _Alignof(struct s));\n";
    program += "#define FIELD(s, f) printf(#s \".\" #f \" %zu %zu\\n\", offsetof(struct s, f), sizeof(((struct s *)0)->f));\n";
    program += "int main(void)\n{\n";
    let structs = structs();
    for (name, fields) in &structs {
        program += &format!("STRUCT({name})\n");
        fields.iter().for_each(|field| program += &format!("FIELD({name}, {field})\n"));
    }
    program += "return 0;\n}\n";
    let room = room("layout-c");
    std::fs::write(room.join("layout.c"), program).unwrap();
    assert_eq!(c(&room.join("layout.c"), &room), (0, asked, String::new()));
}

/// `header.c` prints what the header's functions give for some files.
#[test]
fn the_c_header_is_the_archives() {
    let room = room("header-c");
    let mut asked = String::new();
    let mut line = |what: &str, numbers: &[usize]| asked += &format!("{what}{}\n", numbers.iter().map(|n| format!(" {n}")).collect::<String>());
    for name in ["cube.crn", "dxt5.crn"] {
        let file = sample(name);
        let crn = Crn::open(&file).unwrap();
        let (level, sizes, h, p) = (crn.unpack_level(1).unwrap(), crn.level_sizes(1).unwrap(), *crn.header(), crn.palettes());
        line(name, &[h.width as usize, h.height as usize, h.levels as usize, h.faces as usize, h.format as usize, h.level_offsets[1] as usize]);
        line("words", &[p.color_endpoints.len(), p.color_selectors.len(), p.alpha_endpoints.len(), p.alpha_selectors.len()]);
        line("sizes", &[sizes.columns, sizes.rows, sizes.block_bytes, sizes.pitch, sizes.distance, sizes.bytes, sizes.symbols as usize]);
        line("opened", &[0, 0]);
        line("level", &[0, 0, level.counts().symbols as usize, level.counts().cutouts as usize, sizes.symbols as usize - level.counts().symbols as usize]);
        line("blocks", &[hash(level.into_blocks()) as usize]);
        let levels = crn.unpack_levels(1).unwrap();
        line("levels", &[0, 0, levels.len(), levels.counts().symbols as usize, levels.counts().cutouts as usize, hash(levels.into_blocks()) as usize]);
    }
    // a budget of 0: level 1 of six faces, alone and with those after it, is refused at its first draw with its blocks zero
    let sizes = Crn::open(&sample("cube.crn")).unwrap().level_sizes(1).unwrap();
    let before = pattern(4096);
    let (mut apart, mut close) = (before.clone(), before.clone());
    let (pitch, distance) = (sizes.pitch + 24, sizes.rows * (sizes.pitch + 24) + 12);
    (0..6).for_each(|face| (0..sizes.rows).for_each(|row| apart[face * distance + row * pitch..][..sizes.pitch].fill(0)));
    close[..sizes.bytes].fill(0);
    line("level", &[15, 0, 0, 0, 0, hash(apart) as usize]);
    line("levels", &[15, 0, 0, 0, 0, 0, hash(close) as usize]);
    // a level that is not there: refused before its first draw, with nothing written
    line("level", &[10, 0, 0, 0, 0, hash(before.clone()) as usize]);
    line("levels", &[10, 0, 0, 0, 0, 0, hash(before) as usize]);
    // a DDS file, with 8,192 bytes lent that hold the pattern
    let (file, before) = (sample("dxt5.crn"), pattern(8192));
    let crn = Crn::open(&file).unwrap();
    let dds = crn.to_dds().unwrap();
    let bytes = dds.bytes.len();
    let whole = hash([&dds.bytes, &before[bytes..]].concat());
    line("dds", &[0, bytes, 0, 0, 0, bytes, dds.counts.symbols as usize, dds.counts.cutouts as usize, whole as usize]);
    let untouched = hash(before.clone()) as usize;
    line("dds", &[0, bytes, 12, 0, 0, 0, 0, 0, untouched]);
    let drawn: u64 = (0..2).map(|level| crn.unpack_level(level).unwrap().counts().symbols).sum();
    let zero = hash([&vec![0; bytes], &before[bytes..]].concat());
    line("dds", &[0, bytes, 4, 2, 0, 0, drawn as usize, 0, zero as usize]);
    line("dds", &[16, 0, 16, 0, 0, 0, 0, 0, untouched]);
    // pixels of a level of 10 by 6, with 4,096 bytes lent that hold the pattern
    let (file, before) = (sample("dxt5a.crn"), pattern(4096));
    let level = Crn::open(&file).unwrap().unpack_level(1).unwrap();
    let (mut whole, mut apart) = (before.clone(), before.clone());
    whole[..240].copy_from_slice(&level.rgba(0).unwrap());
    (0..5).for_each(|y| apart[60 * y..][..36].copy_from_slice(&whole[40 * y..][..36]));
    let untouched = hash(before) as usize;
    line("texels", &[0, hash(whole) as usize]);
    line("texels", &[0, hash(apart) as usize]);
    [12, 28, 18, 2, 2, 2, 12].iter().for_each(|refusal| line("texels", &[*refusal, untouched]));
    // in two calls, each as in one; then by a header with one field changed, which leaves record and palettes as they were
    line("head", &[raw::HEAD_BYTES]);
    for name in ["cube.crn", "dxt5.crn"] {
        let (file, other) = (sample(name), sample("dxn.crn"));
        let [own, cut] = [file.len(), file.len() - 1].map(|len| raw::look_at(&file[..122], len).refusal as usize);
        line("looked", &[own, cut, 1]);
        let [changed, foreign] = [17, 17];
        line("loaded", &[0, 0, 1, changed, 0, 1, foreign, 1]);
        line("parts", &[foreign, 0, 1, 1, 1]);
        assert!(Crn::load(&Crn::look(&other).unwrap(), &file).is_err_and(|no| no.number() == 17));
    }
    // a segment that does not lie in the file: 17 by another header, and 4 by the file's own, which leaves an empty record
    line("loaded", &[17, 1, 4, 0, 0]);
    line("empty", &[0, 0, 0]);
    line("refused", &[1, 1, 10, 2]);
    assert_eq!(c(&root("rust/tests/header.c"), &room), (0, asked, String::new()));
}

/// Each number and text of a list of enumerators, as C has them.
fn spoken(of: &str, function: &str, names: &[&str]) -> Vec<(u32, String)> {
    let room = room(of);
    let print = |name: &&str| format!("    printf(\"%d %s\\n\", CRUNCH_{name}, {function}(CRUNCH_{name}));\n");
    let lines: String = names.iter().map(print).collect();
    let program = format!("#include <crunch.h>\n#include <stdio.h>\nint main(void)\n{{\n{lines}    return 0;\n}}\n");
    std::fs::write(room.join("spoken.c"), program).unwrap();
    let (status, out, err) = c(&room.join("spoken.c"), &room);
    assert_eq!((status, err.as_str()), (0, ""));
    let line = |line: &str| line.split_once(' ').map(|(number, text)| (number.parse().unwrap(), text.to_string())).unwrap();
    out.lines().map(line).collect()
}

#[test]
fn cs_sentences_are_the_packages() {
    use Refusal::*;
    let first = "OK NOT_CRN LIMIT SIZE SEGMENT PALETTE TABLE CODE ENDED SELECTOR LEVEL PITCH DESTINATION CHUNK INDEX BUDGET FORMAT";
    let names: Vec<&str> = first.split(' ').chain(["DISAGREES", "TEXEL_PITCH", "BLOCKS"]).collect();
    let all = [NotCrn, Limit, Size, Segment, Palette, Table, Code, Ended, Selector, Level, Pitch, Destination, Chunk, Index, Budget, Format];
    let mut asked = vec![(0, "nothing is refused".to_string())];
    asked.extend(all.into_iter().chain([Disagrees, TexelPitch, Blocks]).map(|refusal| (refusal.number(), refusal.sentence().to_string())));
    assert_eq!(spoken("refusals-c", "crunch_refusal_sentence", &names), asked);
    assert!(asked.iter().map(|(number, _)| *number).eq((0..19).chain([28])));
}

#[test]
fn cs_formats_are_the_packages() {
    let names = ["DXT1", "DXT5", "DXT5_CCXY", "DXT5_XGXR", "DXT5_XGBR", "DXT5_AGBR", "DXN_XY", "DXN_YX", "DXT5A"];
    let files = ["dxt1", "dxt5", "dxt5", "dxt5", "dxt5", "dxt5", "dxn", "dxn", "dxt5a"];
    let spoken = spoken("formats-c", "crunch_format_name", &names);
    for ((number, name), sample) in spoken.iter().zip(files) {
        let file = of_format(&format!("{sample}.crn"), *number as u8);
        let format = Crn::open(&file).unwrap().format();
        assert_eq!((*number, name.as_str()), (format.number(), format.name()));
    }
    assert!(spoken.iter().map(|(number, _)| *number).eq([0, 2, 3, 4, 5, 6, 7, 8, 9]));
}

/// `unpack.cpp` writes a file's blocks and its DDS file, as the package has them.
#[test]
fn a_program_of_cpp_writes_what_rust_does() {
    let room = room("unpack-cpp");
    let program = compiled("c++17", &root("rust/tests/unpack.cpp"), &room);
    let unpack = |file: &Path| told(Command::new(&program).arg(file).args([room.join("blocks"), room.join("dds")]).output().unwrap());
    for name in samples() {
        let file = sample(&name);
        let crn = Crn::open(&file).unwrap();
        let levels: Vec<_> = (0..crn.levels()).map(|n| crn.unpack_level(n).unwrap()).collect();
        let mut asked = format!("{} {} {}\n", crn.format().name(), crn.width(), crn.height());
        for (n, level) in levels.iter().enumerate() {
            asked += &format!("{n} {} {}\n", level.counts().symbols, level.counts().cutouts);
        }
        assert_eq!(unpack(&root("samples").join(&name)), (0, asked, String::new()));
        assert!(std::fs::read(room.join("blocks")).unwrap() == levels.iter().flat_map(|level| level.blocks().to_vec()).collect::<Vec<_>>());
        assert!(std::fs::read(room.join("dds")).unwrap() == crn.to_dds().unwrap().bytes, "{name}");
    }
    let (status, out, err) = unpack(&root("README.md"));
    assert!((status, out.as_str()) == (1, "") && err.starts_with("look: refused, 1: this is no CRN file"), "{err}");
}

/// And its pixels, where it is told where they go.
#[test]
fn a_program_of_cpp_writes_the_pixels_that_rust_gets() {
    let room = room("pixels-cpp");
    let program = compiled("c++17", &root("rust/tests/unpack.cpp"), &room);
    for name in samples() {
        let out = ["blocks", "dds", "rgba"].map(|name| room.join(name));
        let (status, _, err) = told(Command::new(&program).arg(root("samples").join(&name)).args(&out).output().unwrap());
        assert_eq!((status, err.as_str()), (0, ""), "{name}");
        let file = sample(&name);
        let crn = Crn::open(&file).unwrap();
        let levels: Vec<_> = (0..crn.levels()).map(|n| crn.unpack_level(n).unwrap()).collect();
        let rgba = levels.iter().flat_map(|level| (0..crn.faces() as usize).flat_map(|face| level.rgba(face).unwrap()));
        assert!(std::fs::read(room.join("rgba")).unwrap() == rgba.collect::<Vec<_>>(), "{name}");
    }
}

#[test]
fn a_pointer_of_length_0_may_be_null() {
    let asked = "\
no file: 1 1
no head: 1 1 1; loaded 17 17
no palette, of four: 5 5 5 5 5
loaded: 5 5 5 5 5, no file 17
no alpha: 0 0
level: 0, no file 4, no palettes 5, no room 12, nothing 4
levels: 0, no file 4, no palettes 5, no room 12, nothing 4
dds: 0, no file 4, no palettes 5, no room 12, nothing 12
texels: 0, no blocks 28, no room 12, nothing 28
";
    assert_eq!(c(&root("rust/tests/null.c"), &room("null-c")), (0, asked.into(), String::new()));
}

/// Puts a number into a file, of so many bytes.
fn put(file: &mut [u8], at: usize, bytes: usize, number: usize) {
    file[at..at + bytes].copy_from_slice(&number.to_be_bytes()[8 - bytes..]);
}

/// A sample with other sides and faces, and one level, whose segment is zeros: they begin a code of any table, and go on for as long as a
/// level can.
fn stretched(name: &str, width: usize, height: usize, faces: usize) -> Vec<u8> {
    let mut file = sample(name);
    let fields = [(12, 2, width), (14, 2, height), (16, 1, 1), (17, 1, faces), (70, 4, file.len())];
    fields.iter().for_each(|(at, bytes, number)| put(&mut file, *at, *bytes, *number));
    file.resize(file.len() + 8 * faces * width.div_ceil(8) * height.div_ceil(8) + 64, 0);
    let len = file.len();
    put(&mut file, 6, 4, len);
    file
}

/// A sample with palettes of 8,192 entries: each one's segment once more at the end, where zeros follow.
fn of_large_palettes(name: &str) -> Vec<u8> {
    let mut file = sample(name);
    for part in [33, 41, 49, 57] {
        let number = |at: usize| file[at..at + 3].iter().fold(0, |n, b| n << 8 | *b as usize);
        let (from, size, at) = (number(part), number(part + 3), file.len());
        if size > 0 {
            file.extend_from_within(from..from + size);
            file.resize(file.len() + (1 << 17), 0);
            let size = file.len() - at;
            [(part, 3, at), (part + 3, 3, size), (part + 6, 2, 8192)].iter().for_each(|(at, bytes, n)| put(&mut file, *at, *bytes, *n));
        }
    }
    let len = file.len();
    put(&mut file, 6, 4, len);
    file
}

/// Less than 256 KB for every function of the archive: on the samples, on the largest level of each kind of blocks, on levels of one row of
/// chunks and of one chunk, and on the largest palettes; with tables for few symbols and for many.
#[test]
fn a_call_takes_less_than_256_kb_of_stack() {
    let room = room("stack-c");
    let program = compiled("c11", &root("rust/tests/stack.c"), &room);
    let mut files: Vec<PathBuf> = samples().iter().map(|name| root("samples").join(name)).collect();
    let mut add = |file: Vec<u8>| {
        files.push(room.join(format!("{}.crn", files.len())));
        std::fs::write(files.last().unwrap(), file).unwrap();
    };
    for name in ["dxt1.crn", "dxt5.crn", "dxn.crn", "dxt5a.crn"] {
        [(4096, 4096, 6), (4096, 8, 6), (8, 4096, 1), (8, 8, 1)].iter().for_each(|(w, h, faces)| add(stretched(name, *w, *h, *faces)));
    }
    // of colours and of alphas
    ["dxt1.crn", "dxt5a.crn"].iter().for_each(|name| add(of_large_palettes(name)));
    let (mut most, mut refused) = (BTreeMap::<String, usize>::new(), 0);
    for symbols in ["0", "2000"] {
        // what the dynamic linker does at the first call of a function is not the function's
        let run = Command::new(&program).arg(symbols).args(&files).env("LD_BIND_NOW", "1").output().unwrap();
        let (status, out, err) = told(run);
        assert_eq!((status, err.as_str()), (0, ""));
        for line in out.lines() {
            let [bytes, function, refusal] = line.split(' ').collect::<Vec<_>>()[..] else { continue };
            // nothing but the call that lacks a symbol ends before its time
            assert!(refusal == "0" || (refusal, function) == ("15", "crunch_unpack_level_parts"), "{out}");
            refused += (refusal == "15") as usize;
            let so_far = most.entry(function.to_string()).or_default();
            *so_far = bytes.parse::<usize>().unwrap().max(*so_far);
        }
    }
    assert!(most.keys().eq(&functions()), "{most:?}");
    assert!(refused > 2 * files.len() && most.values().all(|bytes| *bytes < 256 * 1024), "{most:#?}");
}
