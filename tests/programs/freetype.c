/* FreeType: FT_New_Library takes an allocator for all that it makes. The glyphs of a font are loaded, hinted, drawn and stroked. */
#include "harness.h"

#include <stdio.h>
#include <string.h>

#include <ft2build.h>
#include FT_FREETYPE_H
#include FT_GLYPH_H
#include FT_MODULE_H
#include FT_OUTLINE_H
#include FT_STROKER_H

const char program_name[] = "freetype";

const char *program_version(void) {
    static char version[24];
    snprintf(version, sizeof version, "%d.%d.%d", FREETYPE_MAJOR, FREETYPE_MINOR, FREETYPE_PATCH);
    return version;
}

static void *take(FT_Memory memory, long n) { return (void)memory, hook_malloc((size_t)n); }
static void give_back(FT_Memory memory, void *p) { (void)memory, hook_free(p); }
static void *change(FT_Memory memory, long had, long n, void *p) { return (void)memory, (void)had, hook_realloc(p, (size_t)n); }

static struct FT_MemoryRec_ memory = {NULL, take, give_back, change};

static void say_bitmap(const FT_Bitmap *bitmap) {
    unsigned sum = 1;
    for (unsigned y = 0; y < bitmap->rows; y++)
        for (unsigned x = 0; x < bitmap->width / (bitmap->pixel_mode == FT_PIXEL_MODE_MONO ? 8u : 1u); x++)
            sum = sum * 31 + bitmap->buffer[(int)y * bitmap->pitch + (int)x];
    say("%u x %u: %08x\n", bitmap->width, bitmap->rows, sum);
}

static bool draw(FT_Face face, unsigned long letter, FT_Int32 flags) {
    if (FT_Load_Char(face, letter, flags) != 0) return false;
    if (face->glyph->format != FT_GLYPH_FORMAT_BITMAP && FT_Render_Glyph(face->glyph, FT_LOAD_TARGET_MODE(flags)) != 0) return false;
    say("%lu at %ld ", letter, face->glyph->advance.x);
    say_bitmap(&face->glyph->bitmap);
    return true;
}

static bool stroke(FT_Library library, FT_Face face, unsigned long letter) {
    FT_Stroker stroker = NULL;
    FT_Glyph glyph = NULL;
    bool all = FT_Load_Char(face, letter, FT_LOAD_NO_BITMAP) == 0 && FT_Get_Glyph(face->glyph, &glyph) == 0 &&
               FT_Stroker_New(library, &stroker) == 0;
    if (all) {
        FT_Stroker_Set(stroker, 96, FT_STROKER_LINECAP_ROUND, FT_STROKER_LINEJOIN_ROUND, 0);
        all = FT_Glyph_StrokeBorder(&glyph, stroker, 0, 1) == 0 && FT_Glyph_To_Bitmap(&glyph, FT_RENDER_MODE_NORMAL, NULL, 1) == 0;
    }
    if (all) say_bitmap(&((FT_BitmapGlyph)glyph)->bitmap);
    FT_Stroker_Done(stroker);
    FT_Done_Glyph(glyph);
    return all;
}

static bool draw_all(FT_Library library, FT_Face face) {
    static const FT_UInt sizes[] = {9, 14, 31, 64, 200};
    bool all = true;
    for (unsigned k = 0; all && k < sizeof sizes / sizeof *sizes; k++) {
        all = FT_Set_Pixel_Sizes(face, 0, sizes[k]) == 0;
        for (unsigned long letter = 33; all && letter < 127; letter++) {
            all = draw(face, letter, FT_LOAD_RENDER) && draw(face, letter, FT_LOAD_NO_HINTING) && draw(face, letter, FT_LOAD_TARGET_MONO);
            if (all && letter % 2 == k % 2) all = stroke(library, face, letter);
        }
    }
    return all;
}

bool program_work(const char *file) {
    FT_Library library = NULL;
    FT_Face faces[3] = {NULL, NULL, NULL};
    if (file == NULL || FT_New_Library(&memory, &library) != 0) return false;
    FT_Add_Default_Modules(library);
    bool all = true;
    for (int k = 0; k < 3; k++) all = all && FT_New_Face(library, file, 0, &faces[k]) == 0 && draw_all(library, faces[k]);
    for (int k = 0; k < 3; k++) FT_Done_Face(faces[k]);
    FT_Done_Library(library);
    return all;
}
