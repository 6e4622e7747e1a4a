/* libpng: png_create_write_struct_2 and png_create_read_struct_2, whose hooks have a context. Pictures are written and read again,
 * row by row. zlib takes its memory through libpng. */
#include "harness.h"

#include <png.h>
#include <string.h>

const char program_name[] = "libpng";

const char *program_version(void) { return PNG_LIBPNG_VER_STRING; }

enum { MOST_SIDE = 400, MOST_FILE = 1 << 20, PICTURES = 24 };

/* A file in memory. */
static struct {
    unsigned char bytes[MOST_FILE];
    size_t length, at;
} picture;

static png_voidp take(png_structp png, png_alloc_size_t n) {
    (void)png;
    return hook_malloc(n);
}

static void give(png_structp png, png_voidp p) {
    (void)png;
    hook_free(p);
}

static void put(png_structp png, png_bytep bytes, size_t n) {
    if (n > MOST_FILE - picture.length) png_error(png, "too long");
    memcpy(picture.bytes + picture.length, bytes, n);
    picture.length += n;
}

static void flush(png_structp png) { (void)png; }

static void get(png_structp png, png_bytep bytes, size_t n) {
    if (n > picture.length - picture.at) png_error(png, "too short");
    memcpy(bytes, picture.bytes + picture.at, n);
    picture.at += n;
}

static void say_nothing(png_structp png, png_const_charp text) { (void)png, (void)text; }

static void fail(png_structp png, png_const_charp text) {
    (void)text;
    png_longjmp(png, 1);
}

static unsigned side(unsigned k) { return 20 + k * 37 % (MOST_SIDE - 20); }

static void draw(unsigned char *row, unsigned k, unsigned y) {
    for (unsigned x = 0; x < 4 * side(k); x++) row[x] = (unsigned char)(x % 4 == 3 ? 255 - y / 4 : (x * x / 64 + y * (k + 1)) >> (x % 4));
}

static void write_rows(png_structp png, png_infop info, unsigned k) {
    unsigned char row[4 * MOST_SIDE];
    png_text text = {
        .compression = PNG_TEXT_COMPRESSION_zTXt, .key = (char *)(size_t) "Title", .text = (char *)(size_t) "a picture of a test"};
    png_set_write_fn(png, NULL, put, flush);
    png_set_compression_level(png, (int)(k % 9) + 1);
    png_set_IHDR(png, info, side(k), side(k), 8, PNG_COLOR_TYPE_RGBA, PNG_INTERLACE_NONE, PNG_COMPRESSION_TYPE_DEFAULT,
                 PNG_FILTER_TYPE_DEFAULT);
    png_set_text(png, info, &text, 1);
    png_write_info(png, info);
    for (unsigned y = 0; y < side(k); y++) {
        draw(row, k, y);
        png_write_row(png, row);
    }
    png_write_end(png, info);
}

/* The program's own jump leads back here where memory is refused. */
static bool write_picture(unsigned k) {
    png_structp png = png_create_write_struct_2(PNG_LIBPNG_VER_STRING, NULL, fail, say_nothing, NULL, take, give);
    png_infop info = png != NULL ? png_create_info_struct(png) : NULL;
    volatile bool all = false;
    picture.length = picture.at = 0;
    if (info != NULL && setjmp(png_jmpbuf(png)) == 0) {
        write_rows(png, info, k);
        all = true;
    }
    png_destroy_write_struct(&png, &info);
    return all;
}

static void read_rows(png_structp png, png_infop info) {
    unsigned char row[4 * MOST_SIDE];
    png_textp text = NULL;
    png_set_read_fn(png, NULL, get);
    png_read_info(png, info);
    const unsigned width = png_get_image_width(png, info), height = png_get_image_height(png, info);
    for (unsigned y = 0; y < height; y++) {
        png_read_row(png, row, NULL);
        if (y % 16 == 0) say_bytes(row, 4 * (size_t)width);
    }
    png_read_end(png, info);
    if (png_get_text(png, info, &text, NULL) > 0) say("%u %u %s\n", width, height, text->text);
}

static bool read_picture(void) {
    png_structp png = png_create_read_struct_2(PNG_LIBPNG_VER_STRING, NULL, fail, say_nothing, NULL, take, give);
    png_infop info = png != NULL ? png_create_info_struct(png) : NULL;
    volatile bool all = false;
    if (info != NULL && setjmp(png_jmpbuf(png)) == 0) {
        read_rows(png, info);
        all = true;
    }
    png_destroy_read_struct(&png, &info, NULL);
    return all;
}

bool program_work(const char *file) {
    (void)file;
    bool all = true;
    for (unsigned k = 0; k < PICTURES; k++) all &= write_picture(k) && read_picture();
    return all;
}
