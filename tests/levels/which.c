/* Prints the file of the shared library that the loader took, and what a block shows by it: named maps|told, or opened maps|told LIBRARY
 * `maps` looks for the file in /proc/self/maps; `told` asks the loader, for an emulator, which cannot read that file.
 * `named` asks for the shared library by its name; `opened`, which is compiled with OPENED, opens LIBRARY by its path, as Python does. */
#include "knotpasture.h"

int open(const char *path, int flags, ...);
long read(int file, void *bytes, size_t count);
int printf(const char *format, ...);
char *strstr(const char *text, const char *part);
char *strchr(const char *text, int sign);
void *dlopen(const char *path, int flags);
void *dlsym(void *library, const char *name);

struct place {
    const char *file;
    void *base;
    const char *name;
    void *address;
};
int dladdr(const void *address, struct place *place);

typedef uint32_t (*block_pixels)(const uint8_t *, size_t, uint8_t, uint16_t *, size_t);

static char maps[1 << 16];

static const char *mapped(void)
{
    int file = open("/proc/self/maps", 0);
    size_t have = 0;
    for (long got = 1; got > 0 && have < sizeof maps - 1; have += got > 0 ? (size_t)got : 0) got = read(file, maps + have, sizeof maps - 1 - have);
    char *name = strstr(maps, "libknotpasture.so");
    if (!name) return "nowhere";
    while (*name != ' ') name--;
    *strchr(name, '\n') = 0;
    return name + 1;
}

static const char *told(block_pixels pixels)
{
    struct place place;
    return dladdr((const void *)(uintptr_t)pixels, &place) ? place.file : "nowhere";
}

static block_pixels found(char **words)
{
#ifdef OPENED
    void *library = dlopen(words[2], 2 /* RTLD_NOW */);
    return library ? (block_pixels)(uintptr_t)dlsym(library, "knot_block_pixels") : 0;
#else
    (void)words;
    return knot_block_pixels;
#endif
}

int main(int count, char **words)
{
    if (count < 2) return 2;
    block_pixels pixels = found(words);
    if (!pixels) return 3;
    uint8_t block[KNOT_BLOCK_SIZE] = {0xE3, 0xFF, 0xFF, 0x7F};
    uint16_t values[KNOT_VALUES];
    uint32_t word = pixels(block, sizeof block, KNOT_UNSIGNED, values, KNOT_VALUES);
    printf("%s mode %u red %X\n", words[1][0] == 'm' ? mapped() : told(pixels), KNOT_MODE(word), values[0]);
    return 0;
}
