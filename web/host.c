/*
 * What the proved programs ask of a C library, for WebAssembly: tools/wasm compiles this file and links it with them. It stands for the kit's own C
 * functions there, and no proof covers it. C's read and write and the words of the command line stay the page's (web/knot.mjs). Memory is never given
 * back: a program runs once.
 */
typedef unsigned long long wide;

/* As the kit's libc::types::Tried, each part in the eight bytes that it has there. */
struct tried {
    wide ok, place;
};

#define PAGE 65536u

extern unsigned char __heap_base;
static unsigned top, last;
static int error;

long long rattle_arg(wide number, unsigned char *to, wide room);

static struct tried reached(unsigned place, wide size)
{
    struct tried no = {0, 0};
    wide end = place + size, whole = (wide)__builtin_wasm_memory_size(0) * PAGE;
    if (end > 0xFFFF0000u) return no;
    if (end > whole && __builtin_wasm_memory_grow(0, (end - whole + PAGE - 1) / PAGE) == (unsigned long)-1) return no;
    last = place;
    top = end;
    struct tried yes = {1, place};
    return yes;
}

struct tried rattle_alloc(wide size, wide align)
{
    if (!top) top = (unsigned)(unsigned long)&__heap_base;
    if (align < 16) align = 16;
    return reached((top + (unsigned)align - 1) & ~((unsigned)align - 1), size);
}

struct tried rattle_realloc(unsigned char *place, wide kept, wide size, wide align)
{
    if (last && (unsigned)(unsigned long)place == last) return reached(last, size);
    struct tried made = rattle_alloc(size, align);
    if (made.ok)
        for (wide k = 0; k < kept && k < size; k++) ((unsigned char *)(unsigned long)made.place)[k] = place[k];
    return made;
}

void rattle_dealloc(unsigned char *place)
{
    (void)place;
}

int rattle_errno(void)
{
    return error;
}

void rattle_set_errno(int number)
{
    error = number;
}

wide rattle_arg_count(void)
{
    wide count = 0;
    unsigned char none[1];
    while (rattle_arg(count, none, 0) != -1) count++;
    return count;
}

/* There are no signals, nothing to seek in, and no text of an error. */
wide __sysv_signal(int number, wide handler)
{
    (void)number, (void)handler;
    return 0;
}

long long lseek(int file, long long offset, int whence)
{
    (void)file, (void)offset, (void)whence;
    error = 29;
    return -1;
}

int __xpg_strerror_r(int number, char *to, wide room)
{
    (void)number;
    if (room) *to = 0;
    return 0;
}
