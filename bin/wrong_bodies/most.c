/* The most octets that a program may have allocated at once: the number in the environment's MOST_OCTETS, and no bound without it. A
   program that allocates more ends with status 4. These functions are taken in place of the C library's. */
char *getenv(const char *name);
long atol(const char *text);
void _exit(int status);
unsigned long malloc_usable_size(void *place);
void *__libc_malloc(unsigned long size);
void *__libc_realloc(void *place, unsigned long size);
void __libc_free(void *place);

static long most, allocated;

__attribute__((constructor)) static void bound(void)
{
    const char *number = getenv("MOST_OCTETS");

    most = number ? atol(number) : 0;
}

static void add(long octets)
{
    if (__atomic_add_fetch(&allocated, octets, __ATOMIC_RELAXED) > most && most)
        _exit(4);
}

void *malloc(unsigned long size)
{
    void *place = __libc_malloc(size);

    add((long)malloc_usable_size(place));
    return place;
}

void *realloc(void *place, unsigned long size)
{
    long before = (long)malloc_usable_size(place);
    void *grown = __libc_realloc(place, size);

    if (grown)
        add((long)malloc_usable_size(grown) - before);
    return grown;
}

void free(void *place)
{
    add(-(long)malloc_usable_size(place));
    __libc_free(place);
}
