// Refuses a program one of its allocations, and counts them. Built as a shared library, it is loaded
// before the C library (LD_PRELOAD), so that its malloc and realloc are the ones that are called;
// `check` does both.
//
// Two variables of the environment say what to do:
//   REFUSE_NUMBER  which allocation is refused, counted from 1; 0: none
//   REFUSE_TOLD    the open file (its number) that is told at the end how many there were
//
// Counted are the calls that stand in the program itself, and not those that the C library makes for
// its own needs. What is used of the C library is declared here, so that no header is needed.

typedef __SIZE_TYPE__ size_t;

// ---- of the C library

void *__libc_malloc(size_t size);
void *__libc_calloc(size_t count, size_t size);
void *__libc_realloc(void *block, size_t size);
char *getenv(const char *name);
unsigned long strtoul(const char *text, char **end, int base);
unsigned long getauxval(unsigned long kind);
int dprintf(int file, const char *format, ...);
int *__errno_location(void);

// Which loaded file an address lies in: the file's name and start, and the nearest symbol.
struct place {
    const char *file;
    void *start;
    const char *symbol;
    void *symbol_start;
};
int dladdr(const void *address, struct place *place);

enum { PROGRAM_HEADERS = 3, OUT_OF_MEMORY = 12 };

// ---- what is counted

// Where the program's own file starts.
static void *program;
static unsigned long made, refused;

static void *start_of(const void *address) {
    struct place place;
    return dladdr(address, &place) ? place.start : 0;
}

static unsigned long number_in(const char *name) {
    const char *text = getenv(name);
    return text ? strtoul(text, 0, 10) : 0;
}

__attribute__((constructor)) static void begin(void) {
    refused = number_in("REFUSE_NUMBER");
    program = start_of((const void *)getauxval(PROGRAM_HEADERS));
}

__attribute__((destructor)) static void end(void) {
    int told = (int)number_in("REFUSE_TOLD");
    if (told) {
        dprintf(told, "%lu\n", made);
    }
}

// Whether the allocation that is asked for at this place is the one to refuse.
static int is_refused(const void *caller) {
    if (!program || start_of(caller) != program || ++made != refused) {
        return 0;
    }
    *__errno_location() = OUT_OF_MEMORY;
    return 1;
}

// ---- in place of the C library's

void *malloc(size_t size) {
    return is_refused(__builtin_return_address(0)) ? 0 : __libc_malloc(size);
}

void *calloc(size_t count, size_t size) {
    return is_refused(__builtin_return_address(0)) ? 0 : __libc_calloc(count, size);
}

void *realloc(void *block, size_t size) {
    return is_refused(__builtin_return_address(0)) ? 0 : __libc_realloc(block, size);
}
