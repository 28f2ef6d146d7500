/* The places in the program from which its calls come. Part of libmonk_log.c. A place has the same number whenever a
   call comes from there, and no lock is needed to ask for it. In C a call comes from the address to which it returns.
   In C++ that may be a function of C++'s library, or of its headers: then its caller is meant, or the caller's
   caller. A frame ends at the same distance at each call from the same place. So a frame is unwound once, and later
   its end is known. What belongs to C++'s library is found out when the program starts: later nothing here asks the
   loader, which may hold a lock of its own. */
#ifndef MONK_SITES_H
#define MONK_SITES_H

#include <dlfcn.h>
#include <elf.h>
#include <fcntl.h>
#include <link.h>
#include <sys/stat.h>
#include <unistd.h>
#include <unwind.h>

#include "monk_memory.h"

enum {
    SITE_BITS = 13,
    SITES = 1 << SITE_BITS, /* more than most programs have; later ones have no number */
    PROBES = 64,
    LAST = 1,               /* in place of a step: no further caller is asked for */
    MOST_FRAMES = 16,
    LARGEST_FRAME = 1 << 16,
    RANGES_AT_ONCE = 1 << 14
};

/* A place: the address to which a call returns, and how far above the end of that call's frame its own frame ends,
 * or LAST. */
struct site {
    atomic_uintptr_t address;
    atomic_int step;
};

struct range {
    uintptr_t from, to;
};

/* The number of a place is its index here; 0 means that it has none. */
static struct site sites[SITES];
/* What belongs to C++'s library, and whether there is such a library. */
static struct range *ranges;
static int range_count, is_cpp;

static struct {
    _Unwind_Reason_Code (*backtrace)(_Unwind_Trace_Fn, void *);
    _Unwind_Ptr (*address)(struct _Unwind_Context *);
    _Unwind_Word (*end)(struct _Unwind_Context *);
} unwind;

/* ---- when the program starts */

static void add_range(uintptr_t from, uintptr_t to) {
    if (!ranges)
        ranges = map(RANGES_AT_ONCE * sizeof *ranges);
    if (ranges && range_count < RANGES_AT_ONCE)
        ranges[range_count++] = (struct range){from, to};
}

/* A file in memory, to look at its symbols. */
struct image {
    const char *bytes;
    size_t size;
    uintptr_t bias; /* what is added to an address in the file */
};

static int is_within(const struct image *it, size_t from, size_t size) {
    return from <= it->size && size <= it->size - from;
}

static int begins_with(const char *name, const char *beginning) { return !strncmp(name, beginning, strlen(beginning)); }

/* After the beginnings of names in C++'s library, and the namespaces within it: what locks, as compilers write it.
   (Other functions of the headers, as the one by which a thread begins, may have the program's own put into them.) */
static const char *const beginnings[] = {"_ZNSt", "_ZNKSt", "_ZZNSt", "_ZSt", "3__1", "3_V2", "8__detail"};
static const char *const lockers[] = {
    "5mutex", "12__mutex_base", "9__condvar", "11unique_lock", "10lock_guard", "11scoped_lock", "11timed_mutex",
    "15recursive_mutex", "21recursive_timed_mutex", "18__timed_mutex_impl", "18condition_variable",
    "22condition_variable_any", "4lock", "8try_lock", "11__lock_impl", "15__try_lock_impl",
};

static int is_of_headers(const char *name) {
    if (begins_with(name, "_ZL"))
        return strstr(name, "__gthread_") != 0;
    const char *rest = name;
    for (size_t i = 0; i < sizeof beginnings / sizeof *beginnings; i++)
        rest += begins_with(rest, beginnings[i]) ? strlen(beginnings[i]) : 0;
    for (size_t i = 0; rest > name && i < sizeof lockers / sizeof *lockers; i++)
        if (begins_with(rest, lockers[i]))
            return 1;
    return 0;
}

static void add_functions(const struct image *it, const ElfW(Shdr) *symbols, const ElfW(Shdr) *names) {
    const ElfW(Sym) *symbol = (const void *)(it->bytes + symbols->sh_offset);
    const char *text = it->bytes + names->sh_offset;
    if (!names->sh_size || text[names->sh_size - 1])
        return;
    for (size_t left = symbols->sh_size / sizeof *symbol; left > 0; left--, symbol++) {
        uintptr_t from = it->bias + symbol->st_value;
        int is_function = ELF64_ST_TYPE(symbol->st_info) == STT_FUNC && symbol->st_name < names->sh_size;
        if (is_function && is_of_headers(text + symbol->st_name))
            add_range(from, from + symbol->st_size);
    }
}

static void add_headers(const struct image *it) {
    const ElfW(Ehdr) *head = (const void *)it->bytes;
    if (!is_within(it, 0, sizeof *head) || !is_within(it, head->e_shoff, head->e_shnum * sizeof(ElfW(Shdr))))
        return;
    const ElfW(Shdr) *all = (const void *)(it->bytes + head->e_shoff);
    for (int i = 0; i < head->e_shnum; i++) {
        if (all[i].sh_type != SHT_SYMTAB || all[i].sh_link >= head->e_shnum)
            continue;
        const ElfW(Shdr) *names = &all[all[i].sh_link];
        if (is_within(it, all[i].sh_offset, all[i].sh_size) && is_within(it, names->sh_offset, names->sh_size))
            add_functions(it, &all[i], names);
    }
}

/* What the program and its own libraries have of C++'s headers, as far as their symbols show. */
static int read_object(struct dl_phdr_info *object, size_t unused, void *no_more) {
    struct stat is;
    int file = open(*object->dlpi_name ? object->dlpi_name : "/proc/self/exe", O_RDONLY | O_CLOEXEC);
    (void)unused, (void)no_more;
    if (file < 0)
        return 0;
    if (!fstat(file, &is)) {
        void *bytes = mmap(0, (size_t)is.st_size, PROT_READ, MAP_PRIVATE, file, 0);
        if (bytes != MAP_FAILED) {
            add_headers(&(struct image){bytes, (size_t)is.st_size, object->dlpi_addr});
            munmap(bytes, (size_t)is.st_size);
        }
    }
    close(file);
    return 0;
}

static int look_for_library(struct dl_phdr_info *object, size_t unused, void *no_more) {
    (void)unused, (void)no_more;
    if (!strstr(object->dlpi_name, "/libstdc++.so") && !strstr(object->dlpi_name, "/libc++.so"))
        return 0;
    is_cpp = 1;
    for (int i = 0; i < object->dlpi_phnum; i++) {
        const ElfW(Phdr) *part = &object->dlpi_phdr[i];
        uintptr_t from = object->dlpi_addr + part->p_vaddr;
        if (part->p_type == PT_LOAD)
            add_range(from, from + part->p_memsz);
    }
    return 0;
}

/* If the loader can't describe a frame without a lock, or a frame isn't laid out so, no caller is asked for. */
static void look_for_cpp(void) {
#ifdef __x86_64__
    dl_iterate_phdr(look_for_library, 0);
    if (!is_cpp)
        return;
    dl_iterate_phdr(read_object, 0);
    *(void **)&unwind.backtrace = dlsym(RTLD_DEFAULT, "_Unwind_Backtrace");
    *(void **)&unwind.address = dlsym(RTLD_DEFAULT, "_Unwind_GetIP");
    *(void **)&unwind.end = dlsym(RTLD_DEFAULT, "_Unwind_GetCFA");
    is_cpp = unwind.backtrace && unwind.address && unwind.end && dlsym(RTLD_DEFAULT, "_dl_find_object");
    dlerror();
#endif
}

/* ---- while it runs */

/* A frame that is looked for, from the innermost on. */
struct search {
    uintptr_t address, end;
    int is_found;
    long step;
};

static _Unwind_Reason_Code look_at_frame(struct _Unwind_Context *frame, void *it) {
    struct search *search = it;
    uintptr_t end = unwind.end(frame);
    if (search->is_found) {
        search->step = (long)(end - search->end);
        return _URC_END_OF_STACK;
    }
    search->is_found = unwind.address(frame) == search->address;
    search->end = end;
    return _URC_NO_REASON;
}

static int is_of_library(uintptr_t address) {
    for (int i = 0; i < range_count; i++)
        if (address > ranges[i].from && address <= ranges[i].to)
            return 1;
    return 0;
}

SELDOM static int learn_step(struct site *site) {
    struct search search = {.address = site->address};
    if (is_of_library(search.address))
        unwind.backtrace(look_at_frame, &search);
    int is_sure = search.step > 0 && search.step < LARGEST_FRAME && search.step % (long)sizeof(void *) == 0;
    int step = is_sure ? (int)search.step : LAST;
    atomic_store_explicit(&site->step, step, memory_order_relaxed);
    return step;
}

SELDOM static unsigned meet_site(uintptr_t address, unsigned at) {
    for (int left = PROBES; left > 0; left--, at = (at + 1) % SITES) {
        uintptr_t there = 0;
        if (at && (atomic_compare_exchange_strong(&sites[at].address, &there, address) || there == address))
            return at;
    }
    return 0;
}

static inline unsigned find_site(uintptr_t address) {
    unsigned at = (unsigned)(address * 0x9e3779b97f4a7c15u >> (64 - SITE_BITS)) | 1;
    return atomic_load_explicit(&sites[at].address, memory_order_relaxed) == address ? at : meet_site(address, at);
}

/* The place of the caller that is meant, for a call at place `at` whose frame ends there. */
static unsigned outer_site(unsigned at, const char *end) {
    for (int left = MOST_FRAMES; at && left > 0; left--) {
        int known = atomic_load_explicit(&sites[at].step, memory_order_relaxed);
        int step = known ? known : learn_step(&sites[at]);
        if (step == LAST)
            break;
        end += step;
        at = find_site(*((const uintptr_t *)end - 1));
    }
    return at;
}

static inline unsigned site_of(const void *address, const void *end) {
    unsigned at = find_site((uintptr_t)address);
    return is_cpp ? outer_site(at, end) : at;
}

/* The place from which the function that uses this was called. */
#define CALLER site_of(__builtin_return_address(0), __builtin_dwarf_cfa())

#endif
