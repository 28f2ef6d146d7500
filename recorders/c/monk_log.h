/* For programs whose object is to be judged too. MONK_ACT reports an operation on what a mutex guards. It is called
   while the mutex is held, after the operation, with its code, its argument and its reply, as docs/MONITORS.md has
   them for a buffer, a book, a shop and flags. Without the recorder it does nothing.

       MONK_ACT(&mutex, code, arg, reply);    of that mutex; of a std::mutex: mutex.native_handle()
       MONK_ACT(code, arg, reply);            of the mutex that its thread has locked last */
#ifndef MONK_LOG_H
#define MONK_LOG_H

#ifdef __cplusplus
extern "C" {
#endif

/* Only libmonk_log.so has these, so they are null if it isn't loaded. */
__attribute__((weak)) void monk_log_act(unsigned code, unsigned arg, unsigned long reply);
__attribute__((weak)) void monk_log_act_of(const void *mutex, unsigned code, unsigned arg, unsigned long reply);

#ifdef __cplusplus
}
#endif

#define MONK_ACT_LAST(code, arg, reply)               \
    do {                                              \
        if (monk_log_act)                             \
            monk_log_act((code), (arg), (reply));     \
    } while (0)

#define MONK_ACT_OF(mutex, code, arg, reply)                       \
    do {                                                           \
        if (monk_log_act_of)                                       \
            monk_log_act_of((mutex), (code), (arg), (reply));      \
    } while (0)

/* The fifth word is one of the two above, by how many words were given. */
#define MONK_ACT_FIFTH(first, second, third, fourth, fifth, ...) fifth
#define MONK_ACT(...) MONK_ACT_FIFTH(__VA_ARGS__, MONK_ACT_OF, MONK_ACT_LAST, 0)(__VA_ARGS__)

#endif
