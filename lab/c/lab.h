/* lab.h - monitor code in C, played in every order under ten kinds of monitor. A student's file and the check of its
 * exercise are built with lab.c. A call returns when the driver has made it and the kernel has let this program go on.
 * The code between two calls runs at once. */
#ifndef LAB_H
#define LAB_H

#include <stdbool.h>

typedef bool (*lab_test)(void);
typedef void (*lab_work)(int number);

/* For students. The test is for the automatic kinds, which have no signals; 0 is none. */
#define lab_enter() lab_call("enter", "", 0, __FILE__, __LINE__)
#define lab_leave() lab_call("leave", "", 0, __FILE__, __LINE__)
#define lab_wait(on, until) lab_call("wait", on, until, __FILE__, __LINE__)
#define lab_signal(on) lab_call("signal", on, 0, __FILE__, __LINE__)
#define lab_signal_all(on) lab_call("signal_all", on, 0, __FILE__, __LINE__)

/* For who teaches: lab_scene makes a scene by the other calls. All data are fresh in each run, global ones too. A
 * program runs its work with its number. The data that are named are shown, and may be changed inside alone. */
void lab_scene(int count, char **words);
void lab_program(const char *name, lab_work work, int number);
void lab_int(const char *name, const int *guarded);
void lab_invariant(lab_test test);
void lab_end(lab_test test);
void lab_may_wait(const char *name);
/* What this program does as soon as it is inside next, after its next call to enter. */
void lab_once_inside(void (*then)(void));

void lab_call(const char *verb, const char *on, lab_test until, const char *file, int line);
/* The name of the condition at that address: the words by which it was first called. */
const char *lab_name(const void *condition, const char *words);

#endif
