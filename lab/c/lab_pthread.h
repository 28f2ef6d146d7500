/* lab_pthread.h - unchanged code of pthreads in the lab: cc -include lab_pthread.h. A condition has the name of its
 * variable. It has no test, so PIS and NPIS have no such call. */
#ifndef LAB_PTHREAD_H
#define LAB_PTHREAD_H

#include "lab.h"
#include <pthread.h>

#define pthread_mutex_lock(mutex) __extension__({ (void)(mutex); lab_enter(); 0; })
#define pthread_mutex_unlock(mutex) __extension__({ (void)(mutex); lab_leave(); 0; })
#define pthread_cond_wait(condition, mutex) \
    __extension__({ (void)(mutex); lab_wait(lab_name(condition, #condition), 0); 0; })
#define pthread_cond_signal(condition) __extension__({ lab_signal(lab_name(condition, #condition)); 0; })
#define pthread_cond_broadcast(condition) __extension__({ lab_signal_all(lab_name(condition, #condition)); 0; })

#endif
