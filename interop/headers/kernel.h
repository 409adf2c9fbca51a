/*
 * What a kernel has and what it defines before it includes guc_live.h: the names
 * of Linux as its x86 headers have them, and the macros that guc_live.h shows.
 */
#ifndef KERNEL_H
#define KERNEL_H

#define barrier() __asm__ volatile("" : : : "memory")
#define mb() __asm__ volatile("mfence" : : : "memory")
#define smp_mb() __asm__ volatile("lock; addl $0, -4(%%rsp)" : : : "memory", "cc")
#define READ_ONCE(x) (*(const volatile __typeof__(x) *)&(x))
#define WRITE_ONCE(x, v) (*(volatile __typeof__(x) *)&(x) = (v))
#define smp_load_acquire(p) \
	__extension__({ __typeof__(*(p)) word_ = READ_ONCE(*(p)); barrier(); word_; })

#define GUC_LOAD_ACQUIRE(p) smp_load_acquire(p)
#define GUC_STORE_WORD(p, v) WRITE_ONCE(*(p), v)
#define GUC_FENCE_RELEASE() smp_mb()
#define GUC_FENCE_FULL() mb()

#endif /* KERNEL_H */
