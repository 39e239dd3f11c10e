/* What Linux's decoder of InfoFrames asks of the kernel, so that it can be compiled for the tests alone. */
#ifndef TESTS_KERNEL_TYPES_H
#define TESTS_KERNEL_TYPES_H
#include <linux/errno.h>
#include <stdbool.h>
#include <stdint.h>
#include <stdio.h>
#include <string.h>
#include <sys/types.h>

typedef uint8_t u8, __u8;
typedef uint16_t u16, __u16;
typedef uint32_t u32, __u32;
struct device;

#define BIT(n) (1u << (n))
#define WARN(condition, ...) (condition)
#define EXPORT_SYMBOL(name) extern int tests_kernel_unused
#define dev_printk(level, dev, ...) ((void)(level), (void)(dev), printf(__VA_ARGS__))
#define min(a, b) ((a) < (b) ? (a) : (b))
#endif
