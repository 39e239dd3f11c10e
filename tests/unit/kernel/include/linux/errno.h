/* Stands in the way of the system's file of this name, so it has the numbers itself. */
#ifndef TESTS_KERNEL_ERRNO_H
#define TESTS_KERNEL_ERRNO_H
#define EINVAL 22
#define ENOSPC 28
#endif
