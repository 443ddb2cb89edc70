/* The filter of system calls, which filter/make.c made when confine was built. */
#define _GNU_SOURCE
#include "confine.h"
#include <linux/filter.h>
#include <linux/seccomp.h>
#include <sys/syscall.h>
#include <unistd.h>

#include "filters.inc"

int load_filter(bool has_doors)
{
    const struct sock_fprog filter = has_doors
        ? (struct sock_fprog){sizeof WITH_DOORS / sizeof *WITH_DOORS, (struct sock_filter *)WITH_DOORS}
        : (struct sock_fprog){sizeof WITHOUT_DOORS / sizeof *WITHOUT_DOORS, (struct sock_filter *)WITHOUT_DOORS};
    return (int)syscall(SYS_seccomp, SECCOMP_SET_MODE_FILTER, SECCOMP_FILTER_FLAG_NEW_LISTENER, &filter);
}
