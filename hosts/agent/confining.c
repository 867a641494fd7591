/* What keeps the secrets in this process, and the process to the calls that it needs. */
#include "host.h"

#include <linux/audit.h>
#include <linux/filter.h>
#include <linux/seccomp.h>
#include <malloc.h>
#include <stddef.h>
#include <sys/mman.h>
#include <sys/prctl.h>
#include <sys/resource.h>
#include <sys/syscall.h>

enum { DEEP = 131072 };

/* A build for tests may be looked at, and has no filter. */
#ifndef FOR_TESTS
#define FOR_TESTS 0
#endif

/* Overwrites the stack below, where calls left what they worked with; and locks it, where the limit lets it. */
__attribute__((noinline)) void wipe_stack(bool locks) {
    unsigned char deep[DEEP];
    explicit_bzero(deep, sizeof deep);
    if (locks)
        (void)mlock(deep, sizeof deep);
}

/* Locks what the heap has grown by, where the limit lets it: keys and small messages are there. */
void lock_heap(uintptr_t *until) {
    uintptr_t end = (uintptr_t)sbrk(0);
    if (end > *until)
        (void)mlock((void *)*until, end - *until);
    *until = end;
}

/* No core file, no reading by others, and a heap that doesn't shrink, so that it stays locked; and the files that clients need. */
bool keep_to_itself(size_t fewest, size_t *files) {
    struct rlimit limit;
    if (setrlimit(RLIMIT_CORE, &(struct rlimit){0, 0}) != 0 || getrlimit(RLIMIT_NOFILE, &limit) != 0)
        return false;
    *files = limit.rlim_cur = limit.rlim_max;
    wipe_stack(true);
    (void)mallopt(M_TRIM_THRESHOLD, INT_MAX);
    errno = EMFILE;
    return *files >= fewest && setrlimit(RLIMIT_NOFILE, &limit) == 0 && (FOR_TESTS || prctl(PR_SET_DUMPABLE, 0, 0, 0, 0) == 0);
}

/* ---- the filter, in the kernel's own words: a list of calls by number, and the process ends at any other */

#define LOAD(field) BPF_STMT(BPF_LD | BPF_W | BPF_ABS, offsetof(struct seccomp_data, field))
#define ALLOW(call) BPF_JUMP(BPF_JMP | BPF_JEQ | BPF_K, __NR_##call, 0, 1), BPF_STMT(BPF_RET | BPF_K, SECCOMP_RET_ALLOW)
#define KILL BPF_STMT(BPF_RET | BPF_K, SECCOMP_RET_KILL_PROCESS)

bool filter_calls(void) {
    struct sock_filter list[] = {
        LOAD(arch), BPF_JUMP(BPF_JMP | BPF_JEQ | BPF_K, AUDIT_ARCH_X86_64, 1, 0), KILL, LOAD(nr),
        ALLOW(poll), ALLOW(recvfrom), ALLOW(sendto), ALLOW(accept4), ALLOW(getsockopt), ALLOW(close), ALLOW(clock_gettime),
        ALLOW(geteuid), ALLOW(getpid), ALLOW(getrandom), ALLOW(futex), ALLOW(brk), ALLOW(munmap), ALLOW(mremap), ALLOW(mlock),
        ALLOW(madvise), ALLOW(restart_syscall), ALLOW(rt_sigreturn), ALLOW(exit_group),
        /* New memory, but none that is run. */
        BPF_JUMP(BPF_JMP | BPF_JEQ | BPF_K, __NR_mmap, 0, 3), LOAD(args[2]),
        BPF_JUMP(BPF_JMP | BPF_JSET | BPF_K, PROT_EXEC, 1, 0), BPF_STMT(BPF_RET | BPF_K, SECCOMP_RET_ALLOW), KILL,
    };
    const struct sock_fprog program = {sizeof list / sizeof list[0], list};
    return FOR_TESTS || (prctl(PR_SET_NO_NEW_PRIVS, 1, 0, 0, 0) == 0 &&
                          syscall(SYS_seccomp, SECCOMP_SET_MODE_FILTER, 0, &program) == 0);
}
