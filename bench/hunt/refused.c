/* An allocator to preload into a test program. It makes each allocation in turn fail, in a child process that is forked at this point and
 * runs to its end. A realloc that fails leaves its block unchanged. The program itself continues without failed allocations. It may have
 * only one thread, and no file or socket that a child would share. Environment variables:
 *
 * STEP: one in STEP allocations fails; 1 means each.
 * JOBS: the maximum number of children at a time.
 * REPORT: a file. It gets a line for each child that fails, is killed or takes over 60 seconds, and at the end the numbers of allocations,
 *     of children, and of children that failed.
 * LASTING: if set, all later allocations of a child also fail.
 * AT: if STEP isn't set, the number of the only allocation of the program itself that fails. The program is killed after 60 seconds.
 */
#include <errno.h>
#include <fcntl.h>
#include <stdio.h>
#include <stdlib.h>
#include <sys/wait.h>
#include <unistd.h>

extern void *__libc_malloc(size_t size);
extern void *__libc_realloc(void *block, size_t size);

#define MOST_JOBS 64

static struct {
    pid_t child;
    unsigned long number;
} running[MOST_JOBS];

static unsigned long step, alone, jobs, asked, children, failed, at_work;
static int report = -1, is_lasting, is_out_of_memory;

static unsigned long number_of(const char *name)
{
    const char *text = getenv(name);
    return text ? strtoul(text, NULL, 10) : 0;
}

/* Waits for a child, and reports it if it failed. */
static void await(void)
{
    int status;
    pid_t child = wait(&status);
    for (int slot = 0; slot < MOST_JOBS; slot++) {
        if (child <= 0 || running[slot].child != child)
            continue;
        running[slot].child = 0;
        at_work--;
        if (status != 0) {
            failed++;
            dprintf(report, "allocation %lu: status %#x\n", running[slot].number, status);
        }
    }
}

__attribute__((constructor)) static void begin(void)
{
    step = number_of("STEP");
    alone = number_of("AT");
    if (alone)
        alarm(60);
    is_lasting = getenv("LASTING") != NULL;
    jobs = number_of("JOBS");
    if (jobs < 1 || jobs > MOST_JOBS)
        jobs = 1;
    report = step ? open(getenv("REPORT"), O_WRONLY | O_CREAT | O_TRUNC | O_CLOEXEC, 0600) : -1;
    asked = 0;
}

__attribute__((destructor)) static void end(void)
{
    if (report < 0)
        return;
    while (at_work > 0)
        await();
    dprintf(report, "%lu %lu %lu\n", asked, children, failed);
}

/* Returns whether this allocation fails. It fails only in a child, or in the program if it has the number AT. */
static int is_refused(void)
{
    if (is_out_of_memory || (report < 0 && ++asked == alone)) {
        errno = ENOMEM;
        return 1;
    }
    if (report < 0 || asked++ % step != 0)
        return 0;
    while (at_work >= jobs)
        await();
    pid_t child = fork();
    if (child == 0) {
        close(report);
        report = -1;
        int nowhere = open("/dev/null", O_WRONLY);
        dup2(nowhere, 1);
        dup2(nowhere, 2);
        alarm(60);
        is_out_of_memory = is_lasting;
        errno = ENOMEM;
        return 1;
    }
    if (child < 0)
        abort();
    children++;
    at_work++;
    for (int slot = 0; slot < MOST_JOBS; slot++) {
        if (running[slot].child == 0) {
            running[slot].child = child;
            running[slot].number = asked;
            break;
        }
    }
    return 0;
}

void *malloc(size_t size)
{
    return is_refused() ? NULL : __libc_malloc(size);
}

void *realloc(void *block, size_t size)
{
    return is_refused() ? NULL : __libc_realloc(block, size);
}
