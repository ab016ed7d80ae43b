/* wide ROUNDS [DEVICE]: a known work on each CPU, of which tools/btrecord/tests/test_wide.py finds each call in examples/wide.btr.

A thread on each CPU reads, writes, opens, wakes the next and naps; then the device is read and written, and four processes, one after the other,
drop root, exec and end. The recording was made in a guest by

  btrecord record sched:sched_switch sched:sched_wakeup sched:sched_wakeup_new sched:sched_migrate_task sched:sched_process_fork \
      sched:sched_process_exec sched:sched_process_exit raw_syscalls:sys_enter raw_syscalls:sys_exit syscalls:sys_enter_openat \
      syscalls:sys_exit_openat syscalls:sys_enter_read syscalls:sys_exit_read syscalls:sys_enter_write 'block:*' irq:irq_handler_entry \
      irq:irq_handler_exit irq:softirq_entry irq:softirq_exit task:task_newtask task:task_rename signal:signal_generate \
      writeback:writeback_start -a --buffer-kb 4096 --seconds 900 -o wide.btr -- ./wide 4 /dev/vdd
*/
#define _GNU_SOURCE
#include <fcntl.h>
#include <pthread.h>
#include <sched.h>
#include <stdio.h>
#include <stdlib.h>
#include <sys/mman.h>
#include <sys/prctl.h>
#include <sys/wait.h>
#include <time.h>
#include <unistd.h>
static int cpus, rounds, pipes[64][2];
static const char *device;
static void pin(int cpu) { cpu_set_t set; CPU_ZERO(&set); CPU_SET(cpu % cpus, &set); sched_setaffinity(0, sizeof set, &set); }
static void nap(long ms) { struct timespec t = {ms / 1000, ms % 1000 * 1000000L}; nanosleep(&t, 0); }
static void *worker(void *which) {
    long me = (long)which;
    char name[16], path[64];
    static char room[64][65536];
    pin(me); snprintf(name, sizeof name, "wide-%ld", me); prctl(PR_SET_NAME, name);
    int zero = open("/dev/zero", O_RDONLY), null = open("/dev/null", O_WRONLY);
    for (int i = 0; i < rounds; i++) {
        read(pipes[me][0], name, 1);                      /* the turn goes round: each CPU wakes the next */
        read(zero, room[me], 100 * (me + 1) + i);
        write(null, room[me], 1000 * (i + 1) + me);
        if (i % 3 == 0) { snprintf(path, sizeof path, "/nonexistent/%ld", me); open(path, O_RDONLY); }
        if (i % 4 == me % 4) read(-1, room[me], me);
        if (i % 5 == 2) nap(1);
        write(pipes[(me + 1) % cpus][1], "x", 1);
    }
    close(zero); close(null);
    return 0;
}
int main(int count, char **words) {
    if (count < 2) return 2;
    rounds = atoi(words[1]);
    device = count > 2 ? words[2] : 0;
    cpus = sysconf(_SC_NPROCESSORS_ONLN) < 64 ? sysconf(_SC_NPROCESSORS_ONLN) : 64;
    prctl(PR_SET_NAME, "wide");
    pthread_t threads[64];
    for (int i = 0; i < cpus; i++) pipe(pipes[i]);
    for (long i = 0; i < cpus; i++) pthread_create(&threads[i], 0, worker, (void *)i);
    for (int i = 0; i < cpus; i += cpus / 4 ? cpus / 4 : 1) write(pipes[i][1], "x", 1);
    for (int i = 0; i < cpus; i++) pthread_join(threads[i], 0);
    if (device) {
        int fd = open(device, O_RDWR | O_DIRECT);
        char *room = mmap(0, 1 << 20, PROT_READ | PROT_WRITE, MAP_PRIVATE | MAP_ANONYMOUS, -1, 0);
        for (int i = 0; i < 24; i++) {
            pin(i);
            if (i % 3) pread(fd, room, 4096L << i % 5, 4096L * i * 7);
            else pwrite(fd, room, 4096L << i % 4, 4096L * i * 5);
        }
        close(fd);
    }
    for (int i = 0; i < 4; i++) {
        if (fork() == 0) {
            pin(i * 3 + 1);
            setgid(100 + i);
            setuid(1000 + i);
            getppid();
            nap(2);
            execl("/bin/true", "true", (char *)0);
            _exit(1);
        }
        wait(0);
    }
    return 0;
}
