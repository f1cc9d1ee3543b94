/* The first process: it shows what a kernel does for processes, and then does what is typed. */
#define _GNU_SOURCE
#include <dirent.h>
#include <setjmp.h>
#include <signal.h>
#include <stdint.h>
#include <stdio.h>
#include <stdlib.h>
#include <string.h>
#include <sys/mman.h>
#include <sys/mount.h>
#include <sys/reboot.h>
#include <sys/resource.h>
#include <sys/stat.h>
#include <sys/utsname.h>
#include <sys/wait.h>
#include <unistd.h>

enum { PAGE = 4096 };

static long page_faults(void)
{
    struct rusage usage;
    getrusage(RUSAGE_SELF, &usage);
    return usage.ru_minflt;
}

static char *absent_pages(int count)
{
    return mmap(NULL, count * PAGE, PROT_READ | PROT_WRITE, MAP_PRIVATE | MAP_ANONYMOUS, -1, 0);
}

static void print_file(const char *name)
{
    char line[256];
    FILE *file = fopen(name, "r");
    if (!file) {
        printf("%s: there is no such file\n", name);
        return;
    }
    while (fgets(line, sizeof line, file))
        fputs(line, stdout);
    fclose(file);
}

static void show_system(void)
{
    struct utsname name;
    uname(&name);
    printf("%s %s on %s\n", name.sysname, name.release, name.machine);
    print_file("/proc/hardware");
}

static void show_fork(void)
{
    static volatile int number = 1;
    int status;
    pid_t child = fork();
    if (child == 0) {
        number = 2;
        _exit(40 + number);
    }
    waitpid(child, &status, 0);
    printf("fork: the child had %d, the parent has %d\n", WEXITSTATUS(status) - 40, number);
}

static void show_demand(void)
{
    enum { COUNT = 100 };
    volatile char *pages = absent_pages(COUNT);
    long before = page_faults();
    for (int i = 0; i < COUNT; i++)
        pages[i * PAGE] = i;
    printf("demand: %ld page faults at the first touch of %d pages\n", page_faults() - before, COUNT);
}

/* The writes that an access error leaves undone are the kernel's to complete. */
static void show_borders(void)
{
    int right = 0, tried = 0;
    for (int before = 1; before < 4; before++) {
        char *pages = absent_pages(2);
        *(volatile uint32_t *)(pages + PAGE - before) = 0x01020304;
        right += memcmp(pages + PAGE - before, "\1\2\3\4", 4) == 0;
        tried++;
    }
    for (int before = 1; before < 32; before++) {
        char *pages = absent_pages(2);
        uint32_t sum = 0;
        register char *at __asm__("a0") = pages + PAGE - before;
        __asm__ volatile("moveq #1,%%d0; moveq #2,%%d1; moveq #3,%%d2; moveq #4,%%d3\n\tmovem.l %%d0-%%d3,(%0)"
                         : : "a"(at) : "d0", "d1", "d2", "d3", "memory");
        for (int i = 0; i < 4; i++) {
            uint32_t number;
            memcpy(&number, pages + PAGE - before + 4 * i, 4);
            sum = 10 * sum + number;
        }
        right += sum == 1234;
        tried++;
    }
    printf("borders: %d of %d stores over the border of absent pages are right\n", right, tried);
}

static sigjmp_buf back;

static void refused(int signal)
{
    siglongjmp(back, signal);
}

static void show_signal(void)
{
    signal(SIGSEGV, refused);
    int number = sigsetjmp(back, 1);
    if (number == 0)
        *(volatile int *)0 = 1;
    printf("signal: %s\n", strsignal(number));
}

/* There is no floating point in the processor: the kernel does it. */
static void show_floating(void)
{
    volatile double root = 1;
    for (int i = 0; i < 6; i++)
        root = (root + 2 / root) / 2;
    printf("floating point: the root of 2 is %.15f\n", root);
}

static void show_disk(void)
{
    unsigned count = 0;
    mkdir("/disk", 0755);
    if (mount("/dev/disk", "/disk", "ext2", 0, NULL)) {
        puts("disk: there is none");
        return;
    }
    FILE *file = fopen("/disk/count", "r");
    if (file) {
        if (fscanf(file, "%u", &count) != 1)
            count = 0;
        fclose(file);
    }
    file = fopen("/disk/count", "w");
    if (file) {
        fprintf(file, "%u\n", ++count);
        fclose(file);
    }
    umount("/disk");
    printf("disk: it was mounted for the %u. time\n", count);
}

static void list_processes(void)
{
    struct dirent *entry;
    DIR *folder = opendir("/proc");
    while (folder && (entry = readdir(folder))) {
        char name[300], command[64] = "";
        snprintf(name, sizeof name, "/proc/%s/comm", entry->d_name);
        FILE *file = atoi(entry->d_name) ? fopen(name, "r") : NULL;
        if (file && fgets(command, sizeof command, file))
            printf("%5s %s", entry->d_name, command);
        if (file)
            fclose(file);
    }
    if (folder)
        closedir(folder);
}

static int obey(char *line)
{
    line[strcspn(line, "\n")] = 0;
    if (strcmp(line, "off") == 0)
        return 0;
    if (strcmp(line, "help") == 0)
        puts("cat NAME, list, off; any other line is only printed again");
    else if (strcmp(line, "list") == 0)
        list_processes();
    else if (strncmp(line, "cat ", 4) == 0)
        print_file(line + 4);
    else
        printf("you typed: %s\n", line);
    return 1;
}

int main(void)
{
    char line[128];
    mkdir("/proc", 0755);
    mount("proc", "/proc", "proc", 0, NULL);
    mount("devtmpfs", "/dev", "devtmpfs", 0, NULL);
    show_system();
    show_fork();
    show_demand();
    show_borders();
    show_signal();
    show_floating();
    show_disk();
    puts("Type help for the commands.");
    do {
        fputs("> ", stdout);
        fflush(stdout);
    } while (fgets(line, sizeof line, stdin) && obey(line));
    sync();
    mount(NULL, "/", NULL, MS_REMOUNT | MS_RDONLY, NULL);
    reboot(RB_POWER_OFF);
    return 1;
}
