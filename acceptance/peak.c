/* Stands before the C library for acceptance/room. As the program ends by _exit, it prints on
   standard error the most address space that it ever had, as Linux counts it: "VmPeak: N kB". */

#include <fcntl.h>
#include <string.h>
#include <sys/syscall.h>
#include <unistd.h>

static void print_peak(void)
{
    char text[2048];
    int file = open("/proc/self/status", O_RDONLY);
    ssize_t length = file < 0 ? 0 : read(file, text, sizeof text - 1);
    text[length < 0 ? 0 : length] = 0;
    char *line = strstr(text, "VmPeak:");
    char *end = line ? strchr(line, '\n') : 0;
    if (end && write(2, line, (size_t)(end + 1 - line)) < 0)
        return;
}

void _exit(int status)
{
    print_peak();
    for (;;)
        syscall(SYS_exit_group, status);
}
