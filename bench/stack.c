/* Put before a program by LD_PRELOAD, it tells how much of the stack the process had touched when it ends.
 *
 * The number is that of VmStk in /proc/self/status, in KiB, and is written to the file that STACK_FILE names. It never
 * falls, since the system takes no page of a stack back. A process that a signal ends writes nothing. bench/depth
 * compiles and uses it.
 */
#include <stdio.h>
#include <stdlib.h>

__attribute__((destructor)) static void end(void)
{
    const char *name = getenv("STACK_FILE");
    char line[256];
    long kib = 0;
    FILE *status = fopen("/proc/self/status", "r"), *file = name ? fopen(name, "w") : NULL;
    if (!status || !file)
        return;
    while (fgets(line, sizeof line, status))
        if (sscanf(line, "VmStk: %ld", &kib) == 1)
            break;
    fprintf(file, "%ld\n", kib);
    fclose(file);
    fclose(status);
}
