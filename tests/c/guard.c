/* The guard of examples/guarded.h really stops whoever goes past the end, and nobody else. */
#include "guarded.h"

#include <signal.h>
#include <stdbool.h>
#include <string.h>
#include <sys/wait.h>
#include <unistd.h>

enum { STOPPED = 7 };

static void stopped(int number)
{
    (void)number;
    _exit(STOPPED);
}

/* Whether a process that touches the byte is stopped. */
static bool is_stopped(volatile uint8_t *byte, bool write)
{
    pid_t child = fork();
    if (child < 0) {
        perror("guard");
        exit(1);
    }
    if (child == 0) {
        signal(SIGSEGV, stopped);
        signal(SIGBUS, stopped);
        uint8_t value = *byte;
        if (write)
            *byte = value;
        _exit(0);
    }
    int status;
    if (waitpid(child, &status, 0) != child || !WIFEXITED(status)) {
        fprintf(stderr, "guard: the process ended in another way\n");
        exit(1);
    }
    return WEXITSTATUS(status) == STOPPED;
}

int main(void)
{
    static const size_t lengths[] = { 1, 7, 8, 48, 120, 128, 4096, 65535, 65536, 65537, 524288 };
    int wrong = 0;
    for (size_t i = 0; i < sizeof lengths / sizeof lengths[0]; i++) {
        size_t len = lengths[i];
        uint8_t *bytes = guarded(len);
        memset(bytes, 1, len);
        bool good = !is_stopped(bytes, true) && !is_stopped(bytes + len - 1, true)
            && is_stopped(bytes + len, false) && is_stopped(bytes + len + 7, false);
        if (!good) {
            printf("the guard after %zu bytes does not work\n", len);
            wrong++;
        }
        unguard(bytes, len);
    }
    printf("%s\n", wrong == 0 ? "the guard works" : "the guard does not work");
    return wrong != 0;
}
