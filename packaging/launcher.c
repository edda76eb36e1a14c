// Starts the installed program: the one of the two that this processor runs best, with the words that the launcher
// is given. It answers --help (or -h) and --version itself. What it does besides, and why, is said in ../sgm, the
// launcher of a checkout. tests/package.sh tries it.
//
// build_deb.sh sets PROGRAM (the program's name), VERSION_LINE, and HELP (the file whose text is printed).

#include <errno.h>
#include <fcntl.h>
#include <limits.h>
#include <stdio.h>
#include <stdlib.h>
#include <string.h>
#include <unistd.h>

__asm__(".pushsection .rodata\n"
        "help_begin: .incbin \"" HELP "\"\n"
        "help_end:\n"
        ".popsection");
extern const char help_begin[] __asm__("help_begin");
extern const char help_end[] __asm__("help_end");

static const char variable[] = "GLIBC_TUNABLES";
static const char *const settings[] = {"hugetlb=1", "mmap_threshold=1073741824", "top_pad=67108864"};

static int fails(const char *what) {
    fprintf(stderr, PROGRAM ": %s: %s\n", what, strerror(errno));
    return 1;
}

static int print(const char *text, size_t length) {
    return fwrite(text, 1, length, stdout) == length && fflush(stdout) == 0 ? 0 : fails("standard output");
}

// Whether the variable's value has this setting, whose name takes so many letters.
static int is_set(const char *value, const char *setting, size_t letters) {
    char name[64];
    snprintf(name, sizeof name, ":glibc.malloc.%.*s=", (int)letters, setting);
    return strncmp(value, name + 1, strlen(name + 1)) == 0 || strstr(value, name) != NULL;
}

static int ask_for_huge_pages(void) {
    const char *given = getenv(variable);
    if (given == NULL)
        given = "";
    if (is_set(given, "hugetlb", strlen("hugetlb")))
        return 0;
    char *value = malloc(strlen(given) + sizeof settings / sizeof *settings * 64);
    if (value == NULL)
        return -1;
    char *end = stpcpy(value, given);
    for (size_t i = 0; i < sizeof settings / sizeof *settings; i++)
        if (!is_set(given, settings[i], strcspn(settings[i], "=")))
            end += sprintf(end, "%sglibc.malloc.%s", end == value ? "" : ":", settings[i]);
    return setenv(variable, value, 1);
}

// Opens something that nothing can be written to in the place of a standard stream that was closed.
static void hold_open(int stream) {
    if (fcntl(stream, F_GETFD) != -1)
        return;
    int file = open("/dev/null", O_RDONLY);
    if (file != -1 && file != stream) {
        dup2(file, stream);
        close(file);
    }
}

// The program's path: PREFIX/lib/sgm/NAME, where this launcher is PREFIX/bin/NAME.
static void set_path(char *path, size_t size, const char *processor) {
    char prefix[PATH_MAX];
    ssize_t length = readlink("/proc/self/exe", prefix, sizeof prefix - 1);
    prefix[length < 0 ? 0 : length] = '\0';
    for (int i = 0; i < 2; i++) {
        char *slash = strrchr(prefix, '/');
        if (slash != NULL)
            *slash = '\0';
    }
    snprintf(path, size, "%s/lib/sgm/" PROGRAM "-%s", length < 0 ? "/usr" : prefix, processor);
}

int main(int count, char **words) {
    if (count > 1 && (strcmp(words[1], "--help") == 0 || strcmp(words[1], "-h") == 0))
        return print(help_begin, (size_t)(help_end - help_begin));
    if (count > 1 && strcmp(words[1], "--version") == 0)
        return print(VERSION_LINE "\n", sizeof VERSION_LINE);

    if (!__builtin_cpu_supports("x86-64-v2")) {
        fputs(PROGRAM ": this processor lacks what x86-64-v2 has, which the program needs\n", stderr);
        return 1;
    }
    char path[PATH_MAX + 64];
    set_path(path, sizeof path, __builtin_cpu_supports("x86-64-v3") ? "x86-64-v3" : "x86-64-v2");
    if (ask_for_huge_pages() != 0)
        return fails(variable);
    hold_open(STDOUT_FILENO);
    hold_open(STDERR_FILENO);
    execv(path, words);
    return fails(path);
}
