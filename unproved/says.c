/* What unproved/build links into the program: wherever it serves, its first line says that nothing was proved, and it
 * does not start as a service, whose unit sets MURMUR_UNPROVED=refused. The tests, which compare lines, set it to known,
 * and say themselves that the program is not proved. */

/* the kit's toolchain has the C library without its headers */
typedef unsigned long size_t;
extern char *getenv(const char *);
extern int strcmp(const char *, const char *);
extern size_t strlen(const char *);
extern long write(int, const void *, size_t);
extern void _exit(int) __attribute__((noreturn));

static void say(const char *line) {
    if (write(2, line, strlen(line)) < 0) {
        return;
    }
}

__attribute__((constructor)) static void says_that_it_is_unproved(int count, char **words, char **environment) {
    const char *wish = getenv("MURMUR_UNPROVED");
    (void)environment;
    if (count < 2 || strcmp(words[1], "serve") != 0 || (wish && strcmp(wish, "known") == 0)) {
        return;
    }
    say("murmur-unproved: NOT PROVED. It was built without proofs, for a look and not for service.\n");
    if (wish && strcmp(wish, "refused") == 0) {
        say("murmur-unproved: refused: a service takes a program that is proved\n");
        _exit(1);
    }
}
