/*
 * Runs tidy on many inputs in one process: DIR/0.screen with DIR/0.csv, and so on up to COUNT, with other options each
 * time. tidy's own main is compiled as tidy_main. Writes to DIR/last which input it is at, to DIR/statuses how often
 * each exit status was given; fails on one that no input should give.
 */
#undef main

#include <stdio.h>
#include <stdlib.h>

int tidy_main(int argc, char **argv);

static int run(const char *folder, int number)
{
    static char *const OPTIONS[] = {"--color=always", "--json", "--only", "--html=/dev/null", "--row",
                                    "--color=never", "--save=/dev/null", "--html=/dev/null"};
    char screen[4096], chain[4096];
    char *words[5] = {"tidy", OPTIONS[number % 8], screen, chain, NULL};
    int count = number % 3 == 0 ? 3 : 4;
    snprintf(screen, sizeof screen, "%s/%d.screen", folder, number);
    snprintf(chain, sizeof chain, "%s/%d.csv", folder, number);
    words[count] = NULL;
    return tidy_main(count, words);
}

static FILE *opened(const char *folder, const char *name)
{
    char path[4096];
    snprintf(path, sizeof path, "%s/%s", folder, name);
    FILE *file = fopen(path, "w");
    if (file == NULL)
        exit(99);
    return file;
}

int main(int argc, char **argv)
{
    int statuses[4] = {0, 0, 0, 0}, count = argc == 3 ? atoi(argv[2]) : 0;
    FILE *last = argc == 3 ? opened(argv[1], "last") : NULL;
    for (int i = 0; i < count; i++) {
        rewind(last);
        fprintf(last, "%d\n", i);
        fflush(last);
        int status = run(argv[1], i);
        if (status < 0 || status > 3 || status == 2)
            return 98;
        statuses[status]++;
    }
    if (last == NULL)
        return 99;
    fclose(last);
    FILE *file = opened(argv[1], "statuses");
    fprintf(file, "%d %d %d\n", statuses[0], statuses[1], statuses[3]);
    fclose(file);
    return 0;
}
