// The least that a status has to do: calls lstat on each path below a folder, and does nothing else. The paths are in a
// file, each ended by a zero byte.
//
//     lstat_loop FOLDER PATHS
#include <stdio.h>
#include <stdlib.h>
#include <string.h>
#include <sys/stat.h>
#include <unistd.h>

int main(int count, char **words) {
    if (count != 3) {
        fprintf(stderr, "usage: lstat_loop FOLDER PATHS\n");
        return 2;
    }
    FILE *file = fopen(words[2], "rb");
    if (file == NULL || fseek(file, 0, SEEK_END) != 0) {
        perror(words[2]);
        return 1;
    }
    long size = ftell(file);
    rewind(file);
    char *paths = malloc(size + 1);
    if (paths == NULL || fread(paths, 1, size, file) != (size_t)size) {
        perror(words[2]);
        return 1;
    }
    fclose(file);
    if (chdir(words[1]) != 0) {
        perror(words[1]);
        return 1;
    }
    long found = 0;
    struct stat node;
    for (char *path = paths; path < paths + size; path += strlen(path) + 1) {
        found += lstat(path, &node) == 0;
    }
    printf("%ld\n", found);
    free(paths);
    return 0;
}
