// The status of a repository's index against its worktree by libgit2, without untracked files. It prints how many paths
// differ.
//
//     libgit2_status FOLDER
#include <git2.h>
#include <stdio.h>

int main(int count, char **words) {
    if (count != 2) {
        fprintf(stderr, "usage: libgit2_status FOLDER\n");
        return 2;
    }
    git_repository *repository = NULL;
    git_status_list *changes = NULL;
    git_status_options options = GIT_STATUS_OPTIONS_INIT;
    options.show = GIT_STATUS_SHOW_WORKDIR_ONLY;
    options.flags = 0;
    git_libgit2_init();
    if (git_repository_open(&repository, words[1]) != 0 || git_status_list_new(&changes, repository, &options) != 0) {
        fprintf(stderr, "refused: %s\n", git_error_last()->message);
        return 1;
    }
    printf("%zu\n", git_status_list_entrycount(changes));
    git_status_list_free(changes);
    git_repository_free(repository);
    git_libgit2_shutdown();
    return 0;
}
