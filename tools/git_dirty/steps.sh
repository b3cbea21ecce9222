# The shell functions of rows.txt. $top and $room are the worktree and the folder around it, $then is a second long ago, $v is
# a row's value, and $dirty is the program.

# Writes files with the text foo, and stages them.
add() {
  for name; do
    mkdir -p -- "$(dirname -- "$name")"
    printf foo >"$name"
  done
  git add -- "$@"
}

# Writes a text to files: put TEXT NAME...
put() {
  for name in "${@:2}"; do
    mkdir -p -- "$(dirname -- "$name")"
    printf %s "$1" >"$name"
  done
}

# Gives files and links this time.
at() { touch -h -d "@$1" -- "${@:2}"; }

# Gives tracked files times long ago, so that no entry is racy, and stores their stats.
settle() {
  git ls-files -z | xargs -0 touch -h -d "@$then" --
  git update-index -q --refresh || true
}

# Gives files other times than those in the index.
touched() { at "$((then + 7))" "$@"; }

# Stages files and gives them old stats. With core.trustctime git would see each change.
staged() {
  git config core.trustctime false
  git add -- a d/b "$@"
  settle
  touched a d/b "$@"
}

# Stages a blob with this content, as printf has it: entry MODE PATH CONTENT.
entry() { git update-index --add --cacheinfo "$1,$(printf "$3" | git hash-object -w --stdin --no-filters),$2"; }

# Stages stages of a conflict: conflict PATH STAGE... Without a stage the path is removed.
conflict() {
  id=${id:-$(printf foo | git hash-object -w --stdin)}
  printf '0 %s\t%s\0' "$id" "$1" | git update-index -z --index-info
  for stage in "${@:2}"; do printf '%s %s %s\t%s\0' "${mode:-100644}" "$id" "$stage" "$1"; done | git update-index -z --index-info
}

# Prints the pointer that git-lfs stores of a file.
pointer() {
  printf 'version https://git-lfs.github.com/spec/v1\noid sha256:%s\nsize %s\n' "$(sha256sum <"$1" | cut -c1-64)" "$(stat -c %s "$1")"
}

commit() { git "$@" commit -q --allow-empty -m one; }

# Makes repositories with a commit.
module() {
  for name; do
    git init -q "$name"
    commit -C "$name"
  done
}

# Makes submodules that differ.
modules() {
  module "$@"
  git add -- "$@"
  for name; do commit -C "$name"; done
}

# Stages files whose blobs have LF, and which have CRLF in the worktree, without their stats.
lines() {
  git rm -qrf .
  for name in a b d/a d/e/a "$@"; do
    mkdir -p -- "$(dirname -- "$name")"
    entry 100644 "$name" '1\n2\n'
    printf '1\r\n2\r\n' >"$name"
  done
}

# Writes attribute files by the letters of rows: user, top, d, d/e, info. A bar is between two lines.
rules() {
  for name in .git/user .gitattributes d/.gitattributes d/e/.gitattributes .git/info/attributes; do : >"$name"; done
  printf '%s\n' "$1" | tr '|' '\n' | while IFS= read -r line; do
    case $line in
      u*) name=.git/user ;; t*) name=.gitattributes ;; d*) name=d/.gitattributes ;; e*) name=d/e/.gitattributes ;;
      i*) name=.git/info/attributes ;;
    esac
    printf '%s\n' "${line#? }" >>"$name"
  done
}

# Writes the repository's configuration: lines of the section core, as printf has them.
config() { printf "[core]\n\trepositoryformatversion = 0\n$1" >.git/config; }

# Git's status, which writes no index.
status() { git --no-optional-locks status --porcelain -uno; }

socket() { python3 -c 'import socket, sys; socket.socket(socket.AF_UNIX).bind(sys.argv[1])' "$1"; }

# Runs the program, whose exit status has to be this one. Its output is in $room/out and $room/err.
ends() {
  ended=0
  "$dirty" "${@:2}" >"$room/out" 2>"$room/err" || ended=$?
  [ "$ended" = "$1" ] || { cat "$room/out" "$room/err"; echo "exit status $ended"; exit 1; }
}

# What the program printed to its output or to standard error has to be this text, or to match this pattern.
prints() { printf "$1" | cmp - "$room/out"; }
says() { grep -zqP "$1" "$room/err"; }

# The whole output of the program has to match this pattern.
matches() { grep -zqP "\\A$1\\Z" "$room/out" || { cat "$room/out"; exit 1; }; }

# The words of an explanation for a node that isn't a directory, after its kind.
node() { stat -c '%s bytes, mtime %.9Y, ctime %.9Z, inode %i, owner %u, group %g' -- "$1"; }

# Files that have to differ.
differ() { if cmp -s "$1" "$2"; then echo "equal: $1 and $2" && exit 1; fi; }

# Runs the program as `ends` does. It has to leave the index file, and no lock.
unwritten() {
  before=$(stat -c '%i %y %z %a' .git/index && cksum <.git/index)
  ends "$@"
  [ "$(stat -c '%i %y %z %a' .git/index && cksum <.git/index)" = "$before" ] && [ ! -e .git/index.lock ]
}

# Changes the index file as git's commands don't: see steps.py.
index() { python3 "$(dirname "${BASH_SOURCE[0]}")/steps.py" "$@"; }

# Prints the version that the command of docs/GIT_DIRTY.md finds. Its other words are in $room/err.
version() {
  command=$(sed -n '/^if git dirty -q -u; then version=/p' "$(dirname "${BASH_SOURCE[0]}")/../../docs/GIT_DIRTY.md")
  mkdir -p "$room/bin" && ln -sf "$dirty" "$room/bin/git-dirty"
  PATH=$room/bin:$PATH sh -c "$command"$'\nprintf %s "$version"' 2>"$room/err"
}
