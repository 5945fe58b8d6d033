#!/bin/sh
# Installs the program, its manual page, its completions for bash, zsh and fish, its documents, the examples and the page
# of the explorer, or takes them away again.
#
#   scripts/install.sh [--uninstall] [PREFIX]    PREFIX is /usr/local where it is left out, and from the folder of the
#                                                caller where it is relative; as packagers want it, all goes below the
#                                                folder $DESTDIR where that is set
#
# The program is the one that `./datacube` would run; where there is none, nothing is installed. PREFIX/share/doc/datacube
# is laid out as the repository, so that commands in documents and examples hold there. The folders that were made are noted
# there, in `folders`, which no package needs; --uninstall takes those of them away that are empty then.
set -eu
root=$(dirname -- "$(dirname -- "$(readlink -f -- "$0")")")
is_taken_away=
if [ "${1-}" = --uninstall ]; then
    is_taken_away=yes
    shift
fi
case ${1-} in
-*)
    sed -n '2,11s/^# \{0,1\}//p' "$0" >&2
    exit 2
    ;;
esac
umask 022

# A path from the folder of the caller, without a slash at its end.
from_here() {
    case $1 in
    / | '') ;;
    /*) echo "${1%/}" ;;
    *) echo "$PWD/${1%/}" ;;
    esac
}
prefix=$(from_here "${1:-/usr/local}")
stage=$(from_here "${DESTDIR-}")
to=$stage$prefix
documents=share/doc/datacube
folders=$to/$documents/folders

# Each file with the place that it goes to and its rights.
files() {
    cat <<END
$1 bin/datacube 755
docs/datacube.1 share/man/man1/datacube.1 644
completions/datacube.bash share/bash-completion/completions/datacube 644
completions/_datacube share/zsh/site-functions/_datacube 644
completions/datacube.fish share/fish/vendor_completions.d/datacube.fish 644
release/NOTICES $documents/NOTICES 644
END
    for file in CHANGELOG.md README.md docs/*.md docs/*.svg docs/*.png docs/explorer/*.png explorer/index.html explorer/datacube.html \
        examples/first/feed.csv examples/first/cube.csv examples/live/README.md examples/serve/datacube-serve.service; do
        echo "$file $documents/$file 644"
    done
    for name in schema.toml market.csv street.csv online.csv cube.csv drill.csv refusals.csv slice.csv; do
        echo "examples/shop/$name $documents/examples/shop/$name 644"
    done
    for name in client.py watch.py; do
        echo "examples/live/$name $documents/examples/live/$name 755"
    done
}

# Makes a folder with those above it that aren't there, and notes which.
make_folder() {
    [ ! -d "$1" ] || return 0
    make_folder "$(dirname -- "$1")"
    mkdir -- "$1"
    noted="$noted$1
"
}

# Writes the folders that were made behind those that an earlier run made. One before 1.12.0 noted none.
note_folders() {
    if [ ! -e "$folders" ] && [ -e "$to/$documents/NOTICES" ]; then
        noted="$noted$to/$documents
"
    fi
    make_folder "$to/$documents"
    printf %s "$noted" >>"$folders"
    noted=
}

# Takes the noted folders away that are empty, the lowest first: only such as lie in the one that is installed to, or
# above it.
take_folders_away() {
    LC_ALL=C sort -ru | while IFS= read -r folder; do
        case $folder/ in
        */../* | */./*) continue ;;
        "$to"/*) ;;
        *) case $to/ in "$folder"/*) ;; *) continue ;; esac ;;
        esac
        rmdir -- "$folder" 2>/dev/null || true
    done
}

cd "$root"
if [ -n "$is_taken_away" ]; then
    files - | while read -r _ place _; do
        rm -f -- "$to/$place"
    done
    rm -f -- "$to/$documents/datacube"
    noted=$(cat -- "$folders" 2>/dev/null) || noted=$to/$documents
    rm -f -- "$folders"
    printf '%s\n' "$noted" | take_folders_away
    exit
fi
if ! program=$(scripts/program.sh); then
    echo "install: nothing was installed; $root/scripts/build.sh proves and builds the program, by the Rattle kit" >&2
    exit 1
fi
noted=
note_folders
files program | while read -r file place rights; do
    if [ "$file" = program ]; then
        file=$program
    fi
    make_folder "$to/$(dirname -- "$place")"
    note_folders
    install -m "$rights" -- "$file" "$to/$place"
done
ln -sfn ../../../bin/datacube "$to/$documents/datacube"
echo "datacube is in $to/bin; \`man datacube\` and its completions come with it, and documents in $to/$documents"
