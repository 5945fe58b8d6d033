# What scripts ask of programs: of which sources they are, a copy of these to prove, and whether their bytes are those that were
# recorded. Beside a program `datacube` lies its record `datacube.txt`, with a line each: `program: SHA-256`,
# `kit: LINE` (what `rt version` says) and `sources: SHA-256`. Read by a shell (`. scripts/programs.sh`).

# The lines of crates.txt in a folder for the crates that the program, or another crate, stands on, itself among them.
program_lines() {
    awk -v top="${2-datacube}" '
        /^[a-z]/ {
            name = $1
            sub(/:.*/, "", name)
            line[name] = $0
            needs[name] = substr($0, index($0, ":") + 1)
        }
        END {
            asked[count = 1] = top
            seen[top] = 1
            for (at = 1; at <= count; at++) {
                print line[asked[at]]
                below = split(needs[asked[at]], names, " ")
                for (it = 1; it <= below; it++)
                    if (names[it] in line && !(names[it] in seen)) {
                        seen[names[it]] = 1
                        asked[++count] = names[it]
                    }
            }
        }' "$1/crates.txt" | LC_ALL=C sort
}

# The names of these crates.
program_crates() {
    program_lines "$@" | sed 's/[ :].*//'
}

# Copies what of a folder is needed to prove these crates, to another folder: copy_crates FOLDER OTHER CRATE.
copy_crates() {
    mkdir "$2/crates"
    program_lines "$1" "$3" >"$2/crates.txt"
    cp "$1/HANDLES" "$2"
    for crate in $(program_crates "$1" "$3"); do
        mkdir "$2/crates/$crate"
        for part in src specs proofs stdin stdout args status data; do
            if [ -e "$1/crates/$crate/$part" ]; then
                cp -R "$1/crates/$crate/$part" "$2/crates/$crate"
            fi
        done
    done
}

# One checksum over what the program in a folder is built from: the lines of crates.txt for its crates, HANDLES, and
# the paths and contents of all files in their src, specs and proofs.
sources_of() {
    (
        cd "$1"
        set --
        for crate in $(program_crates .); do
            for part in src specs proofs; do
                if [ -d "crates/$crate/$part" ]; then
                    set -- "$@" "crates/$crate/$part"
                fi
            done
        done
        {
            program_lines .
            cat HANDLES
            find "$@" ! -type d -print0 | LC_ALL=C sort -z | xargs -0 sha256sum
        } | sha256sum | cut -d ' ' -f 1
    )
}

# What the record beside the program in a folder says under a word.
recorded() {
    sed -n "s/^$2: //p" "$1/datacube.txt" 2>/dev/null
}

# The SHA-256 of a file.
sum_of() {
    sha256sum "$1" | cut -d ' ' -f 1
}

# Whether the program in a folder has the bytes that its record names.
is_whole() {
    [ -x "$1/datacube" ] && [ "$(recorded "$1" program)" = "$(sum_of "$1/datacube")" ]
}

# What says which program there is to run in a folder, a line each: the boot that the machine is in, the C library, and
# each file with its kind, its times, its size and its inode. No file has other bytes while its line stays: each change
# sets the time of the last change anew.
look_at() (
    cd "$1"
    boot=''
    read -r boot 2>/dev/null </proc/sys/kernel/random/boot_id || boot=unknown
    echo "boot $boot"
    LC_ALL=C find -H /lib64/ld-linux-x86-64.so.2 crates.txt HANDLES crates/*/src crates/*/specs crates/*/proofs \
        crates/datacube/out/datacube crates/datacube/out/datacube.txt release/*/datacube release/*/datacube.txt \
        ! -type d -printf '%y %C@ %T@ %s %i %p\n' 2>/dev/null || true
)

# Finds the program to run in a folder: one that was built there from these very sources, else the released one, if it is
# of these sources and can run here. Its path is then in `program`. Where there is none the status is 1, `why` says why,
# and `program` has the released one if it could run, or nothing.
#
# What was found is kept in out/program.txt, with what it was found by, and holds until that is another. Where nothing
# may be written there, all is looked at anew each time.
find_program() {
    why='' program='' new=''
    kept=$1/out/program.txt
    if [ -r "$kept" ] && read -r program <"$kept" && { echo "$program" && look_at "$1"; } | cmp -s - "$kept"; then
        program=$1/$program
        return
    fi
    trap 'rm -f "$new" "$new.whole"; exit 1' HUP INT TERM
    if mkdir -p "$1/out" 2>/dev/null; then
        new=$(mktemp "$1/out/program.XXXXXX" 2>/dev/null) || new=''
    fi
    if [ -n "$new" ]; then
        begun=$(stat -c %Y "$new")
        look_at "$1" 2>/dev/null >"$new" || true
    fi
    if search_program "$1" "$(sources_of "$1")" && [ -n "$new" ]; then
        keep_found "$1" "$new" "$begun"
    fi
    [ -z "$new" ] || rm -f "$new" "$new.whole"
    trap - HUP INT TERM
    [ -z "$why" ]
}

# Keeps the program that was found in a folder, with what was looked at before, which stands in a new file that was made
# at a time: only if all of it is still the same, and each file is a plain one that had rested for two seconds then, by
# the clock of that file's system, so that a change from then on has another time. Where find can't say all that, nothing
# is kept.
keep_found() {
    if look_at "$1" | cmp -s - "$2" && grep -q ' crates\.txt$' "$2" &&
        awk -v now="$3" '$1 != "boot" && ($1 != "f" || $2 >= now - 2 || $3 >= now - 2) { exit 1 }' "$2" &&
        { echo "${program#"$1"/}" && cat "$2"; } 2>/dev/null >"$2.whole" && chmod 644 "$2.whole"; then
        mv -f "$2.whole" "$1/out/program.txt" || true
    fi
}

# Does what find_program does, with everything looked at anew, for sources with this checksum.
search_program() {
    built=$1/crates/datacube/out
    release=$1/release/$(uname -m)-$(uname -s | tr '[:upper:]' '[:lower:]')
    program=''
    if [ "$(recorded "$built" sources)" = "$2" ] && is_whole "$built"; then
        program=$built/datacube
    elif [ ! -f "$release/datacube" ]; then
        why="there is no released program for this kind of machine"
    elif ! is_whole "$release"; then
        why="the released program isn't whole: its checksum is not the one that was recorded"
    elif ! why=$("$release/datacube" --version 2>&1 </dev/null); then
        why="the released program can't run on this processor or with this C library (${why:-it ends at once})"
    else
        program=$release/datacube why=''
        [ "$(recorded "$release" sources)" = "$2" ] || why="the released program was built from other sources than these"
    fi
    [ -z "$why" ]
}

# How many checks may run side by side: one for each processor, where each finds 4 GiB of free memory, more than any
# check of a crate takes; nothing where there is less, and then the kit plans by the most that a check might take.
checks_side_by_side() {
    free=$(awk '/^MemAvailable:/ { print int($2 / 4194304) }' /proc/meminfo)
    if [ "${free:-0}" -ge "$(nproc)" ]; then
        nproc
    fi
}

# Takes how many checks a script is told to run side by side, by `--jobs N`, else as many as may.
take_jobs() {
    RT_JOBS=${RT_JOBS-$(checks_side_by_side)}
    [ "${1-}" != --jobs ] || RT_JOBS=$2
    export RT_JOBS
}

# Proves a crate of a folder, and those that it stands on, in a copy: `work`, which goes with the script. Where something isn't proved
# the script ends by a line: prove_copy FOLDER CRATE LINE.
prove_copy() {
    work=$(mktemp -d)
    trap 'rm -rf "$work"' EXIT
    trap 'exit 1' HUP INT TERM
    copy_crates "$1" "$work" "$2"
    if ! (cd "$work" && python3 -B "$1/scripts/proofs.py" </dev/null >"$work/log" 2>&1); then
        tail -n 20 "$work/log"
        echo "$3"
        exit 1
    fi
    tail -n 1 "$work/log"
}

# Writes the record of the program in a folder, which was built from sources with this checksum by the kit on the PATH.
record() {
    {
        echo "program: $(sum_of "$1/datacube")"
        echo "kit: $(rt version)"
        echo "sources: $2"
    } >"$1/datacube.txt.new"
    mv "$1/datacube.txt.new" "$1/datacube.txt"
}
