# Sourced by the benchmarks beside it. `copy_crates FOLDER PROGRAM CRATE..` makes a repository of the folder: code, definitions and proofs of
# these crates and of all that they stand on by crates.txt, and the line of a program that stands on them, whose src/ it makes. Sets `here` to the
# top of this repository.
here=$(cd "$(dirname "$0")/.." && pwd)

# the lines of crates.txt of some crates, and of all crates of this repository below them
lines_of() {
    awk -v wanted="$*" '
        /^[a-z]/ { name = $1; sub(/:$/, "", name); line[name] = $0; order[++count] = name }
        function take(crate, parts, n, i) {
            if (!(crate in line) || (crate in taken)) return
            taken[crate] = 1
            n = split(line[crate], parts, " ")
            for (i = 2; i <= n; i++) take(parts[i])
        }
        END {
            n = split(wanted, names, " ")
            for (i = 1; i <= n; i++) take(names[i])
            for (i = 1; i <= count; i++) if (order[i] in taken) print line[order[i]]
        }' "$here/crates.txt"
}

copy_crates() {
    folder=$1
    program=$2
    shift 2
    mkdir -p "$folder/crates/$program/src"
    cp "$here/HANDLES" "$folder/HANDLES"
    lines_of "$@" >"$folder/crates.txt"
    for crate in $(sed 's/:.*//' "$folder/crates.txt"); do
        rm -rf "$folder/crates/$crate"
        mkdir "$folder/crates/$crate"
        for part in src specs proofs; do
            if [ -d "$here/crates/$crate/$part" ]; then cp -r "$here/crates/$crate/$part" "$folder/crates/$crate/"; fi
        done
    done
    echo "$program: $*" >>"$folder/crates.txt"
}
