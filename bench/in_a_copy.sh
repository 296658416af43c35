# Sourced by the scripts of the folders beside it.

# The crates of the repository among these libraries, and all crates below them.
crates_below() {
    local left=("$@") name more found=" "
    while [ ${#left[@]} -gt 0 ]; do
        name=${left[0]}
        left=("${left[@]:1}")
        if [ ! -d "$top/crates/$name" ] || [[ $found == *" $name "* ]]; then continue; fi
        found+="$name "
        read -ra more < <(sed -n "s/^$name://p" "$top/crates.txt")
        left+=("${more[@]}")
    done
    echo "$found"
}

# Makes a copy of the crates that a benchmark stands on, with the benchmark's program as one more crate, and goes into that crate's
# folder; the copy is thrown away in the end. Takes the benchmark's name and the libraries that it uses.
in_a_copy() {
    local name=$1 uses=$2 uses_of crate
    top=$(cd "$(dirname "${BASH_SOURCE[0]}")/.." && pwd)
    copy=$(mktemp -d)
    trap 'rm -rf "$copy"' EXIT
    mkdir -p "$copy/crates/${name}_bench/src"
    read -ra uses_of <<< "$uses"
    for crate in $(crates_below "${uses_of[@]}"); do
        cp -a "$top/crates/$crate" "$copy/crates/"
        grep -E "^$crate:" "$top/crates.txt" >> "$copy/crates.txt"
    done
    cp "$top/bench/$name/main.rt.txt" "$copy/crates/${name}_bench/src/main.rt" # the gate reads every .rt file, so it has another name here
    if [ -d "$top/bench/$name/proofs" ]; then # likewise .antt files
        cp -r "$top/bench/$name/proofs" "$copy/crates/${name}_bench/"
        find "$copy/crates/${name}_bench/proofs" -name '*.antt.txt' -exec sh -c 'mv "$1" "${1%.txt}"' _ {} \;
    fi
    cp "$top/HANDLES" "$copy/"
    echo "${name}_bench: $uses" >> "$copy/crates.txt"
    cd "$copy/crates/${name}_bench"
}
