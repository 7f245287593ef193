# For the scripts under bench/, sourced from the top of the repository. Each comparison is built twice, the C side both times by the kit's clang
# with -O3 alone: beside the proved code as tools/native compiles it, by -O3 too, into $out/native, and beside the proved code as rt builds it,
# for which clang is kept from some of its steps, into $out/kit. The C objects of both are the same, and yet small loops can differ in speed, by how
# they are linked.
kit=$(dirname "$(rt doc)")
tools=$kit/toolchain
out=bench/out
mkdir -p "$out/native" "$out/kit"

# quietly LOG WORD..: runs WORD.. and shows what it said only where it fails
quietly() {
    "${@:2}" >"$1" 2>&1 || { cat "$1" >&2; return 1; }
}

# kit_link NAME FILE.c [LIBRARY]: the C file, and a static library where one is named, as the program $out/kit/NAME
kit_link() {
    "$tools/bin/clang" --target=x86_64-unknown-linux-gnu -O3 -fPIE -c "$2" -o "$out/kit/$1.o"
    quietly "$out/kit/$1.log" "$kit/bin/rattle-link" --target x86_64-unknown-linux-gnu --toolchain "$tools" -o "$out/kit/$1" "$out/kit/$1.o" "${@:3}"
}

# kit_lib CRATE: builds the static library of a crate
kit_lib() {
    (cd "crates/$1" && rt lib)
}

# bench_build NAME CRATE FILE.c: the C file with a proved library, both ways. tools/native has made its object again where the code is
# newer, and a static library older than that object is then built again too.
bench_build() {
    local library=crates/$2/out/lib$2.a
    tools/native "$2" "$out/native/$1" "$3"
    [ "$library" -nt "target/native/$2.o" ] || quietly "$out/kit/$1.log" kit_lib "$2"
    kit_link "$1" "$3" "$library"
}

# keep_figures BUILD NAME WORD..: runs WORD.. and keeps the figures that it prints; it fails where the two sides of a comparison differ
keep_figures() {
    local figures=$out/$1/$2.figures
    "${@:3}" >"$figures" || { cat "$figures" >&2; return 1; }
}

# started_anew WORD..: runs WORD.. some times, since where the system lays a program's stack shows in its times; the table takes the best
started_anew() {
    for _ in 1 2 3 4 5; do "$@" || return 1; done
}

# bench_run NAME: runs what bench_build built, and prints the table
bench_run() {
    keep_figures native "$1" started_anew "$out/native/$1"
    keep_figures kit "$1" started_anew "$out/kit/$1"
    python3 bench/table.py "$1"
}
