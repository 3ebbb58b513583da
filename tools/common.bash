# What ./bench and tools/try have in common. Whoever reads this in has set me, its own name, and root, the top folder.

bin=$root/build/release

# Ends with a message and a status, 1 if none is given.
fail() {
    printf '%s: %s\n' "$me" "$1" >&2
    exit "${2:-1}"
}

# Whether a file is plainly text: bytes, but none of control besides tabs and ends of lines. No good
# image is, since each has bytes of 0.
is_text() {
    [ -s "$1" ] && [ "$(LC_ALL=C tr -d '\11\12\15\40-\176\200-\377' <"$1" | wc -c)" -eq 0 ]
}

# Ends unless the file can be read and, without the name of a text, is none.
check_file() {
    [ -e "$1" ] || fail "$1: no such file"
    if [ ! -f "$1" ] || [ ! -r "$1" ]; then fail "$1: not a file that can be read"; fi
    case $1 in
    *.asm) ;;
    *) ! is_text "$1" || fail "$1: this is a text, not an image, and the name of a text must end in .asm" ;;
    esac
}

# Builds the reference and the tools, where they are not there or old.
build_tools() {
    command -v cargo >/dev/null || fail 'cargo is missing: it comes with Rust and must be on the PATH'
    (cd -- "$root" && cargo build --release --offline --quiet --target-dir build </dev/null) ||
        fail 'the build failed, as told above'
}
