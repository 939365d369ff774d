# Sourced by bench/run and bench/turns: programs in which code lies at chosen places.
#
# Where the linker lays code moves single figures by up to a fifth, and any change of the code moves what lies behind it. So each figure is a mean over
# sixteen programs, in which the code timed begins at every fourth byte of a line of the instruction cache: wherever a loop lies in an archive, it is
# timed across the line's whole length, and a change that only moves it changes nothing.
places=({0..60..4})

# a copy of an object or archive whose code may begin at any byte: loose FROM TO [WORDS OF OBJCOPY..]
loose() {
    objcopy --wildcard --set-section-alignment '.text*=1' "${@:3}" "$1" "$2"
}

# an object of a line and that many bytes of code, which begins at a line: pad BYTES TO
pad() {
    printf '.section .text.pad,"ax"\n.balign 64\n.skip 64 + %d, 0x90\n.section .note.GNU-stack,"",@progbits\n' "$1" |
        "${CC:-cc}" -x assembler -c -o "$2" -
}

# compiles files of bench/ into a folder: compile FOLDER NAME..
compile() {
    local name
    for name in "${@:2}"; do "${CC:-cc}" -std=c11 -O2 -Wall -Wextra -c -o "$1/$name.o" "bench/$name.c"; done
}
