# What the scripts of this folder share; they read it in the repository's root.
fail() { echo "station: $*" >&2; exit "${status:-2}"; }
need() { command -v "$1" >/dev/null || fail "$1 is not installed (Debian: apt-get install $2)"; }

boards=$(grep -v '^#' station/boards)
strict=(-std=c99 -Wall -Wextra -pedantic -Werror -O2 -ffp-contract=off -Iinclude -Istation)

# The board of a target, its large memory and gcc's flags for its processor, as $board, $memory and $flags.
board_of() { # TARGET
    read -r _ board memory flags <<< "$(grep -e "^$1 " <<< "$boards")" || true
    [ -n "$board" ] || fail "no board for '$1' in station/boards"
    need qemu-system-arm qemu-system-arm
    need arm-none-eabi-gcc 'gcc-arm-none-eabi libnewlib-arm-none-eabi'
}

# A program for a board, with start-up code and the archive: target/station/TARGET/PROGRAM.elf.
linked() { # TARGET PROGRAM SOURCES, OBJECTS AND FLAGS
    # shellcheck disable=SC2086
    arm-none-eabi-gcc $flags "${strict[@]}" -Itarget/station -nostartfiles -Wl,-z,noexecstack -T station/memory.ld \
        station/start.c "${@:3}" "target/lib/$1/libcftree.a" -o "target/station/$1/$2.elf"
}

# The command that runs a program on the emulated board.
emulator() { # TARGET PROGRAM WORDS
    echo "qemu-system-arm -M $board -display none -monitor none ${*:3}" \
        "-semihosting-config enable=on,target=native -kernel target/station/$1/$2.elf"
}
