# processor.sh: what the scripts here share about processors: where programs for one stand, what compiles them and what runs them. It is
# read in (. tests/c/processor.sh) at the top of the checkout.
. tools/target.sh

# built_in PROCESSOR: the folder of its programs.
built_in() {
    case $1 in
    x86-64) echo target/c ;;
    *) echo "target/c/$1" ;;
    esac
}

# prefix_of PROCESSOR: how the names of its compiler and the tools beside it begin.
prefix_of() {
    case $1:$(uname -m) in
    x86-64:x86_64 | aarch64:aarch64) echo '' ;;
    x86-64:*) echo x86_64-linux-gnu- ;;
    aarch64:*) echo aarch64-linux-gnu- ;;
    armv7:*) echo arm-linux-gnueabihf- ;;
    thumbv7em*:*) echo arm-none-eabi- ;;
    esac
}

# words_for PROCESSOR: what its compiler is told: a program that needs no loader, or one for the emulated board.
words_for() {
    board='-mcpu=cortex-m4 -mthumb --specs=rdimon.specs -Wl,-z,noexecstack -T tests/c/board.ld tests/c/board.c'
    case $1 in
    thumbv7em) echo "$board" ;;
    thumbv7emhf) echo "-mfloat-abi=hard -mfpu=fpv4-sp-d16 $board" ;;
    *) echo -static ;;
    esac
}

# is_native PROCESSOR: whether this machine runs its programs itself.
is_native() {
    case $1:$(uname -m) in
    x86-64:x86_64 | aarch64:aarch64) return 0 ;;
    *) return 1 ;;
    esac
}

# run_on PROCESSOR PROGRAM: it takes the shell's place, in an emulator where the machine does not run it itself; a Cortex-M's on an
# emulated board with a Cortex-M4.
run_on() {
    is_native "$1" && exec "$2"
    case $1 in
    x86-64) exec qemu-x86_64 "$2" ;;
    aarch64) exec qemu-aarch64 "$2" ;;
    armv7) exec qemu-arm "$2" ;;
    *)
        exec qemu-system-arm -M mps2-an386 -display none -monitor none -serial none -semihosting-config enable=on,target=native -kernel "$2"
        ;;
    esac
}
