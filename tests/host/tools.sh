# Sourced by scripts that compile C against the archive: install COMMAND PACKAGE; $gcc and $run compile for x86-64 and run it here; flags.
install() { # from Debian's packages, where the command is not there
    command -v "$1" >/dev/null || tools/install "$2"
}
gcc=gcc run=''
if [ "$(uname -m)" != x86_64 ]; then
    gcc=x86_64-linux-gnu-gcc run=qemu-x86_64-static
    export QEMU_LD_PREFIX=/usr/x86_64-linux-gnu
    install "$run" qemu-user-static
    install "$gcc" gcc-x86-64-linux-gnu
fi
install "$gcc" gcc
flags=(-std=c11 -D_GNU_SOURCE -Wall -Wextra -Werror -Wno-unused-function -Itarget/host)
