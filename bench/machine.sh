# Sourced by the benchmarks: gcc for x86-64, for which our code is compiled, and on another machine what runs its programs; archives of proved crates.
install() { # COMMAND PACKAGE: from Debian's packages, where the command is not there
    command -v "$1" >/dev/null || tools/install "$2"
}
gcc=gcc run=''
if [ "$(uname -m)" != x86_64 ]; then
    echo "This machine is no x86-64: the code runs under an emulator. Its nanoseconds say nothing and its ratios little of vector code."
    gcc=x86_64-linux-gnu-gcc run=qemu-x86_64-static
    install "$gcc" gcc-x86-64-linux-gnu
    install "$run" qemu-user-static
fi
install "$gcc" gcc

archive() { # FOLDER NAME: proves and compiles a static library of the repository in a folder; crates/NAME/out/libNAME.a
    (cd "$1/crates/$2" && rt lib) >"$work/lib-$2.log" 2>&1 || { tail -n 20 "$work/lib-$2.log"; exit 1; }
}
copied() { # FOLDER: the crates, to be changed there. It lies outside the repository, all of whose .rt files rt ci reads
    tar --exclude=out -c crates crates.txt host | tar -x -C "$1"
}
