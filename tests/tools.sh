# What the tests in C, C++, Python and Rust are built with and run by; to be sourced by a bash script. The library is compiled for
# x86-64. On such a machine everything is native and RUN is empty; elsewhere the compilers are cross compilers and RUN is an emulator.
#
#   need_c                sets CC, CXX, NM and RUN, for `$RUN PROGRAM`, or `run_with LIBRARIES PROGRAM` with shared objects from a folder
#   need_rust             the same, and RUSTC and RUSTFLAGS, for `$RUSTC $RUSTFLAGS -o PROGRAM FILE.rs`
#   need_python DIR       for `run_python LIBRARIES FILE.py`, a python that can load x86-64 libraries; where it has to be unpacked, to DIR
#
# RUN and RUSTFLAGS hold several words: write them without quotes. What is missing is installed by apt-get where that can be done;
# otherwise a line says what to install, and the script ends.

# Installs packages. The first word says what they are for.
install_packages() {
    local what=$1
    shift
    echo "tests: $what is missing; installing $*" >&2
    if ! command -v apt-get >/dev/null || [ "$(id -u)" != 0 ]; then
        echo "tests: cannot install it here (that takes apt-get, as root). Please install: $*" >&2
        exit 1
    fi
    if ! { apt-get update -q && DEBIAN_FRONTEND=noninteractive apt-get install -qy --no-install-recommends "$@"; } >&2; then
        echo "tests: apt-get could not install: $*" >&2
        exit 1
    fi
}

# Packages of x86-64 beside those of this machine.
add_amd64() {
    dpkg --print-foreign-architectures 2>/dev/null | grep -qx amd64 || dpkg --add-architecture amd64 2>/dev/null || true
}

have() { command -v "$1" >/dev/null; }

need_c() {
    if [ "$(uname -m)" = x86_64 ]; then
        CC=gcc CXX=g++ NM=nm RUN=
        { have gcc && have g++; } || install_packages "a compiler for C and C++" gcc g++ libc6-dev
    else
        CC=x86_64-linux-gnu-gcc CXX=x86_64-linux-gnu-g++ NM=x86_64-linux-gnu-nm
        # the cross compiler's own C library, even where packages of x86-64 have put another one beside it: its loader takes no other
        RUN="qemu-x86_64 -L /usr/x86_64-linux-gnu -E LD_LIBRARY_PATH=/usr/x86_64-linux-gnu/lib"
        { have "$CC" && have "$CXX" && [ -e /usr/x86_64-linux-gnu/lib/libc.a ]; } ||
            install_packages "a compiler for x86-64" gcc-x86-64-linux-gnu g++-x86-64-linux-gnu libc6-dev-amd64-cross
        have qemu-x86_64 || install_packages "an emulator of x86-64" qemu-user
    fi
    have make || install_packages make make
    have pkg-config || install_packages pkg-config pkg-config
}

run_with() {
    local libraries=$1
    shift
    if [ -z "$RUN" ]; then
        LD_LIBRARY_PATH=$libraries "$@"
    else
        $RUN -E "LD_LIBRARY_PATH=$libraries:/usr/x86_64-linux-gnu/lib" "$@"
    fi
}

need_rust() {
    need_c
    if [ "$(uname -m)" = x86_64 ]; then
        RUSTC=rustc RUSTFLAGS=
        have rustc || install_packages "a compiler for Rust" rustc
    else
        # Debian's rustc: its library for x86-64 is a package too
        RUSTC=/usr/bin/rustc RUSTFLAGS="--target x86_64-unknown-linux-gnu -C linker=$CC"
        if ! have "$RUSTC" || ! ls /usr/lib/rustlib/x86_64-unknown-linux-gnu/lib/libstd-*.rlib >/dev/null 2>&1; then
            add_amd64
            install_packages "a compiler for Rust, for x86-64" rustc libstd-rust-dev:amd64
        fi
    fi
}

need_python() {
    if [ "$(uname -m)" = x86_64 ]; then
        have python3 || install_packages python3 python3
        return
    fi
    # A python of this machine loads no x86-64 library. Debian's for x86-64 is unpacked, not installed, and run by the emulator.
    need_c
    python_at=$1
    local python package
    if ! ls "$python_at"/usr/bin/python3.* >/dev/null 2>&1; then
        add_amd64
        echo "tests: fetching a python for x86-64" >&2
        apt-get update -q >&2 || no_python
        python=$(apt-cache depends python3-minimal:amd64 | sed -n 's/.*Depends: \(python3\.[0-9]*\)-minimal.*/\1/p' | head -n 1)
        mkdir -p "$python_at/packages"
        # as root, apt-get would else change to a user who cannot write here
        (cd "$python_at/packages" && apt-get -q -o APT::Sandbox::User=root download "$python-minimal:amd64" "lib$python-minimal:amd64" \
            "lib$python-stdlib:amd64" libffi8:amd64 zlib1g:amd64 libexpat1:amd64) >&2 || no_python
        for package in "$python_at"/packages/*.deb; do dpkg -x "$package" "$python_at" || no_python; done
    fi
}

no_python() {
    echo "tests: cannot fetch a python for x86-64 (that takes apt-get, as root, and the network)" >&2
    exit 1
}

run_python() {
    local libraries=$1
    shift
    if [ "$(uname -m)" = x86_64 ]; then
        LD_LIBRARY_PATH=$libraries python3 "$@"
    else
        $RUN -E "LD_LIBRARY_PATH=$libraries:/usr/x86_64-linux-gnu/lib:$python_at/lib/x86_64-linux-gnu:$python_at/usr/lib/x86_64-linux-gnu" \
            -E "PYTHONHOME=$python_at/usr" "$(ls -d "$python_at"/usr/bin/python3.* | head -n 1)" -B "$@"
    fi
}
