# What Rust for x86-64 takes on this machine: native tools on x86-64; Debian's packages and an emulator on Arm.
# host/original.sh is sourced first.

machine=$(uname -m)
target=x86_64-unknown-linux-gnu
linker=()
emulator=()

case $machine in
x86_64 | aarch64) ;;
*) stop "This machine is $machine. The tools run on x86_64, and on aarch64 by an emulator." ;;
esac

is_installed() {
    [ "$(dpkg-query -W -f '${db:Status-Status}' "$1" 2>/dev/null)" = installed ]
}

# install_packages PACKAGE..: those of Debian's packages that are missing. All that it says goes to standard error.
install_packages() {
    local package missing=()
    for package; do
        is_installed "$package" || missing+=("$package")
    done
    [ ${#missing[@]} -gt 0 ] || return 0
    if [ "$(id -u)" != 0 ] || ! command -v apt-get >/dev/null; then
        stop "Debian's packages ${missing[*]} are missing. Installing them takes root and apt-get" \
            "(packages of amd64: dpkg --add-architecture amd64 first)."
    fi
    tell "installing Debian's packages ${missing[*]}"
    {
        if [[ ${missing[*]} == *:amd64* ]]; then dpkg --add-architecture amd64; fi
        apt-get update -qq &&
            DEBIAN_FRONTEND=noninteractive apt-get install -qq -y --no-install-recommends "${missing[@]}"
    } >&2 || stop "Debian's packages ${missing[*]} could not be installed."
}

# need COMMAND PACKAGE: the package where the command is missing.
need() {
    command -v "$1" >/dev/null || install_packages "$2"
    command -v "$1" >/dev/null || stop "$1 is not on the PATH, though Debian's package $2 is installed."
}

# A rustc for this machine. On Arm it is Debian's, whatever else stands first on the PATH: only that one has packages
# for x86-64.
native_rust() {
    if [ "$machine" = x86_64 ]; then
        need rustc rustc-web
        need cc gcc
        return
    fi
    install_packages rustc-web
    rustc=$(command -p -v rustc) ||
        stop "Debian's rustc is not in the system's folders, though its package is installed."
}

# A rustc for x86-64, and how what it builds is linked and run here.
x86_rust() {
    if [ "$machine" = aarch64 ]; then
        install_packages rustc-web libstd-rust-web-dev:amd64 gcc-x86-64-linux-gnu libc6-dev-amd64-cross qemu-user
        linker=(-C linker=x86_64-linux-gnu-gcc)
        emulator=(qemu-x86_64)
    fi
    native_rust
}

# The folder of the Rattle kit.
kit() {
    printf '%s\n' "${RATTLE_HOME:-$(dirname "$(dirname "$(readlink -f "$(command -v rt)")")")}"
}
