# What a command of this repository needs on the machine. To be read by a shell, with `name` set to the command's name.

say() {
    echo "$name: $*" >&2
}

# Stops with status 70 where one of these isn't there, and says which and where it comes from.
needs() {
    lacks=
    for word; do
        case $word in
        rt) [ -x /opt/rattle/bin/rt ] || command -v rt >/dev/null || lack rt "the command of the Rattle kit, on the path or in /opt/rattle/bin" ;;
        python3) command -v python3 >/dev/null || lack python3 "Python 3.9 or later, on Debian the package python3" ;;
        c++) command -v c++ >/dev/null || lack c++ "a C++ compiler, on Debian the package g++" ;;
        cargo) command -v cargo >/dev/null || lack cargo "the package manager of Rust, on Debian the package cargo" ;;
        abidiff) command -v abidiff >/dev/null || lack abidiff "what compares binary interfaces, on Debian the package abigail-tools" ;;
        cc) command -v cc >/dev/null || lack cc "a C compiler, on Debian the package gcc" ;;
        esac
    done
    [ -z "$lacks" ] || exit 70
}

lack() {
    say "$1 is missing: it is $2"
    lacks=1
}
