#!/bin/sh
# Builds out/confine, over the library that ./lib has made (or over that in the folder HISTAR_LIB). It needs compilers for C and
# C++, and the headers of libseccomp and toml++ (Debian's libseccomp-dev and libtomlplusplus-dev). CHECKED=1 builds out/confine-checked,
# with the compiler's checks of addresses and of undefined behavior.
set -eu
top=$(cd "$(dirname "$0")/../.." && pwd)
. "$top/gate/answer.sh"
answer "$@"
library=${HISTAR_LIB:-$top/out/lib}
lacks() { echo "confine: $1" >&2; exit 69; }
has() { echo "#include <$2>" | "$1" -E -x "$3" - >/dev/null 2>&1; }
[ -f "$library/libhistar.a" ] || lacks 'the library is missing: run ./lib first'
command -v "${CC:-cc}" >/dev/null || lacks 'no C compiler (cc) is on the path'
command -v "${CXX:-c++}" >/dev/null || lacks 'no C++ compiler (c++) is on the path'
has "${CC:-cc}" seccomp.h c || lacks "seccomp.h is missing: install libseccomp's headers (libseccomp-dev)"
has "${CXX:-c++}" toml++/toml.h c++ || lacks "toml++/toml.h is missing: install the headers of toml++ (libtomlplusplus-dev)"
room=$(mktemp -d)
trap 'rm -rf "$room"' EXIT
mkdir -p "$top/out"
made="$top/out/confine"
# (it starts sooner where no library is looked for)
linked() { "${CXX:-c++}" -static-pie "$@"; }
set -- -U_FORTIFY_SOURCE -D_FORTIFY_SOURCE=3
if [ -n "${CHECKED:-}" ]; then
    made="$top/out/confine-checked"
    linked() { "${CXX:-c++}" -fsanitize=address,undefined -static-libstdc++ -static-libgcc "$@"; }
    set -- -fsanitize=address,undefined -fno-sanitize-recover=all -g
    "${CC:-cc}" -c "$top/bindings/confine/tried/checked.c" -o "$room/checked.o"
fi
printf '#include <string>\nint main(int count, char **words) { return count > 1 ? (int)std::string(words[1]).size() : 0; }\n' > "$room/static.cpp"
linked "$room/static.cpp" -o "$room/static" 2>/dev/null || lacks 'static libraries are missing: install those of libc and libstdc++ (glibc-static, libstdc++-static; Debian has them in libc6-dev and libstdc++-dev)'
c() { "${CC:-cc}" -std=c11 -O2 -fstack-protector-strong -Wall -Wextra -Wpedantic -Werror "$@"; }
c "$top/bindings/confine/filter/make.c" -lseccomp -o "$room/make"
"$room/make" > "$room/filters.inc"
"${CXX:-c++}" -std=c++17 -O2 "$@" -fstack-protector-strong -Wall -Wextra -Werror -I"$top/include" -c "$top/bindings/confine/policy.cpp" -o "$room/policy.o"
for file in "$top"/bindings/confine/*.c; do
    c "$@" -I"$top/include" -I"$room" -c "$file" -o "$room/$(basename "$file").o"
done
linked "$room"/*.o -L"$library" -lhistar -o "$made"
