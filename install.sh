#!/bin/sh
# install.sh PREFIX: puts the static library, as libcycle_planner.a, the header, the pkg-config file and the programs below PREFIX. What
# it installs must have been made before, by
#     ./build.sh
set -eu
[ $# = 1 ] || { echo "install.sh PREFIX" >&2; exit 2; }
here=$(cd "$(dirname "$0")" && pwd)
programs="cycle progress normalize upgrade downgrade gates batch spans draw ask encode decode"
for made in staticlib/libcapi.a $(for program in $programs; do echo "bin/$program"; done); do
  [ -e "$here/target/$made" ] || { echo "no target/$made: make it by ./build.sh" >&2; exit 1; }
done

mkdir -p "$1"
prefix=$(cd "$1" && pwd)
version=$(sed -n 's/^#define CP_VERSION "\(.*\)"$/\1/p' "$here/include/cycle_planner.h")
mkdir -p "$prefix/lib/pkgconfig" "$prefix/include" "$prefix/bin"
install -m 644 "$here/target/staticlib/libcapi.a" "$prefix/lib/libcycle_planner.a"
install -m 644 "$here/include/cycle_planner.h" "$prefix/include/cycle_planner.h"
for program in $programs; do
  install -m 755 "$here/target/bin/$program" "$prefix/bin/cqf-$program"
done
cat >"$prefix/lib/pkgconfig/cycle_planner.pc" <<END
prefix=$prefix
libdir=\${prefix}/lib
includedir=\${prefix}/include

Name: cycle_planner
Description: Cycle durations for Cyclic Queuing and Forwarding
Version: $version
Libs: -L\${libdir} -lcycle_planner
Cflags: -I\${includedir}
END
