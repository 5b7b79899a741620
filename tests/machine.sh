# Sourced by tests/run and tests/bench/run, at the repository's top: how Rust and C are compiled to link the library, and how to run what links it.
# Sets: machine; here, for what runs on the machine itself; linked and c, for what links the library; emulated, what starts that and the program.

fail() {
  echo "${asked:-tests}: $*" >&2
  exit 1
}

# Debian's packages, in three tries: a mirror may be away for a moment. What is there already is not asked for.
could_install() {
  local wanted=() package as_root=()
  for package in "$@"; do
    dpkg-query -W -f='${db:Status-Abbrev}' "$package" 2>/dev/null | grep -q '^ii' || wanted+=("$package")
  done
  [ ${#wanted[@]} -gt 0 ] || return 0
  command -v apt-get >/dev/null || return 1
  [ "$(id -u)" -eq 0 ] || as_root=(sudo)
  echo "installing: ${wanted[*]}"
  local try
  for try in 1 2 3; do
    if { [ "$machine" != aarch64 ] || "${as_root[@]}" dpkg --add-architecture amd64; } &&
      "${as_root[@]}" apt-get -qq -o DPkg::Lock::Timeout=300 update &&
      "${as_root[@]}" env DEBIAN_FRONTEND=noninteractive apt-get -qq -y -o DPkg::Lock::Timeout=300 \
        install --no-install-recommends "${wanted[@]}" >/dev/null; then
      return 0
    fi
    [ "$try" -eq 3 ] || sleep $((10 * try))
  done
  return 1
}

install_missing() {
  could_install "$@" || fail "could not be had from Debian: $*"
}

machine=$(uname -m)
case $machine in
x86_64)
  # The machine's own Rust; Debian's where there is none.
  { command -v rustc && command -v cc; } >/dev/null || install_missing rustc gcc libc6-dev
  here=(rustc)
  linked=(rustc)
  c=(cc)
  emulated=()
  foreign=
  ;;
aarch64)
  # The library is made for x86-64, so what links it is made for that too and runs under Debian's emulator. Debian's
  # compiler has the x86-64 library that a rustup installed beside it may not have; hence the full path.
  install_missing rustc libstd-rust-dev:amd64 gcc-x86-64-linux-gnu libc6-dev:amd64 qemu-user
  here=(/usr/bin/rustc)
  linked=(/usr/bin/rustc --target x86_64-unknown-linux-gnu -C linker=x86_64-linux-gnu-gcc -C target-feature=+crt-static)
  c=(x86_64-linux-gnu-gcc -static)
  emulated=(qemu-x86_64)
  foreign=:amd64
  ;;
*) fail "a machine of the kind $machine is not provided for; x86_64 and aarch64 are" ;;
esac

# A product is made when it is missing or a source is newer.
stale() { [ ! -e "$1" ] || [ -n "$(find crates.txt crates/*/src crates/*/specs crates/*/proofs -newer "$1" -print -quit)" ]; }

# The kit runs on x86-64 alone: to another machine its products are carried.
kit_here() {
  command -v rt >/dev/null || fail "$1 is missing or older than a source, and the command rt of the Rattle kit, which runs on x86-64, is not there to make it"
}
