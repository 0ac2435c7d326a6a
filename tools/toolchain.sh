# For the scripts that run programs, which are for x86-64: finds what the Rattle toolchain has for this machine. Sets
# toolchain, the folder of that, and emulator, which goes in front of a program: empty on x86-64, the toolchain's own on Arm.
# shellcheck shell=sh
kit=$(dirname "$(rt doc)")
toolchain=$kit/on/$(uname -m)/toolchain
[ -d "$toolchain" ] || toolchain=$kit/toolchain
emulator=$toolchain/bin/qemu-x86_64
[ -x "$emulator" ] || emulator=
