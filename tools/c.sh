# For the scripts that build C over the planner, at the top of the repository: sees to it that a compiler and the archive are
# there. Programs are for x86-64; on Arm they are cross-compiled and run under the emulator. Sets cc, clang (which bench/run
# installs), strict and what tools/toolchain.sh sets.
# shellcheck shell=sh disable=SC2034
. tools/toolchain.sh
if [ -z "$emulator" ]; then
    cc=gcc
    clang=clang
    tools/install gcc libc6-dev
else
    cc=x86_64-linux-gnu-gcc
    clang='clang --target=x86_64-linux-gnu'
    tools/install gcc-x86-64-linux-gnu libc6-dev-amd64-cross
fi
strict='-std=c11 -Wall -Wextra -Werror -Iinclude -Itests'
tools/archive
