#!/bin/bash
# build.sh BC NAME [prof]: makes $ROOM/bin/NAME of the kit's bitcode
set -e
HERE=$(cd "$(dirname "$0")"; pwd)
cd $ROOM; mkdir -p bin ll
C=$KIT/toolchain/bin/clang
$C -x ir -S -emit-llvm -O0 $1 -o ll/$2.ll 2>/dev/null
python3 "$HERE/strip.py" ll/$2.ll ll/$2.s.ll $3
F="--target=x86_64-unknown-linux-gnu --sysroot=$KIT/toolchain -march=x86-64 -mllvm -no-trap-after-noreturn -ffunction-sections -fdata-sections -mllvm -trap-unreachable -mllvm -no-x86-call-frame-opt -mllvm -disable-machine-licm -mllvm -disable-postra-machine-licm -mllvm -sink-common-insts=false --no-default-config -no-canonical-prefixes -fintegrated-cc1 -fno-crash-diagnostics"
$C $F -c -x ir ll/$2.s.ll -o ll/$2.o -fPIE -O2
$KIT/bin/rattle-link --target x86_64-unknown-linux-gnu --toolchain $KIT/toolchain -o bin/$2 ll/$2.o $KIT/c/libos_c.a $KIT/c/liblibc_c.a
rm -f ll/$2.ll ll/$2.s.ll ll/$2.o
ls -la bin/$2
