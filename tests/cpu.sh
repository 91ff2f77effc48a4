#!/usr/bin/env bash
# Prints the level of this machine's processor that programs are built for: x86-64-v3, which has AVX2, or x86-64-v2, rt's default.
for flag in avx2 bmi1 bmi2 f16c fma abm movbe; do
    if ! grep -qw "$flag" /proc/cpuinfo; then
        echo x86-64-v2
        exit
    fi
done
echo x86-64-v3
