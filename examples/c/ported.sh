#!/bin/sh
# Fetches cJSON, lz4, Lua and BearSSL of Debian's sources, builds them with newlib (examples/c/libraries), and runs them;
# of ciphers of BearSSL it says whether their key decides anything.
# It is called in an empty folder next to the clone `xt`, by a user who may install packages.
set -e
apt-get install -y dpkg-dev
sed -i 's/^Types: deb$/Types: deb deb-src/' /etc/apt/sources.list.d/debian.sources && apt-get update
apt-get source cjson lz4 lua5.4 bearssl
xtcc=../xt/examples/c/xtcc; xt=../xt/bin/xt
$xtcc cj.elf cjson-1.7.15/cJSON.c cjson-1.7.15/test.c && $xt run --turns0 4000000 cj.elf
$xtcc lz.elf lz4-1.9.4/lib/lz4.c -I lz4-1.9.4/lib lz4-1.9.4/examples/simple_buffer.c && $xt run lz.elf
echo '#define DEB_HOST_MULTIARCH ""' >lua5.4-deb-multiarch.h    # debian/rules makes this one
sources=
for file in lua5.4-5.4.4/src/*.c; do
    case ${file##*/} in
    lua.c | luac.c | linit.c | loadlib.c | loslib.c | liolib.c) ;;
    *) sources="$sources $file" ;;
    esac
done
# shellcheck disable=SC2086
$xtcc lu.elf -I . -I lua5.4-5.4.4/src ../xt/examples/c/lua.c $sources && $xt run --turns0 4000000 lu.elf
bear=bearssl-0.6+dfsg.1
for cipher in TABLES BITS CHACHA20 HMAC; do
    case $cipher in
    TABLES) parts="symcipher/aes_big_ctr symcipher/aes_big_enc symcipher/aes_common" ;;
    BITS) parts="symcipher/aes_ct_ctr symcipher/aes_ct_enc symcipher/aes_ct symcipher/aes_common" ;;
    CHACHA20) parts=symcipher/chacha20_ct ;;
    HMAC) parts="mac/hmac hash/sha2small hash/dig_size" ;;
    esac
    sources=
    for part in $parts codec/dec32be codec/dec32le codec/enc32be codec/enc32le codec/enc64be; do
        sources="$sources $bear/src/$part.c"
    done
    # shellcheck disable=SC2086
    $xtcc $cipher.elf -D$cipher -I $bear/inc -I $bear/src ../xt/examples/c/ciphers.c $sources
    echo "$cipher"
    ../xt/bin/why --secret key $cipher.elf | grep -A 4 '^secret'
done
