#!/usr/bin/env bash
# What users hold: the library installed under a folder of its own, C programs that find it by pkg-config,
# one that lists document 01's frame and one the packets of Ogg Opus files, and the Rust bindings' tests.
# The status is 3 where something was left out for want of a tool.
set -eu
cd "$(dirname "$0")/.."

source tests/x86_64.sh
have make pkg-config cargo || leave_out surface "$missing"
place=$(mktemp -d)
trap 'rm -rf "$place"' EXIT

make -s install PREFIX="$place" >/dev/null
export PKG_CONFIG_PATH=$place/lib/pkgconfig
# A host without a C library gives the archive one name.
"$($CC -print-prog-name=nm)" -u "$place/lib/libtignarops.a" | awk '$1 == "U" { print $2 }' | sort -u | diff <(echo memset) -
example() { # NAME PACKAGE...
    # shellcheck disable=SC2046 # flags are words
    $CC -std=c99 -Wall -Wextra -Werror "examples/$1.c" $(pkg-config --cflags --libs "${@:2}") -o "$place/$1"
}

example list_frame tignarops
list_frame() { $run "$place/list_frame" "$@"; }
list_frame 8 2 0 0 0 0 </dev/null | diff crates/frame_lister/stdout -
list_frame 9 2 0 0 0 0 </dev/null | diff <(echo 'refused 4') -
head -c 1276 /dev/zero | list_frame 8 2 0 0 0 0 | diff <(echo 'refused 1') -
echo 'surface: the C example lists what document 01 lists'

# ---- packets of Ogg Opus files

opus_file() { $run "$place/opus_file" "$@"; }

coded() { # NAME OPTION...: the voice as NAME.opus
    opusenc --quiet --speech "${@:2}" "$place/voice.wav" "$place/$1.opus"
}

# opusenc puts one frame into each packet, behind one byte or two. The packets last as long as opusinfo
# says, and there are as many as the sound needs, whose length opusinfo has in whole milliseconds.
speech() { # NAME OPTION...
    coded "$@"
    opus_file "$place/$1.opus" >"$place/$1"
    opusinfo "$place/$1.opus" | awk '
        BEGIN { split("10 20 40 60", milliseconds); least = 60 }
        /Pre-skip:/ { skipped = $2 / 48 }
        /Packet duration:/ { durations = $3 " " $5 " " $7 }
        /Playback length:/ { split($3, clock, /[m:s]+/); sound = 60000 * clock[1] + 1000 * clock[2] }
        /^packet / {
            packets++
            bytes = $3; front = $8 == "3," ? 2 : 1; padding = $10
            last = milliseconds[$6 % 4 + 1]
            total += last
            if (last > most) most = last
            if (last < least) least = last
        }
        /^  frame / { frames++; odd += front + padding + $3 != bytes }
        END {
            summary = sprintf("%d packets: %d accepted, 0 refused 1, 0 refused 10, 0 refused 11; %d frames, %d ms",
                              packets, packets, packets, total)
            listed = sprintf("%.1fms %.1fms %.1fms", most, total / packets, least)
            surplus = total - skipped - sound
            if (odd || frames != packets || $0 != summary || listed != durations || surplus < 0 || surplus >= last + 1) {
                print "surface: " $0 "\ninstead of " summary "; odd sizes: " odd + 0
                print "durations: " listed ", by opusinfo " durations "; past the sound: " surplus " ms"
                exit 1
            }
        }' - "$place/$1"
}

says() { # STATUS LINE ARGUMENT...: what opus_file answers to standard input, and a line that it prints
    local status=0
    opus_file "${@:3}" >"$place/said" 2>&1 || status=$?
    if [ "$status" != "$1" ] || ! grep -qx "$2" "$place/said"; then
        echo "surface: opus_file gave $status, not $1 with '$2'"
        return 1
    fi
}

# A stream of one page, whose packet would be a header of Opus but for its word; the four bytes are the page's checksum.
not_opus() { printf 'OggS\0\6'; head -c 16 /dev/zero; printf '\26\45\223\14\1\23OpusTags'; head -c 11 /dev/zero; }

opus_files() {
    pkg-config --exists ogg || leave_out surface 'libogg for the C example of Ogg Opus files'
    example opus_file tignarops ogg
    have espeak-ng opusenc opusinfo || leave_out surface "$missing for the C example of Ogg Opus files"
    espeak-ng -w "$place/voice.wav" 'Every packet of this voice is listed, and every frame lies in its packet.'
    local size
    for size in 10 20 40 60; do speech "of_$size" --bitrate 8 --framesize "$size"; done
    speech constant --bitrate 12 --hard-cbr
    says 0 'packet .* padding [1-9][0-9]*' <"$place/constant.opus"
    coded not_silk --bitrate 96
    says 0 '.*: 0 accepted, 0 refused 1, 0 refused 10, [1-9][0-9]* refused 11; 0 frames, 0 ms' <"$place/not_silk.opus"

    local voice=$place/of_20.opus half
    half=$(($(stat -c %s "$voice") / 2))
    { not_opus; cat "$voice" "$place/of_60.opus" "$voice"; } | opus_file |
        diff <(sed '$i other streams, not listed: 3' "$place/of_20") -
    says 1 'data missing' < <(head -c "$half" "$voice"; tail -c "$half" "$voice" | tail -c +2)
    says 1 'the stream does not end' < <(head -c "$half" "$voice")
    says 1 'opus_file: no Ogg Opus' <"$place/voice.wav"
    says 2 'usage: .*' one two </dev/null
    echo 'surface: the C example lists Ogg Opus files as opusinfo has them'
}
# ---- the bindings

export TIGNAROPS_LIB_DIR=$place/lib CARGO_TARGET_DIR=${CARGO_TARGET_DIR:-$PWD/target/bindings}
cargo test --offline --quiet --manifest-path bindings/rust/Cargo.toml

opus_files
