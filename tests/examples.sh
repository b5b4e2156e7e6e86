#!/bin/sh
# What `oil` prints for the examples is what stands beside them.
root=$(CDPATH='' cd -- "$(dirname -- "$0")/.." && pwd) || exit 1
cd "$root/examples/water" || exit 1
"$root/oil" pre ripple.wgsl WAVES=true SCALE=4 | cmp - ripple_preprocessed.wgsl || exit 1
"$root/oil" pre water.wgsl SCALE=4 | cmp - preprocessed.wgsl || exit 1
"$root/oil" pre - SCALE=4 < water.wgsl | cmp - preprocessed.wgsl || exit 1
"$root/oil" pre --metadata water.wgsl | cmp - metadata.txt || exit 1
cd "$root/examples/lighting" || exit 1
"$root/oil" make top.txt palette.txt units.txt sphere.txt lighting.txt fog.txt night.txt +fog +night SKY=5 |
    cmp - made.txt || exit 1
"$root/oil" make top.txt palette.txt units.txt sphere.txt lighting.txt - night.txt +fog +night SKY=5 < fog.txt |
    cmp - made.txt || exit 1
echo 'the examples print what stands beside them'
