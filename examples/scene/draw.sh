#!/bin/sh
# Has Chromium draw the landscape, and compares the pictures with those that stand here: draw.sh [FOLDER]
# - `made_clear.wgsl` is what `yettuvam build` makes of the modules here, `made.wgsl` the same with the module `fog.wgsl`, which overrides a
#   function of `light.wgsl`, and `made_night.wgsl` with `night.wgsl`, which overrides two others. `sh draw.sh --make` makes them again,
#   and says whether they are as they were.
# - The pictures are saved in FOLDER (out/ here). They are alike where no one would see a difference.
# Needs node of version 18 or later, and Chromium. On Debian:
#     apt-get install --no-install-recommends chromium nodejs
# Chromium draws in software: no graphics card is needed, and no network. It takes about a minute on four processors.
# To see the landscape move: `python3 -m http.server` here, and the page http://localhost:8000/page.html in a browser with WebGPU.
# The program is YETTUVAM of the environment, else `yettuvam` at the top of the repository, which is proved and built at its first run.
# Status 0: all is as it was; 1: something isn't; 2: something is missing.
here=$(CDPATH='' cd -- "$(dirname -- "$0")" && pwd) || exit 2
program=${YETTUVAM:-$here/../../yettuvam}

# Prints the landscape with these modules besides what it uses itself.
landscape() {
    (cd "$here" && "$program" build scene.wgsl fog.wgsl frame.wgsl light.wgsl material.wgsl math.wgsl night.wgsl noise.wgsl terrain.wgsl \
        -D LAYERS=10 -D PLACE=11 -D FOG=4 "$@")
}

# Makes a text, and compares it with what stands here.
make() {
    name=$1
    shift
    landscape "$@" > "$folder/$name" || exit 1
    cmp "$folder/$name" "$here/$name" || failed=1
}

if [ "$1" = --make ]; then
    folder=$(mktemp -d) || exit 2
    trap 'rm -rf "$folder"' EXIT
    failed=0
    make made_clear.wgsl
    make made.wgsl --with scene::fog
    make made_night.wgsl --with scene::night
    [ "$failed" -eq 0 ] && echo 'the texts are as they were'
    exit "$failed"
fi
for command in node "${CHROMIUM:-chromium}"; do
    command -v "$command" > /dev/null || { echo "draw.sh: there is no $command" >&2; exit 2; }
done
folder=${1:-$here/out}
mkdir -p "$folder" || exit 2
node "$here/draw.mjs" "$folder" made_clear made made_night
