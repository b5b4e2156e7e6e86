#!/bin/sh
# Opens the page in headless browsers, and says what holds of it: web.sh [yettuvam.wasm]
# - The page is made with that library, or it is the one in web/dist, which `sh web/build.sh` makes with the proved library.
# - tests/web/page.mjs: in Chromium and in Firefox each project of the gallery is drawn as its picture in tests/web/pictures shows it, a
#   typed error is reported at its line, a link opens its project, bad input is answered, and more. A Firefox without WebGPU has to say why
#   nothing is drawn.
# - tests/web/answers.mjs: the library in the browser gives the same texts and reports as the native program, byte for byte, on the
#   projects and texts of the repository.
# Needs node of version 18 or later, Python 3, Chromium and Firefox. On Debian:
#     apt-get install --no-install-recommends chromium firefox-esr mesa-vulkan-drivers fonts-dejavu-core nodejs python3
# The browsers draw in software: no graphics card is needed, and no network. It takes about five minutes on four processors. CHROMIUM and
# FIREFOX of the environment are the browsers' commands. The program is YETTUVAM of the environment, else `yettuvam` at the top of the
# repository, which is proved and built at its first run.
# Status 0: all holds; 1: something doesn't; 2: something is missing.
root=$(CDPATH='' cd -- "$(dirname -- "$0")/.." && pwd) || exit 2
program=${YETTUVAM:-$root/yettuvam}
for command in node python3 "${CHROMIUM:-chromium}" "${FIREFOX:-firefox-esr}" "$program"; do
    command -v "$command" > /dev/null || { echo "web.sh: there is no $command" >&2; exit 2; }
done
if [ -n "$1" ]; then
    sh "$root/web/build.sh" "$1" || exit 2
elif [ ! -f "$root/web/dist/yettuvam.wasm" ]; then
    echo 'web.sh: there is no page. Make it by `sh web/build.sh`, or name a yettuvam.wasm' >&2
    exit 2
fi
failed=0

# Runs a script, and keeps the worst status.
try() {
    node "$root/tests/web/$@"
    status=$?
    [ "$status" -le "$failed" ] || failed=$status
}

try answers.mjs "$program"
try answers.mjs --firefox "$program"
try page.mjs
try page.mjs --firefox
[ "$failed" -eq 0 ] && echo 'all holds of the page'
exit "$failed"
