#!/bin/bash
# Makes docs/timeline.png, a picture of the page that examples/python/timeline.py makes of an example's run: a reader is
# skipped in three frames, and in the fourth it reads one message and is told that it missed two. It wants Chromium,
# Python and the built program.
set -eu
cd "$(dirname "$0")/.."
page=$(mktemp --suffix=.html)
trap 'rm -f "$page"' EXIT
crates/msgrun/out/msgrun run examples/answered/exactly_two_updates.json --json |
    python3 examples/python/timeline.py >"$page"
chromium --headless --no-sandbox --disable-gpu --hide-scrollbars --window-size=1060,560 \
    --screenshot=docs/timeline.png "$page"
