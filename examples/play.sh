#!/bin/sh
# Plays flows of a store in a browser: writes their playlists, and serves these with the store and a page behind nginx.
#
#     examples/play.sh news.tams 00000000-0000-4000-8000-0000000000f1 ..
#
# It needs nginx, and tams on the path or by TAMS. PORT is that of nginx, 8080 where it isn't set, and STORE_PORT that of
# the store, 8000. What is stored meanwhile is in no playlist before the next start. Interrupt it to end it.
set -eu
here=$(cd "$(dirname "$0")" && pwd)
if [ $# -lt 2 ]; then
    echo "usage: $0 FILE FLOW_ID .." >&2
    exit 1
fi
file=$1 tams=${TAMS:-tams} port=${PORT:-8080} store_port=${STORE_PORT:-8000}
shift
# where a user's path may not lead
PATH=$PATH:/usr/sbin
folder=$(mktemp -d)
store=
# what is started here ends with it
end() {
    for pid in $store $(cat "$folder/nginx.pid" 2>/dev/null); do kill "$pid" 2>/dev/null || true; done
    rm -rf "$folder"
}
trap end EXIT
trap 'exit 1' HUP INT TERM
# the workers of nginx, which may be another user's, read it
chmod 755 "$folder"
mkdir "$folder/player"
cp "$here/player/index.html" "$folder/player"
for flow in "$@"; do
    # The store is in use while it is served, so this comes first.
    "$tams" manifest "$file" "http://127.0.0.1:$port" "$flow" _ >"$folder/player/$flow.m3u8"
done
sed "s/127\.0\.0\.1:8080/127.0.0.1:$port/; s/127\.0\.0\.1:8000/127.0.0.1:$store_port/" \
    "$here/player/nginx.conf" >"$folder/nginx.conf"
nginx -e stderr -p "$folder" -c "$folder/nginx.conf"
"$tams" serve "$file" "$store_port" "http://127.0.0.1:$port" 1000000 &
store=$!
echo "http://127.0.0.1:$port/player/"
wait "$store"
