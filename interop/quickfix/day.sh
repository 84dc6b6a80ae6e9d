# shellcheck shell=bash
# What the scripts that have QuickFIX trade at peglive share. They source it, call `prepare`, write $room/session.cfg and $room/words (the
# words that peglive gets beside its config, journal, address and desk), and then `trade`.
here=$(cd "$(dirname "${BASH_SOURCE[0]}")" && pwd)
programs=$(realpath "${PROGRAMS:-$here/../../bin}")

# Looks for what is wanted, and makes the folder of the day, $room, with the client in it. The ports from $port on are free.
prepare() {
  if [ ! -x "$programs/peglive" ]; then
    echo "interop: there is no $programs/peglive: ./build peglive, or PROGRAMS=bin/unproved once tools/unproved peglive has made it" >&2
    exit 1
  fi
  if [ ! -f /usr/include/quickfix/Session.h ]; then
    echo "interop: QuickFIX is not installed: apt-get install libquickfix-dev g++" >&2
    exit 1
  fi
  "$here/make_dictionaries" --check
  room=$(mktemp -d)
  trap clean EXIT
  port=${PORT:-$(python3 -c 'import random; print(random.randrange(17000, 30000))')}
  g++ -std=c++14 -O1 -Wno-deprecated -o "$room/live" "$here/live.cpp" -lquickfix -lpthread
  : >"$room/words"
  # ABC is quoted once, by hand: nothing may take that quote away.
  if "$programs/peglive" --help | grep -q -- --stale; then printf '%s\n' --stale 0 >"$room/words"; fi
  cat >"$room/kill" <<END
#!/usr/bin/env bash
kill -9 "\$(cat "$room/pid")"
END
  cat >"$room/start" <<END
#!/usr/bin/env bash
mapfile -t words <"$room/words"
"$programs/peglive" "$here/venue.config" "$room/journal" "127.0.0.1:$port" "$room/desk" "\${words[@]}" 2>>"$room/venue.log" &
echo \$! >"$room/pid"
exec "$here/quote" "$room/desk"
END
  chmod +x "$room/kill" "$room/start"
}

# Ends what still runs, and removes the folder.
clean() {
  local file
  for file in "$room"/pid "$room"/*.pid; do
    if [ -f "$file" ]; then kill "$(cat "$file")" 2>/dev/null || true; fi
  done
  wait
  rm -rf "$room"
}

# The settings of both members, each with the port that he connects to.
write_settings() {
  sed -e "s|@PORT@|$1|; s|@ROOM@|$room|; s|@HERE@|$here|; /RISK/,\$d" "$here/session.cfg.in" | sed -e '$d' >"$room/session.cfg"
  echo "SocketConnectPort=$2" >>"$room/session.cfg"
}

# The day: the venue is killed under the members, then the members' program and the venue are, and each comes back to what it has on the disk.
trade() {
  "$room/start"
  timeout 120 "$room/live" "$room/session.cfg" day "$room/kill" "$room/start"
  local status=0
  { timeout 60 "$room/live" "$room/session.cfg" leave; } 2>"$room/left" || status=$?
  if [ "$status" != 137 ]; then
    cat "$room/left" >&2
    echo "interop: the members' program ended with $status, and was to be killed" >&2
    exit 1
  fi
  echo "ok: the members' program is killed right after BANK's next order"
  "$room/kill"
  "$room/start"
  timeout 60 "$room/live" "$room/session.cfg" return
  "$room/kill"
}
