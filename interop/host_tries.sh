# The tries of `h2 host` of interop/peers, which reads this file.

# host WORD ..: starts `h2 host` with these words at a new port
host() {
  next_port
  timeout 300 "$program" host "$@" "$port" > served 2> served.err < /dev/null &
  server=$!
  await "$port" "$server"
}

# status_of CURL-WORD ..: the status of an answer
status_of() { ask -o answer -w '%{http_code}' "$@"; }

make_root() {
  make_files
  mkdir -p files/sub
  echo hello > files/index.html
  echo below > files/sub/index.html
  echo hidden > files/.hidden
  echo outside > outside
  ln -sfn index.html files/link
  ln -sfn sub files/linked
  chmod -R a+rX files
}

# Each status of a file, and the paths that lead nowhere.
host_files() {
  make_root
  host --root files
  local tag
  [ "$(ask "$(url /)")" = hello ] && [ "$(ask "$(url /sub/)")" = below ] || return 1
  ask -o answer "$(url /large)" && cmp -s answer files/large || return 1
  [ "$(status_of -r 100000-100099 "$(url /large)")" = 206 ] &&
    head -c 100100 files/large | tail -c 100 | cmp -s - answer || return 1
  tag=$(ask -I "$(url /small)" | sed -n 's/^etag: \(.*\)\r$/\1/p')
  [ -n "$tag" ] && [ "$(status_of -H "if-none-match: \"x\"" -H "if-none-match: $tag" "$(url /small)")" = 304 ] || return 1
  [ "$(status_of -H 'if-match: "x"' "$(url /small)")" = 412 ] || return 1
  [ "$(status_of -r 99999999- "$(url /large)")" = 416 ] || return 1
  [ "$(status_of --data x "$(url /small)")" = 405 ] || return 1
  local path
  for path in /none /.hidden /sub /small/ /../outside /%2e%2e/outside /sub/%2e%2e/%2e%2e/outside /a%2fb /%00; do
    case $(status_of --path-as-is "$(url "$path")") in 400 | 404) ;; *) echo "  $path" >&2 && return 1 ;; esac
  done
  [ "$(status_of "$(url /link)")" = 403 ] && [ "$(status_of "$(url /linked/)")" = 403 ] && [ ! -s served.err ]
}

host_echoes() {
  host
  octets 300000
  ask --data-binary @body -o answer "$(url /)" && echoed answer && [ "$(ask "$(url /a)")" = 'GET /a' ]
}

host_nghttp() {
  make_root
  host --root files
  nghttp -m 100 "$(url /)" > answer 2> nghttp.err && [ "$(grep -c '^hello$' answer)" = 100 ]
}

# host_load CONNECTIONS AT-ONCE REQUESTS
host_load() {
  make_root
  host --root files
  h2load -c "$1" -m "$2" -n "$3" "$(url /)" > load 2>&1
  grep -q " $3 succeeded, 0 failed, 0 errored, 0 timeout" load && [ ! -s served.err ]
}

# A line a request, of which none ends its quotes or its line.
host_log() {
  make_root
  host --root files --log
  ask "$(url /)" > /dev/null # curl 7.88 can't ask nghttpd twice on one connection either
  ask "$(url '/none%0a"\')" > /dev/null
  ask -I "$(url /small)" > /dev/null
  sleep 1
  cut -d' ' -f1-3,6- served > answer
  printf '%s\n' '127.0.0.1 - - "GET / HTTP/2.0" 200 6' \
    '127.0.0.1 - - "GET /none%0a\x22\x5c HTTP/2.0" 404 14' \
    '127.0.0.1 - - "HEAD /small HTTP/2.0" 200 0' | cmp -s - answer
}

# Standard input is closed under load: all that was asked is answered.
host_until_closed() {
  make_root
  next_port
  mkfifo "pipe$port"
  timeout 300 "$program" host --root files --until-closed "$port" < "pipe$port" > served 2> served.err &
  server=$!
  exec 4> "pipe$port"
  await "$port" "$server" || return 1
  python3 "$root/bench/clients/leaving.py" "$port" 20 > asked 4>&- &
  local asking=$!
  until [ -s asked ] || ! kill -0 "$asking" 2> /dev/null; do sleep 0.1; done
  exec 4>&-
  wait "$asking" && served 0
}

# A file gets shorter while it is sent: the stream is reset with code 2.
host_shrinks() {
  make_root
  head -c 50000000 /dev/zero > files/shrinks
  host --root files
  ask --limit-rate 1M -o answer "$(url /shrinks)" 2> curl.err &
  local asking=$!
  sleep 1
  : > files/shrinks
  wait "$asking"
  [ $? = 92 ] && grep -q '(err 2)' curl.err && [ "$(ask "$(url /)")" = hello ]
}

# A table of descriptors that is full: those that wait are served once others end, and a file that
# can't be opened for want of one is 503.
host_full_table() {
  make_root
  next_port
  (ulimit -n 40 && exec timeout 300 "$program" host --root files "$port" > served 2> served.err < /dev/null) &
  server=$!
  await "$port" "$server" && python3 "$root/bench/clients/full.py" "$port" 100 > answer &&
    [ "$(ask "$(url /)")" = hello ] && [ ! -s served.err ]
}

# host_ends KIND CODE: a client that behaves badly is ended with this code, and the next is served
host_ends() {
  make_root
  host --root files
  timeout 60 python3 "$root/bench/clients/hostile.py" "$1" "$port" 30 > answer
  # A connection that is closed while octets come is reset, and what was sent last may be lost.
  grep -Eq "^ended after .* GOAWAY \[($2)?\]$" answer && [ "$(ask "$(url /)")" = hello ]
}

# without_pipes COMMAND ..: a command that doesn't keep the pipes of hosts open
without_pipes() { exec "$@" 4>&- 5>&- 6>&- 7>&-; }

# Four hosts behind haproxy, one of which ends in order under load.
host_haproxy() {
  make_root
  next_port
  local front=$port first="" number pids="" good=1
  sed "s/127.0.0.1:9010/127.0.0.1:$front/" "$root/examples/haproxy.cfg" > haproxy.cfg
  for number in 1 2 3 4; do
    next_port
    sed -i "s/127.0.0.1:901$number\$/127.0.0.1:$port/" haproxy.cfg
    mkfifo "pipe$port"
    without_pipes timeout 300 "$program" host --root files --until-closed "$port" \
      < "pipe$port" 2>> served.err &
    pids+=" $!"
    peers+=" $!"
    first=${first:-$!}
    eval "exec $((number + 3))> 'pipe$port'"
    await "$port" "${pids##* }" || return 1
  done
  port=$front
  without_pipes haproxy -f haproxy.cfg > haproxy.log 2>&1 &
  local proxy=$!
  peers+=" $proxy"
  await "$port" "$proxy" && [ "$(ask "$(url /)")" = hello ] || return 1
  without_pipes h2load -c 10 -m 10 -n 30000 "$(url /)" > load 2>&1 &
  local loading=$!
  sleep 1
  exec 4>&-
  wait "$first" && wait "$loading"
  grep -q " 30000 succeeded, 0 failed, 0 errored, 0 timeout" load && good=0
  exec 5>&- 6>&- 7>&-
  stop "$proxy"
  for number in $pids; do stop "$number"; done
  return "$good"
}

try_host() {
  attempt 'host: files' curl host_files
  attempt 'host: what was asked' curl host_echoes
  attempt 'host: nghttp 100 requests' nghttp host_nghttp
  attempt 'host: h2load on 1 connection' h2load host_load 1 10 20000
  attempt 'host: h2load on 20' h2load host_load 20 10 20000
  attempt 'host: h2load on 500' h2load host_load 500 10 20000
  attempt 'host: the log' curl host_log
  attempt 'host: standard input closed under load' python3 host_until_closed
  attempt 'host: a file that gets shorter' curl host_shrinks
  attempt 'host: no descriptor left' h2load host_full_table
  attempt 'host: a silent client' python3 host_ends silent 4
  local kind
  for kind in resets pings settings empty malformed; do
    attempt "host: $kind" python3 host_ends "$kind" 11
  done
  attempt 'host: four behind haproxy' haproxy host_haproxy
}
