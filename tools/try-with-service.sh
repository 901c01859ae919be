#!/bin/sh
# tools/try-with-service.sh --yes [mariadb|postgresql|sqlite ..]: tries both exports and the program with Debian's packages of Placement, over each of
# these databases (all three, if none is named). It installs packages, so run it as root, on a machine where you may do that. Without --yes it only says
# what it would do. Databases and service live in a folder under /tmp, use sockets in it and a port of 127.0.0.1, and are gone at the end.
# tools/try_with_service.py has what is tried. The program is out/ac_cli, or what AC_CLI names. docs/EXPORT.md has the results.
#
# --traces N: tries N traces of claims, moves and releases too, over each database. Each takes some seconds.
#
# For another version of Placement:
# --suite NAME: that of this suite of Debian (as trixie), unpacked into the folder under /tmp, beside what is installed.
# --from DIR: that in this folder, where the Python package `placement` is, as at the top of a checkout.
# --url URL: a service that runs already, whatever its version. It must be empty. Nothing is installed, and the exports aren't tried. The token is OS_TOKEN,
#   or `admin`. A database that is named says which one the service has.

set -eu
export LC_ALL=C.UTF-8
packages='python3-placement python3-openstackclient python3-osc-placement mariadb-server-core mariadb-client-core python3-pymysql
    postgresql python3-psycopg2 sqlite3 python3-gabbi'

started=$PWD
cd -- "$(dirname -- "$0")/.."
program=$(readlink -f -- "${AC_CLI:-out/ac_cli}" || :)

stop() {
    echo "try-with-service: $1" >&2
    exit 1
}

missing() {
    for package in $packages; do
        test "$(dpkg-query -W -f='${db:Status-Status}' "$package" 2>/dev/null || :)" = installed || echo "$package"
    done
}

# unpack SUITE: unpacks Placement of this suite of Debian beside what is installed, and sets `from`. The mirror is the machine's own.
unpack() {
    mirror=$(apt-get indextargets --format '$(REPO_URI)' 'Identifier: Packages' | grep '/debian/$' | head -n 1)
    test -n "$mirror" || stop 'this machine has no mirror of Debian'
    mkdir -p "$room/apt/lists/partial" "$room/apt/cache/archives/partial" "$room/unpacked"
    echo "deb $mirror $1 main" >"$room/apt/sources.list"
    set -- -qq -o APT::Sandbox::User=root -o Dir::Etc::SourceList="$room/apt/sources.list" -o Dir::Etc::SourceParts=- \
        -o Dir::State::Lists="$room/apt/lists" -o Dir::Cache="$room/apt/cache"
    apt-get "$@" update
    (cd "$room/unpacked" && apt-get "$@" download python3-placement python3-os-traits python3-os-resource-classes)
    for file in "$room"/unpacked/*.deb; do
        dpkg-deb -x "$file" "$room/unpacked"
    done
    from=$room/unpacked/usr/lib/python3/dist-packages
}

# loaded: which Placement Python finds with `from` first on its path; it must be the one there
loaded() {
    env PYTHONPATH="$from" /usr/bin/python3 - "$from" <<'X'
import importlib.metadata
import os
import sys
import placement
folder = os.path.dirname(os.path.dirname(os.path.realpath(placement.__file__)))
if folder != os.path.realpath(sys.argv[1]):
    sys.exit(f'try-with-service: Placement is loaded from {folder}, not from {sys.argv[1]}')
known = [one.version for one in importlib.metadata.distributions(path=[folder]) if one.metadata['Name'] == 'openstack-placement']
print('openstack-placement', *(known or ['of a version that it does not tell']), 'from', folder)
X
}

# run LOG COMMAND..: starts a server, which writes to that file
run() {
    log=$1
    shift
    "$@" >"$log" 2>&1 &
    running="$! $running"
}

# end: ends the servers that were started, the last one first
end() {
    for one in $running; do
        kill "$one" 2>/dev/null || :
        wait "$one" 2>/dev/null || :
    done
    running=
}

# until_ok COMMAND..: waits until the command succeeds, at most a minute
until_ok() {
    tries=0
    until "$@" >"$room/tried" 2>&1; do
        tries=$((tries + 1))
        test $tries -lt 60 || stop "not there after a minute: $* $(cat "$room/tried")"
        sleep 1
    done
}

# Each of the next three functions starts an empty database, and sets `connection`, which is what the service calls that database.
mariadb_server() {
    set -- --no-defaults --user=root --datadir="$room/mariadb"
    mariadb-install-db "$@" --auth-root-authentication-method=normal --skip-test-db >"$room/install.log" 2>&1
    run "$room/mariadb.log" mariadbd "$@" --socket="$room/mariadb.socket" --pid-file="$room/mariadb.pid" --skip-networking
    until_ok mariadb --no-defaults --user=root --socket="$room/mariadb.socket" -e 'CREATE DATABASE placement CHARACTER SET utf8'
    connection="mysql+pymysql://root@localhost/placement?unix_socket=$room/mariadb.socket"
}

postgresql_server() {
    programs=$(ls -d /usr/lib/postgresql/*/bin | tail -n 1)
    mkdir "$room/postgresql"
    chown postgres "$room/postgresql"
    set -- setpriv --reuid=postgres --regid=postgres --init-groups
    "$@" "$programs/initdb" -A trust -U placement -D "$room/postgresql/data" >"$room/install.log" 2>&1
    run "$room/postgresql.log" "$@" "$programs/postgres" -D "$room/postgresql/data" -c listen_addresses= \
        -c unix_socket_directories="$room/postgresql"
    until_ok createdb -h "$room/postgresql" -U placement placement
    connection="postgresql+psycopg2://placement@/placement?host=$room/postgresql"
}

sqlite_server() {
    connection="sqlite:///$room/placement.db"
}

# try DATABASE CLIENT [ARG..]: starts the service over the database that `connection` names, and tries everything. CLIENT ARG.. opens that database.
try() {
    database=$1
    shift
    mkdir "$room/$database.conf"
    cat >"$room/$database.conf/placement.conf" <<X
[api]
auth_strategy = noauth2
[placement_database]
connection = $connection
X
    env ${from:+"PYTHONPATH=$from"} placement-manage --config-file "$room/$database.conf/placement.conf" db sync >"$room/sync.log" 2>&1 ||
        stop "no schema: $(cat "$room/sync.log")"
    port=$(python3 -c 'import socket; s = socket.socket(); s.bind(("127.0.0.1", 0)); print(s.getsockname()[1])')
    run "$room/service.log" env OS_PLACEMENT_CONFIG_DIR="$room/$database.conf" ${from:+"PYTHONPATH=$from"} placement-api --host 127.0.0.1 --port "$port"
    until_ok python3 -c "import urllib.request; urllib.request.urlopen('http://127.0.0.1:$port/')"
    python3 tools/try_with_service.py "http://127.0.0.1:$port" "$program" "$database" "$traces" "$@" || failed=yes
}

wanted=
told=no
from=
suite=
url=
traces=0
usage='usage: tools/try-with-service.sh --yes [--suite NAME | --from DIR | --url URL] [--traces N] [mariadb|postgresql|sqlite ..]'
while test $# -gt 0; do
    case $1 in
    --yes) told=yes ;;
    --suite | --from | --url)
        test $# -gt 1 && test -n "$2" && test -z "$suite$from$url" || stop "$usage"
        case $1 in
        --suite) suite=$2 ;;
        --from)
            from=$(cd -- "$started" && readlink -f -- "$2" || :)
            test -f "$from/placement/__init__.py" || stop "there is no Python package placement in $2"
            ;;
        --url) url=${2%/} ;;
        esac
        shift
        ;;
    --traces)
        case ${2:-} in
        '' | *[!0-9]*) stop "$usage" ;;
        esac
        traces=$2
        shift
        ;;
    mariadb | postgresql | sqlite) wanted="$wanted $1" ;;
    *) stop "$usage" ;;
    esac
    shift
done

if test -n "$url"; then
    if test $told = no; then
        echo "This puts clouds into the service at $url by its API, asks service and program the same, and deletes the clouds again. It begins only if"
        echo 'the service has no resource providers, so use one that is for tests. Custom traits and resource classes stay in it, and so do the project and the'
        echo 'user that it is told of, `try`. The token is OS_TOKEN, or else `admin`. With --yes it begins.'
        exit 2
    fi
    test -x "$program" || stop 'there is no program: build it by ./ac_cli, or name it by AC_CLI'
    case $wanted in
    ' '*' '*) stop 'a service has one database' ;;
    esac
    exec python3 tools/try_with_service.py "$url" "$program" "${wanted# }" "$traces"
fi

if test $told = no; then
    echo 'This installs packages of Debian as root, those of these that are missing:'
    echo "   " $packages
    echo "(that of PostgreSQL sets up a cluster of its own, which isn't used here). Then it starts databases and the service in a folder under"
    echo '/tmp, fills them, asks them, and ends them. Nothing else of the machine is touched. With --yes it begins.'
    test -z "$suite" || echo "Placement itself is that of Debian's suite $suite, unpacked into that folder."
    test -z "$from" || echo "Placement itself is that in $from."
    exit 2
fi
test "$(id -u)" = 0 || stop 'this is for root'
test -x "$program" || stop 'there is no program: build it by ./ac_cli, or name it by AC_CLI'
lacking=$(missing)
test -z "$lacking" || {
    apt-get update
    DEBIAN_FRONTEND=noninteractive apt-get install -y --no-install-recommends $lacking
}

room=$(mktemp -d /tmp/try-with-service.XXXXXX)
chmod 711 "$room"
running=
failed=no
trap 'end; rm -rf -- "$room"' EXIT
trap 'exit 1' HUP INT TERM

dpkg-query -W -f='${Package} ${Version}\n' $packages
test -z "$suite" || unpack "$suite"
test -z "$from" || loaded
for database in ${wanted:-mariadb postgresql sqlite}; do
    "${database}_server"
    case $database in
    mariadb) try mariadb mariadb --no-defaults --user=root --socket="$room/mariadb.socket" placement ;;
    postgresql) try postgresql psql -h "$room/postgresql" -U placement placement ;;
    sqlite) try sqlite sqlite3 "$room/placement.db" ;;
    esac
    end
done
test $failed = no
