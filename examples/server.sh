# shellcheck shell=sh disable=SC2034 # sourced; its variables are used by others
# Sourced by run, make-pages and ../rust/page-sets, after tests/common.sh: a PostgreSQL server of our own,
# on a private socket in a temporary folder, gone again however the script ends.
#
#   choose_user         who the server runs as; to be called before start_workplace
#   start_workplace     makes $WORK, a temporary folder, and $SOCKETS, the socket's, which is the same if
#                       it can be; sees to their removal
#   new_folder DATA     initdb with data checksums
#   start DATA, stop    a server on that folder; stop is a clean one
#   ask SQL...          runs SQL, answers without decoration

WORK=
SOCKETS=
SERVER_DATA=
SERVER_USER=

# Servers do not run as root: there, everything is done by the user postgres, or else nobody.
choose_user() {
    [ "$(id -u)" = 0 ] || return 0
    for user in postgres nobody; do
        if id -u "$user" >/dev/null 2>&1; then
            SERVER_USER=$user
            break
        fi
    done
    if [ -z "$SERVER_USER" ] || ! { have runuser || have setpriv; }; then
        echo "run this as another user than root: a PostgreSQL server refuses to run as root," >&2
        echo "and there is no user postgres or nobody, or no runuser or setpriv" >&2
        exit 2
    fi
}

# Runs a command as the server's user, with no settings of somebody else's server.
as_user() {
    set -- env -i PATH="$PATH" HOME="$WORK" LC_ALL=C \
        ${QEMU_LD_PREFIX:+QEMU_LD_PREFIX="$QEMU_LD_PREFIX"} "$@"
    if [ -z "$SERVER_USER" ]; then
        "$@"
    elif have runuser; then
        runuser -u "$SERVER_USER" -- "$@"
    else
        setpriv --reuid="$SERVER_USER" --regid="$(id -g "$SERVER_USER")" --clear-groups -- "$@"
    fi
}

clean_up() {
    status=$?
    trap - EXIT
    if [ -n "$SERVER_DATA" ]; then
        as_user "$PG/pg_ctl" -D "$SERVER_DATA" -m immediate -w stop >/dev/null 2>&1
    fi
    if [ -n "$WORK" ]; then
        cd / && rm -rf "$WORK" ${SOCKETS:+"$SOCKETS"}
    fi
    exit "$status"
}

# own_folder PARENT: a new folder of the server's user, by its whole path.
own_folder() {
    made=$(mktemp -d "$1/thx.XXXXXX") && made=$(cd "$made" && pwd) || return 1
    if [ -n "$SERVER_USER" ]; then
        chown "$SERVER_USER:$(id -g "$SERVER_USER")" "$made" || return 1
    fi
    echo "$made"
}

# The server's user must get there: a folder on the way may be open to root alone.
must_be_open() {
    if [ -z "$SERVER_USER" ] || as_user test -w "$WORK"; then
        return
    fi
    if ! as_user true; then
        echo "root cannot run anything as the user $SERVER_USER: run this as another user" >&2
        exit 2
    fi
    closed=$WORK
    while parent=$(dirname "$closed") && [ "$parent" != / ] && ! as_user test -x "$parent"; do
        closed=$parent
    done
    echo "the server runs as the user $SERVER_USER, to whom this folder is closed: $closed" >&2
    echo "set TMPDIR to a folder that is open to all, /tmp for instance" >&2
    exit 2
}

# A socket's path has at most 107 bytes, and the server takes its folders as a list with commas.
fits_socket() {
    case $1 in
        *[!A-Za-z0-9/._-]*) return 1 ;;
    esac
    socket=$1/.s.PGSQL.5432
    [ ${#socket} -le 107 ]
}

start_workplace() {
    trap clean_up EXIT
    trap 'exit 130' INT
    trap 'exit 143' TERM HUP
    WORK=$(own_folder "${TMPDIR:-/tmp}") || {
        echo "set TMPDIR to a folder that can be written to" >&2
        exit 2
    }
    must_be_open
    SOCKETS=$WORK
    fits_socket "$WORK" || SOCKETS=$(own_folder /tmp) || {
        echo "set TMPDIR to a folder with a shorter or plainer name" >&2
        exit 2
    }
    # The user may not be allowed to stand where the script was started.
    cd "$WORK" || exit 2
}

# A step that must succeed; what it printed is shown if it does not.
must() {
    if ! as_user "$@" >"$WORK/log" 2>&1; then
        cat "$WORK/log" >&2
        echo "failed: $*" >&2
        exit 1
    fi
}

new_folder() {
    must "$PG/initdb" -D "$1" -U courier --data-checksums --no-sync --no-locale -E UTF8 \
        --auth=trust --wal-segsize=1
    as_user tee -a "$1/postgresql.conf" >/dev/null <<CONF || exit 1
listen_addresses = ''
unix_socket_directories = '$SOCKETS'
unix_socket_permissions = 0700
autovacuum = off
max_wal_senders = 0
wal_level = minimal
shared_buffers = 64MB
fsync = off
jit = off
timezone = 'UTC'
CONF
}

start() {
    SERVER_DATA=$1
    if ! as_user "$PG/pg_ctl" -D "$1" -l "$WORK/server.log" -w -t 120 start >"$WORK/log" 2>&1; then
        cat "$WORK/log" "$WORK/server.log" >&2
        exit 1
    fi
}

stop() {
    must "$PG/pg_ctl" -D "$SERVER_DATA" -m fast -w -t 120 stop
    SERVER_DATA=
}

# ask DATABASE SQL
ask() {
    as_user "$PG/psql" -X -q -A -t -v ON_ERROR_STOP=1 -h "$SOCKETS" -U courier -d "$1" -c "$2"
}

# The path, name and owner (user or system) of every relation with a file, by tabs.
names_sql="
select pg_relation_filepath(c.oid) || E'\t' ||
       case when owner.oid is null then c.relname
            else owner.relname || ' (long values' ||
                 case when c.relkind = 'i' then ', index)' else ')' end end || E'\t' ||
       case when coalesce(owner.oid, c.oid) < 16384 then 'system' else 'user' end
from pg_class c
left join pg_index i on i.indexrelid = c.oid
left join pg_class owner on owner.reltoastrelid in (c.oid, i.indrelid)
where pg_relation_filepath(c.oid) is not null
order by 1"
