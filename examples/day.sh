# shellcheck shell=sh
# Sourced by run and by ../rust/page-sets, after server.sh: a courier's tables and a working day on them.
# Each function asks the server that runs.
#
#   evening            makes the tables, in a database of their own (dispatch), and a checkpoint
#   morning            first_scan, which is the day's first look at the tables, and morning_updates
#   afternoon          more changes, inserts, deletes, and vacuum, which shortens two files
#   ROWS               how many consignments there are (default 60000, at least 1000, at most 50000000)

ROWS=${ROWS:-60000}
# With more rows some numbers below would leave the 32 bits that they have.
case $ROWS in
    *[!0-9]* | ?????????*) false ;;
    *) [ "$ROWS" -ge 1000 ] && [ "$ROWS" -le 50000000 ] ;;
esac || {
    echo "ROWS is a number from 1000 to 50000000, not '$ROWS'" >&2
    exit 2
}

# Indexes come before the rows: building one later would scan the table and set the hint bits that
# the first scan of the day is to set.
evening() {
    ask postgres "create database dispatch" || exit 1
    ask dispatch "
        create extension amcheck;
        create table rider (id int primary key, name text not null, bike text not null);
        create table consignment (
            id int primary key, rider int not null, sender text not null, recipient text not null,
            chilled boolean not null, due timestamptz not null, status text not null, note text);
        create index consignment_rider on consignment (rider, status);
        create index consignment_due on consignment (due);
        create table position_report (
            rider int not null, seen timestamptz not null, lat real not null, lon real not null);
        create index position_report_latest on position_report (rider, seen);
        create table handover (consignment int primary key, at timestamptz not null,
            signature bytea not null);
        create table scan_log (line int, at timestamptz not null, what text not null);
        create table batch (id int, consignment int not null, rider int not null);
        alter table handover alter signature set storage external;

        insert into rider select i, 'rider ' || i, 'bike ' || i * 7 % 40
            from generate_series(1, 40) i;
        insert into consignment
            select i, 1 + i % 40, 'sender ' || i % 900, 'recipient ' || i * 31 % 5000, i % 9 = 0,
                   '2026-03-02 06:00+00'::timestamptz + i * interval '1 second', 'waiting',
                   case when i % 5 = 0 then repeat('ring twice ', 4) end
            from generate_series(1, $ROWS) i;
        insert into position_report
            select 1 + i % 40, '2026-03-01 06:00+00'::timestamptz + i * interval '400 ms',
                   47 + (i % 1000) / 9999.0, 8 + (i % 777) / 9999.0
            from generate_series(1, $ROWS * 2) i;
        insert into handover
            select i * 20, '2026-03-01 12:00+00'::timestamptz + i * interval '1 minute',
                   decode(repeat(md5(i::text), 150), 'hex')
            from generate_series(1, $ROWS / 60) i;
        insert into scan_log
            select i, '2026-03-01 12:00+00'::timestamptz + i * interval '1 second',
                   'scanned at gate ' || i % 12
            from generate_series(1, $ROWS / 2) i;
        insert into batch
            select i, i * 7 % $ROWS, 1 + i % 40 from generate_series(1, $ROWS / 20) i;
        checkpoint" || exit 1
}

# The first look at the tables sets a hint bit in nearly every row.
first_scan() {
    ask dispatch "
        select count(*) from consignment where note is distinct from 'x';
        select count(*) from position_report where lat > 0;
        select count(*) from handover where length(signature) > 0;
        select count(*) from scan_log where what > '';
        select count(*) from batch where rider > 0" >/dev/null || exit 1
}

morning() {
    first_scan
    morning_updates
}

morning_updates() {
    ask dispatch "
        update consignment set status = 'on the road'
            where id between $ROWS / 2 and $ROWS / 2 + 3000 and id % 3 = 0;
        update consignment set status = 'handed over' where id between 1000 and 1400;
        update batch set rider = 1 + rider % 40" || exit 1
}

afternoon() {
    ask dispatch "
        update consignment set due = due + interval '1 hour' where id % 4999 = 0;
        update rider set bike = 'bike 41' where id = 7;
        delete from handover where consignment % 1400 = 0;
        delete from scan_log where line > $ROWS / 4;
        delete from batch;
        insert into position_report
            select 1 + i % 40, '2026-03-02 09:00+00'::timestamptz + i * interval '1 second',
                   47.2, 8.4 from generate_series(1, 2000) i;
        insert into handover
            select i * 20 + 1, '2026-03-02 12:00+00', decode(repeat(md5('x' || i), 150), 'hex')
            from generate_series(1, 60) i;
        reindex index rider_pkey" || exit 1
    # It shortens two files: scan_log loses its last pages, batch all of them.
    for table in consignment position_report handover scan_log batch rider; do
        ask dispatch "vacuum $table" || exit 1
    done
}
