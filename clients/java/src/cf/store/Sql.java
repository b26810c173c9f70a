package cf.store;

import java.util.Arrays;
import java.util.List;

/** What is asked of PostgreSQL and SQLite, and what their errors mean. Written by clients/engines/generate: change clients/engines/*.sql. */
enum Sql {
    SCHEMA(text("select pg_advisory_xact_lock(6318042);"
                    + "\ncreate table if not exists cf_request (id bigserial primary key, name text not null unique, plan text not null,"
                    + "\nopened double precision not null, closed double precision, made_by xid8 not null default pg_current_xact_id());"
                    + "\ncreate index if not exists cf_request_open on cf_request (made_by) where closed is null;"
                    + "\ncreate table if not exists cf_word (request bigint, at int, word bigint not null, token bigint not null,"
                    + "\npayload bytea, made_by xid8 not null default pg_current_xact_id(), primary key (request, at));"
                    + "\ncreate index if not exists cf_word_made_by on cf_word (made_by);"
                    + "\ncreate table if not exists cf_beat (session bigint primary key, count bigint not null);"
                    + "\ncreate table if not exists cf_timer (request bigint, stage int, due double precision not null,"
                    + "\npayload bytea not null, primary key (request, stage));"
                    + "\ncreate index if not exists cf_timer_due on cf_timer (due);"
                    + "\ncreate table if not exists cf_glance (request bigint primary key, words int not null, said text not null);"
                    + "\ncreate table if not exists cf_name (request bigint, session bigint, name text not null,"
                    + "\nprimary key (request, session));"),
            text("create table if not exists cf_request (id integer primary key autoincrement, name text not null unique,"
                    + "\nplan text not null, opened real not null, closed real);"
                    + "\ncreate table if not exists cf_word (n integer primary key, request integer, at integer, word integer not null,"
                    + "\ntoken integer not null, payload blob, unique (request, at));"
                    + "\ncreate table if not exists cf_large (request integer, place integer, payload blob not null,"
                    + "\nprimary key (request, place));"
                    + "\ncreate table if not exists cf_beat (session integer primary key, count integer not null);"
                    + "\ncreate table if not exists cf_timer (request integer, stage integer, due real not null, payload blob not null,"
                    + "\nprimary key (request, stage)) without rowid;"
                    + "\ncreate index if not exists cf_timer_due on cf_timer (due);"
                    + "\ncreate index if not exists cf_request_open on cf_request (id) where closed is null;"
                    + "\ncreate table if not exists cf_glance (request integer primary key, words integer not null, said text not null);"
                    + "\ncreate table if not exists cf_name (request integer, session integer, name text not null,"
                    + "\nprimary key (request, session)) without rowid;")),
    IS_MADE(text("select bool_and(to_regclass(name) is not null) from unnest(array['cf_request', 'cf_request_open', 'cf_word',"
                    + "\n'cf_word_made_by', 'cf_beat', 'cf_timer', 'cf_timer_due', 'cf_glance', 'cf_name']) as name"),
            null),
    UNSAFE_SETTINGS(text("select name, current_setting(name) from (values ('fsync', 'on'), ('full_page_writes', 'on'),"
                    + "\n('transaction_read_only', 'off')) as safe(name, setting) where current_setting(name) <> setting"),
            null),
    IS_READ_ONLY(text("select current_setting('transaction_read_only') = 'on'"),
            null),
    ANSWER_FROM_DISK(text("select set_config('synchronous_commit', 'on', false)"
                    + "\nwhere current_setting('synchronous_commit') in ('off', 'local')"),
            text("pragma synchronous = full")),
    ANSWER_AT_ONCE(text("set synchronous_commit = off"),
            null),
    LISTEN(text("listen cf"),
            null),
    NOTIFY(text("notify cf"),
            null),
    NOW(text("select extract(epoch from clock_timestamp())::double precision"),
            null),
    OPEN(text("insert into cf_request (name, plan, opened)"
                    + "\nvalues (?::text, ?::text, extract(epoch from clock_timestamp())::double precision) on conflict do nothing", 0, 1),
            text("insert into cf_request (name, plan, opened)"
                    + "\nvalues (?, ?, (julianday('now') - 2440587.5) * 86400.0) on conflict do nothing", 0, 1)),
    FIND(text("select id, plan, opened from cf_request where name = ?::text", 0),
            text("select id, plan, opened from cf_request where name = ?", 0)),
    LOCK_CLOSING(text("select pg_advisory_xact_lock(6318043, (?::bigint % 2147483648)::int)", 0),
            null),
    END(text("with closed as (update cf_request set closed = extract(epoch from clock_timestamp())::double precision"
                    + "\nwhere id = ?::bigint and closed is null"
                    + "\nand (select coalesce(max(at) + 1, 0) from cf_word where request = id) = ?::int returning id),"
                    + "\ntimers as (delete from cf_timer where request in (select id from closed)),"
                    + "\nglances as (delete from cf_glance where request in (select id from closed))"
                    + "\nselect exists (select 1 from closed) from cf_request where id = ?::bigint", 0, 1, 0),
            text("update cf_request set closed = (julianday('now') - 2440587.5) * 86400.0 where id = ? and closed is null"
                    + "\nand (select coalesce(max(at) + 1, 0) from cf_word where request = id) = ?", 0, 1)),
    OPEN_AGAIN(text("with opened as (update cf_request set closed = null, made_by = pg_current_xact_id()"
                    + "\nwhere id = ?::bigint and closed is not null)"
                    + "\nselect 1 from cf_request where id = ?::bigint", 0, 0),
            text("update cf_request set closed = null where id = ? and closed is not null", 0)),
    PUT(text("insert into cf_word select id, ?::int, ?::bigint, ?::bigint, ?::bytea"
                    + "\nfrom (select id from cf_request where id = ?::bigint for key share) as there on conflict do nothing", 1, 2, 3, 4, 0),
            text("insert into cf_word (request, at, word, token, payload) select id, ?, ?, ?, ? from cf_request"
                    + "\nwhere id = ? and not exists (select 1 from cf_word where request = ? and at >= ?)", 1, 2, 3, 4, 0, 0, 1)),
    PUT_GROUP(text("insert into cf_word select id, v.* from (select id from cf_request where id = ?::bigint for key share) as there,"
                    + "\nunnest(?::int[], ?::bigint[], ?::bigint[], ?::bytea[]) as v", 0, 1, 2, 3, 4),
            null),
    READ_WITH_PAYLOADS(text("select at, word, token, case when octet_length(payload) <= 512 then payload end"
                    + "\nfrom cf_request left join cf_word on request = id and at >= ?::int where id = ?::bigint order by at", 1, 0),
            text("select at, word, token, payload from cf_request left join cf_word on request = id and at >= ?"
                    + "\nwhere id = ? order by at", 1, 0)),
    PAYLOADS(text("select at, payload from cf_request left join cf_word on request = id and at = any(?::int[]) and payload is not null"
                    + "\nwhere id = ?::bigint", 1, 0),
            null),
    MARK(text("select pg_snapshot_xmin(pg_current_snapshot())::text::bigint"),
            text("select (select coalesce(max(n), 0) from cf_word), (select coalesce(max(id), 0) from cf_request)")),
    ENDS(text("select name, (select coalesce(max(at) + 1, 0) from cf_word where request = id) from cf_request where closed is null"),
            text("select name, (select coalesce(max(at) + 1, 0) from cf_word where request = id) from cf_request where closed is null")),
    NEWS(text("select null, pg_snapshot_xmin(pg_current_snapshot())::text::bigint union all"
                    + "\nselect name, 0 from cf_request where closed is null and made_by >= ?::text::xid8 union all"
                    + "\nselect name, case when closed is null then max(at) + 1 else -1 end from cf_word w join cf_request on id = request"
                    + "\nwhere w.made_by >= ?::text::xid8 group by name, closed", 0, 0),
            text("select null, (select coalesce(max(n), 0) from cf_word), (select coalesce(max(id), 0) from cf_request) union all"
                    + "\nselect name, 0, null from cf_request where id > ? and closed is null union all"
                    + "\nselect name, case when closed is null then max(at) + 1 else -1 end, null from cf_word join cf_request on id = request"
                    + "\nwhere n > ? group by +request", 1, 0)),
    BEAT(text("insert into cf_beat values (?::bigint, 1) on conflict (session) do update set count = cf_beat.count + 1", 0),
            text("insert into cf_beat (session, count) values (?, 1) on conflict (session) do update set count = count + 1", 0)),
    BEATS(text("select session, count from cf_beat"),
            text("select session, count from cf_beat")),
    DROP_BEAT(text("with names as (delete from cf_name where request = 0 and session = ?::bigint)"
                    + "\ndelete from cf_beat where session = ?::bigint", 0, 0),
            text("delete from cf_beat where session = ?", 0)),
    NAME_SESSION(text("insert into cf_name values (0, ?::bigint, ?::text) on conflict (request, session) do update set name = excluded.name", 0, 1),
            text("insert into cf_name (request, session, name) values (0, ?, ?)"
                    + "\non conflict (request, session) do update set name = excluded.name", 0, 1)),
    SESSION_NAMES(text("select session, name from cf_name where request = ?::bigint", 0),
            text("select session, name from cf_name where request = ?", 0)),
    SET_TIMER(text("insert into cf_timer select id, ?::int, ?::double precision, ?::bytea"
                    + "\nfrom (select id from cf_request where id = ?::bigint for key share) as there"
                    + "\non conflict (request, stage) do update set due = excluded.due, payload = excluded.payload", 1, 2, 3, 0),
            text("insert into cf_timer (request, stage, due, payload)"
                    + "\nselect id, ?, ?, ? from cf_request where id = ?"
                    + "\non conflict (request, stage) do update set due = excluded.due, payload = excluded.payload", 1, 2, 3, 0)),
    DUE_TIMERS(text("select name, id, stage, due, payload from cf_timer join cf_request on id = request"
                    + "\nwhere due <= ?::double precision order by due", 0),
            text("select name, id, stage, due, payload from cf_timer join cf_request on id = request"
                    + "\nwhere due <= ? order by due", 0)),
    DROP_TIMER(text("delete from cf_timer where request = ?::bigint and stage = ?::int", 0, 1),
            text("delete from cf_timer where request = ? and stage = ?", 0, 1)),
    SET_JOURNAL(null,
            text("pragma journal_mode = wal")),
    VERSION(null,
            text("pragma data_version")),
    IS_THERE(null,
            text("select 1 from cf_request where id = ?", 0)),
    DROP_TIMERS(null,
            text("delete from cf_timer where request = ?", 0)),
    DROP_GLANCE(null,
            text("delete from cf_glance where request = ?", 0)),
    PUT_TWO(null,
            text("insert into cf_word (request, at, word, token, payload)"
                    + "\nselect id, v.* from cf_request, (values (?, ?, ?, ?),"
                    + "\n(? + 1, ?, ?, ?)) as v"
                    + "\nwhere id = ? and not exists (select 1 from cf_word where request = ? and at >= ?)", 1, 2, 3, 4, 1, 5, 6, 7, 0, 0, 1)),
    PUT_LARGE(null,
            text("insert into cf_large (request, place, payload) values (?, ?, ?)", 0, 1, 2)),
    PAYLOAD(null,
            text("select coalesce(payload, (select payload from cf_large where request = ? and place = ?)) from cf_word"
                    + "\nwhere request = ? and at = ? - 1", 0, 1, 0, 1)),
    DROP_SESSION_NAME(null,
            text("delete from cf_name where request = 0 and session = ?", 0));

    /** What SQLSTATEs begin with of errors that mean that the engine is away, or that a place is taken. */
    static final List<String> POSTGRES_AWAY = Arrays.asList("08", "25006", "26", "40", "53", "55", "57", "58");
    static final List<String> POSTGRES_TAKEN = Arrays.asList("23505");
    /** Primary result codes that mean that the engine is away. */
    static final List<Integer> SQLITE_AWAY = Arrays.asList(1, 3, 4, 5, 6, 7, 8, 9, 10, 13, 14, 15, 17);

    private final Text postgres, sqlite;

    Sql(Text postgres, Text sqlite) {
        this.postgres = postgres;
        this.sqlite = sqlite;
    }

    /** The statement for an engine. */
    Text of(Engine engine) {
        return engine == Engine.POSTGRES ? postgres : sqlite;
    }

    /** An engine with tables. */
    enum Engine {
        POSTGRES, SQLITE
    }

    /** A statement with a question mark for each value, and which of the given values these are. */
    static final class Text {
        final String text;
        final int[] order;

        private Text(String text, int[] order) {
            this.text = text;
            this.order = order;
        }
    }

    private static Text text(String text, int... order) {
        return new Text(text, order);
    }
}
