"""Written by clients/engines/generate: change clients/engines/postgres.sql."""
SCHEMA = """
select pg_advisory_xact_lock(6318042);
create table if not exists cf_request (id bigserial primary key, name text not null unique, plan text not null,
    opened double precision not null, closed double precision, made_by xid8 not null default pg_current_xact_id());
create index if not exists cf_request_open on cf_request (made_by) where closed is null;
create table if not exists cf_word (request bigint, at int, word bigint not null, token bigint not null,
    payload bytea, made_by xid8 not null default pg_current_xact_id(), primary key (request, at));
create index if not exists cf_word_made_by on cf_word (made_by);
create table if not exists cf_beat (session bigint primary key, count bigint not null);
create table if not exists cf_timer (request bigint, stage int, due double precision not null,
    payload bytea not null, primary key (request, stage));
create index if not exists cf_timer_due on cf_timer (due);
create table if not exists cf_glance (request bigint primary key, words int not null, said text not null);
create table if not exists cf_name (request bigint, session bigint, name text not null,
    primary key (request, session));
"""
IS_MADE = """
select bool_and(to_regclass(name) is not null) from unnest(array['cf_request', 'cf_request_open', 'cf_word',
    'cf_word_made_by', 'cf_beat', 'cf_timer', 'cf_timer_due', 'cf_glance', 'cf_name']) as name
"""
UNSAFE_SETTINGS = """
select name, current_setting(name) from (values ('fsync', 'on'), ('full_page_writes', 'on'),
    ('transaction_read_only', 'off')) as safe(name, setting) where current_setting(name) <> setting
"""
IS_READ_ONLY = "select current_setting('transaction_read_only') = 'on'"
ANSWER_FROM_DISK = """
select set_config('synchronous_commit', 'on', false)
    where current_setting('synchronous_commit') in ('off', 'local')
"""
ANSWER_AT_ONCE = "set synchronous_commit = off"
LISTEN = "listen cf"
NOTIFY = "notify cf"
NOW = "select extract(epoch from clock_timestamp())::double precision"
OPEN = """
insert into cf_request (name, plan, opened)
    values (%(name)s::text, %(plan)s::text, extract(epoch from clock_timestamp())::double precision) on conflict do nothing
"""
FIND = "select id, plan, opened from cf_request where name = %(name)s::text"
LOCK_CLOSING = "execute cf_lock_closing(%(request)s)"
END = """
with closed as (update cf_request set closed = extract(epoch from clock_timestamp())::double precision
        where id = %(request)s::bigint and closed is null
        and (select coalesce(max(at) + 1, 0) from cf_word where request = id) = %(at)s::int returning id),
    timers as (delete from cf_timer where request in (select id from closed)),
    glances as (delete from cf_glance where request in (select id from closed))
select exists (select 1 from closed) from cf_request where id = %(request)s::bigint
"""
OPEN_AGAIN = "execute cf_open_again(%(request)s)"
LOCK_DROPPING = "select 1 from cf_request where id = %(request)s::bigint for update"
DROP = """
with gone as (delete from cf_request where id = %(request)s::bigint and (%(at)s::int is null or closed is not null
        and (select coalesce(max(at) + 1, 0) from cf_word where request = id) = %(at)s::int) returning id),
    words as (delete from cf_word where request in (select id from gone)),
    timers as (delete from cf_timer where request in (select id from gone)),
    glances as (delete from cf_glance where request in (select id from gone)),
    names as (delete from cf_name where request in (select id from gone))
select id from gone
"""
PUT = "execute cf_put(%(request)s, %(at)s, %(word)s, %(token)s, %(payload)s)"
PUT_GROUP = "execute cf_put_group(%(request)s, %(places)s, %(words)s, %(tokens)s, %(payloads)s)"
PUT_GROUPS = """
insert into cf_word select id, at, word, token, payload from (select v.*, id
    from unnest(%(requests)s::bigint[], %(places)s::int[], %(words)s::bigint[], %(tokens)s::bigint[], %(payloads)s::bytea[])
        as v(request, at, word, token, payload)
    join cf_request on id = request for key share of cf_request) as there
"""
READ = "execute cf_read(%(request)s, %(at)s)"
PAYLOADS = """
select at, payload from cf_request left join cf_word on request = id and at = any(%(places)s::int[]) and payload is not null
    where id = %(request)s::bigint
"""
MARK = "select pg_snapshot_xmin(pg_current_snapshot())::text::bigint"
ENDS = """
select name, (select coalesce(max(at) + 1, 0) from cf_word where request = id) from cf_request where closed is null
"""
NEWS = """
select null, pg_snapshot_xmin(pg_current_snapshot())::text::bigint union all
select name, 0 from cf_request where closed is null and made_by >= %(since)s::text::xid8 union all
select name, case when closed is null then max(at) + 1 else -1 end from cf_word w join cf_request on id = request
    where w.made_by >= %(since)s::text::xid8 group by name, closed
"""
BEAT = """
insert into cf_beat values (%(session)s::bigint, 1) on conflict (session) do update set count = cf_beat.count + 1
"""
BEATS = "select session, count from cf_beat"
DROP_BEAT = """
with names as (delete from cf_name where request = 0 and session = %(session)s::bigint)
delete from cf_beat where session = %(session)s::bigint
"""
NAME_SESSION = """
insert into cf_name values (0, %(session)s::bigint, %(said)s::text) on conflict (request, session) do update set name = excluded.name
"""
NAME_SESSION_IN = """
insert into cf_name select id, %(session)s::bigint, %(said)s::text
    from (select id from cf_request where id = %(request)s::bigint for key share) as there
    on conflict (request, session) do update set name = excluded.name
"""
SESSION_NAMES = "select session, name from cf_name where request = %(request)s::bigint"
SET_TIMER = """
insert into cf_timer select id, %(stage)s::int, %(due)s::double precision, %(payload)s::bytea
    from (select id from cf_request where id = %(request)s::bigint for key share) as there
    on conflict (request, stage) do update set due = excluded.due, payload = excluded.payload
"""
DUE_TIMERS = """
select name, id, stage, due, payload from cf_timer join cf_request on id = request
    where due <= %(now)s::double precision order by due
"""
DROP_TIMER = "delete from cf_timer where request = %(request)s::bigint and stage = %(stage)s::int"
LISTING = """
select name, opened, closed, (select max(at) + 1 from cf_word where request = id) from cf_request order by name
"""
CLOSED = """
select name, opened, closed, (select max(at) + 1 from cf_word where request = id) from cf_request
    where closed is not null and name > %(behind)s::text and position(lower(%(part)s::text) in lower(name)) > 0
    order by name limit %(most)s::int
"""
OVERVIEW = """
select r.id, r.name, r.opened, (select max(at) + 1 from cf_word where request = r.id),
    substr(r.plan, 1, %(head)s::int), g.words, g.said
    from cf_request r left join cf_glance g on g.request = r.id where r.closed is null
"""
OPENED = """
select r.id, r.name, r.opened, (select max(at) + 1 from cf_word where request = r.id),
    substr(r.plan, 1, %(head)s::int), g.words, g.said
    from cf_request r left join cf_glance g on g.request = r.id where r.closed is null and r.id = any(%(requests)s::bigint[])
"""
FIRST_OPENED = """
with opened as materialized (select id, name from cf_request where closed is null)
select r.id, r.name, r.opened, (select max(at) + 1 from cf_word where request = r.id),
    substr(r.plan, 1, %(head)s::int), g.words, g.said, f.many
    from (select id, (select count(*) from opened) as many from opened order by name collate "C" limit %(most)s::int) f,
        cf_request r left join cf_glance g on g.request = r.id where r.id = f.id
"""
SOME_OTHER = """
select pg_snapshot_xmin(pg_current_snapshot())::text::bigint, null, null::double precision, null::int, null, null::int,
    null, 'mark' union all
select request, null, null, max(at) + 1, null, null, null, 'longer' from cf_word
    where made_by >= %(since)s::text::xid8 group by request union all
select r.id, r.name, r.opened, (select max(at) + 1 from cf_word where request = r.id),
    substr(r.plan, 1, %(head)s::int), g.words, g.said, 'told'
    from cf_request r left join cf_glance g on g.request = r.id where r.closed is null and r.made_by >= %(since)s::text::xid8
"""
ALL_OTHER = """
select pg_snapshot_xmin(pg_current_snapshot())::text::bigint, null, null::double precision, null::int, null, null::int,
    null, 'mark' union all
select request, null, null, max(at) + 1, null, null, null, 'longer' from cf_word
    where made_by >= %(since)s::text::xid8 group by request union all
select r.id, r.name, r.opened, (select max(at) + 1 from cf_word where request = r.id),
    substr(r.plan, 1, %(head)s::int), g.words, g.said, 'told'
    from cf_request r left join cf_glance g on g.request = r.id where r.closed is null and r.made_by >= %(since)s::text::xid8 union all
select null, null, null, null, null, null, string_agg(id::text, ','), 'open' from cf_request where closed is null union all
select r.id, r.name, r.opened, (select max(at) + 1 from cf_word where request = r.id),
    substr(r.plan, 1, %(head)s::int), g.words, g.said, 'told'
    from (select id from cf_request where closed is null and id > %(turn)s::bigint order by id limit %(most)s::int) as anew,
        cf_request r left join cf_glance g on g.request = r.id where r.id = anew.id
"""
ROWS = """
select r.id, null::int, null::bigint, null::bigint, null::bytea, name, opened, case when v.at = 0 then plan end
    from unnest(%(requests)s::bigint[], %(places)s::int[]) as v(id, at) join cf_request r on r.id = v.id union all
select request, w.at, word, token, case when octet_length(payload) <= 512 then payload end, null, null, null
    from unnest(%(requests)s::bigint[], %(places)s::int[]) as v(id, at) join cf_word w on request = v.id and w.at >= v.at
"""
PAYLOADS_OF = """
select request, w.at, payload from unnest(%(requests)s::bigint[], %(places)s::int[]) as v(id, at)
    join cf_word w on request = v.id and w.at = v.at where payload is not null
"""
PULSE = """
select session, count, null from cf_beat union all
select session, null, name from cf_name where request = 0 union all
select null, pg_stat_get_tuples_inserted('cf_word'::regclass),
    (extract(epoch from clock_timestamp())::double precision)::text
"""
WORDS_PUT = "select pg_stat_get_tuples_inserted('cf_word'::regclass)"
KEEP_GLANCES = """
insert into cf_glance select id, words, said from (select v.*, id
    from unnest(%(requests)s::bigint[], %(words)s::int[], %(said)s::text[]) as v(request, words, said)
    join cf_request on id = v.request where closed is null for key share of cf_request) as there
    on conflict (request) do update set words = excluded.words, said = excluded.said
"""
PREPARED = """
prepare cf_lock_closing(bigint) as
select pg_advisory_xact_lock(6318043, ($1 % 2147483648)::int);
prepare cf_open_again(bigint) as
with opened as (update cf_request set closed = null, made_by = pg_current_xact_id()
    where id = $1 and closed is not null)
select 1 from cf_request where id = $1;
prepare cf_put(bigint, int, bigint, bigint, bytea) as
insert into cf_word select id, $2, $3, $4, $5
    from (select id from cf_request where id = $1 for key share) as there on conflict do nothing;
prepare cf_put_group(bigint, int[], bigint[], bigint[], bytea[]) as
insert into cf_word select id, v.* from (select id from cf_request where id = $1 for key share) as there,
    unnest($2, $3, $4, $5) as v;
prepare cf_read(bigint, int) as
select at, word, token from cf_request left join cf_word on request = id and at >= $2 where id = $1 order by at;
"""
AWAY = ("08", "25006", "26", "40", "53", "55", "57", "58")
TAKEN = ("23505",)
