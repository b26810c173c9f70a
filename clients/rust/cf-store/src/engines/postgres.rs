//! Written by clients/engines/generate: change clients/engines/postgres.sql.
pub(crate) const SCHEMA: &str = "
select pg_advisory_xact_lock(6318042);
create table if not exists cf_request (id bigserial primary key, name text not null unique, plan text not null,
    opened double precision not null, closed double precision, made_by xid8 not null default pg_current_xact_id());
create index if not exists cf_request_open on cf_request (made_by) where closed is null;
create table if not exists cf_word (request bigint, at int, word bigint not null, token bigint not null,
    payload bytea, made_by xid8 not null default pg_current_xact_id(), primary key (request, at));
create index if not exists cf_word_made_by on cf_word (made_by);
create table if not exists cf_beat (session bigint primary key, count bigint not null);
create table if not exists cf_timer (request bigint, stage int, due double precision not null,
    payload bytea not null, primary key (request, stage));
create index if not exists cf_timer_due on cf_timer (due);
create table if not exists cf_glance (request bigint primary key, words int not null, said text not null);
create table if not exists cf_name (request bigint, session bigint, name text not null,
    primary key (request, session));";
pub(crate) const IS_MADE: &str = "
select bool_and(to_regclass(name) is not null) from unnest(array['cf_request', 'cf_request_open', 'cf_word',
    'cf_word_made_by', 'cf_beat', 'cf_timer', 'cf_timer_due', 'cf_glance', 'cf_name']) as name";
pub(crate) const UNSAFE_SETTINGS: &str = "
select name, current_setting(name) from (values ('fsync', 'on'), ('full_page_writes', 'on'),
    ('transaction_read_only', 'off')) as safe(name, setting) where current_setting(name) <> setting";
pub(crate) const IS_READ_ONLY: &str = "select current_setting('transaction_read_only') = 'on'";
pub(crate) const ANSWER_FROM_DISK: &str = "
select set_config('synchronous_commit', 'on', false)
    where current_setting('synchronous_commit') in ('off', 'local')";
pub(crate) const ANSWER_AT_ONCE: &str = "set synchronous_commit = off";
pub(crate) const LISTEN: &str = "listen cf";
pub(crate) const NOTIFY: &str = "notify cf";
pub(crate) const NOW: &str = "select extract(epoch from clock_timestamp())::double precision";
pub(crate) const OPEN: &str = "
insert into cf_request (name, plan, opened)
    values ($1::text, $2::text, extract(epoch from clock_timestamp())::double precision) on conflict do nothing";
pub(crate) const FIND: &str = "select id, plan, opened from cf_request where name = $1::text";
pub(crate) const LOCK_CLOSING: &str = "select pg_advisory_xact_lock(6318043, ($1::bigint % 2147483648)::int)";
pub(crate) const END: &str = "
with closed as (update cf_request set closed = extract(epoch from clock_timestamp())::double precision
        where id = $1::bigint and closed is null
        and (select coalesce(max(at) + 1, 0) from cf_word where request = id) = $2::int returning id),
    timers as (delete from cf_timer where request in (select id from closed)),
    glances as (delete from cf_glance where request in (select id from closed))
select exists (select 1 from closed) from cf_request where id = $1::bigint";
pub(crate) const OPEN_AGAIN: &str = "
with opened as (update cf_request set closed = null, made_by = pg_current_xact_id()
    where id = $1::bigint and closed is not null)
select 1 from cf_request where id = $1::bigint";
pub(crate) const PUT: &str = "
insert into cf_word select id, $2::int, $3::bigint, $4::bigint, $5::bytea
    from (select id from cf_request where id = $1::bigint for key share) as there on conflict do nothing";
pub(crate) const PUT_GROUP: &str = "
insert into cf_word select id, v.* from (select id from cf_request where id = $1::bigint for key share) as there,
    unnest($2::int[], $3::bigint[], $4::bigint[], $5::bytea[]) as v";
pub(crate) const READ: &str = "
select at, word, token from cf_request left join cf_word on request = id and at >= $2::int where id = $1::bigint order by at";
pub(crate) const PAYLOADS: &str = "
select at, payload from cf_request left join cf_word on request = id and at = any($2::int[]) and payload is not null
    where id = $1::bigint";
pub(crate) const MARK: &str = "select pg_snapshot_xmin(pg_current_snapshot())::text::bigint";
pub(crate) const ENDS: &str = "
select name, (select coalesce(max(at) + 1, 0) from cf_word where request = id) from cf_request where closed is null";
pub(crate) const NEWS: &str = "
select null, pg_snapshot_xmin(pg_current_snapshot())::text::bigint union all
select name, 0 from cf_request where closed is null and made_by >= $1::text::xid8 union all
select name, case when closed is null then max(at) + 1 else -1 end from cf_word w join cf_request on id = request
    where w.made_by >= $1::text::xid8 group by name, closed";
pub(crate) const BEAT: &str = "
insert into cf_beat values ($1::bigint, 1) on conflict (session) do update set count = cf_beat.count + 1";
pub(crate) const BEATS: &str = "select session, count from cf_beat";
pub(crate) const DROP_BEAT: &str = "
with names as (delete from cf_name where request = 0 and session = $1::bigint)
delete from cf_beat where session = $1::bigint";
pub(crate) const NAME_SESSION: &str = "
insert into cf_name values (0, $1::bigint, $2::text) on conflict (request, session) do update set name = excluded.name";
pub(crate) const SET_TIMER: &str = "
insert into cf_timer select id, $2::int, $3::double precision, $4::bytea
    from (select id from cf_request where id = $1::bigint for key share) as there
    on conflict (request, stage) do update set due = excluded.due, payload = excluded.payload";
pub(crate) const DUE_TIMERS: &str = "
select name, id, stage, due, payload from cf_timer join cf_request on id = request
    where due <= $1::double precision order by due";
pub(crate) const DROP_TIMER: &str = "delete from cf_timer where request = $1::bigint and stage = $2::int";
pub(crate) const AWAY: [&str; 8] = ["08", "25006", "26", "40", "53", "55", "57", "58"];
pub(crate) const TAKEN: [&str; 1] = ["23505"];
