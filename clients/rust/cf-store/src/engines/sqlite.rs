//! Written by clients/engines/generate: change clients/engines/sqlite.sql.
pub(crate) const SCHEMA: &str = "
create table if not exists cf_request (id integer primary key autoincrement, name text not null unique,
    plan text not null, opened real not null, closed real);
create table if not exists cf_word (n integer primary key, request integer, at integer, word integer not null,
    token integer not null, payload blob, unique (request, at));
create table if not exists cf_large (request integer, place integer, payload blob not null,
    primary key (request, place));
create table if not exists cf_beat (session integer primary key, count integer not null);
create table if not exists cf_timer (request integer, stage integer, due real not null, payload blob not null,
    primary key (request, stage)) without rowid;
create index if not exists cf_timer_due on cf_timer (due);
create index if not exists cf_request_open on cf_request (id) where closed is null;
create table if not exists cf_glance (request integer primary key, words integer not null, said text not null);
create table if not exists cf_name (request integer, session integer, name text not null,
    primary key (request, session)) without rowid;";
pub(crate) const SET_JOURNAL: &str = "pragma journal_mode = wal";
pub(crate) const ANSWER_FROM_DISK: &str = "pragma synchronous = full";
pub(crate) const VERSION: &str = "pragma data_version";
pub(crate) const OPEN: &str = "
insert into cf_request (name, plan, opened)
    values (?1, ?2, (julianday('now') - 2440587.5) * 86400.0) on conflict do nothing";
pub(crate) const FIND: &str = "select id, plan, opened from cf_request where name = ?1";
pub(crate) const IS_THERE: &str = "select 1 from cf_request where id = ?1";
pub(crate) const END: &str = "
update cf_request set closed = (julianday('now') - 2440587.5) * 86400.0 where id = ?1 and closed is null
    and (select coalesce(max(at) + 1, 0) from cf_word where request = id) = ?2";
pub(crate) const OPEN_AGAIN: &str = "update cf_request set closed = null where id = ?1 and closed is not null";
pub(crate) const DROP_TIMERS: &str = "delete from cf_timer where request = ?1";
pub(crate) const DROP_GLANCE: &str = "delete from cf_glance where request = ?1";
pub(crate) const PUT: &str = "
insert into cf_word (request, at, word, token, payload) select id, ?2, ?3, ?4, ?5 from cf_request
    where id = ?1 and not exists (select 1 from cf_word where request = ?1 and at >= ?2)";
pub(crate) const PUT_TWO: &str = "
insert into cf_word (request, at, word, token, payload)
    select id, v.* from cf_request, (values (?2, ?3, ?4, ?5),
        (?2 + 1, ?6, ?7, ?8)) as v
    where id = ?1 and not exists (select 1 from cf_word where request = ?1 and at >= ?2)";
pub(crate) const PUT_LARGE: &str = "insert into cf_large (request, place, payload) values (?1, ?2, ?3)";
pub(crate) const READ: &str = "
select at, word, token from cf_request left join cf_word on request = id and at >= ?2 where id = ?1 order by at";
pub(crate) const PAYLOAD: &str = "
select coalesce(payload, (select payload from cf_large where request = ?1 and place = ?2)) from cf_word
    where request = ?1 and at = ?2 - 1";
pub(crate) const MARK: &str = "
select (select coalesce(max(n), 0) from cf_word), (select coalesce(max(id), 0) from cf_request)";
pub(crate) const ENDS: &str = "
select name, (select coalesce(max(at) + 1, 0) from cf_word where request = id) from cf_request where closed is null";
pub(crate) const NEWS: &str = "
select null, (select coalesce(max(n), 0) from cf_word), (select coalesce(max(id), 0) from cf_request) union all
select name, 0, null from cf_request where id > ?2 and closed is null union all
select name, case when closed is null then max(at) + 1 else -1 end, null from cf_word join cf_request on id = request
    where n > ?1 group by +request";
pub(crate) const BEAT: &str = "
insert into cf_beat (session, count) values (?1, 1) on conflict (session) do update set count = count + 1";
pub(crate) const BEATS: &str = "select session, count from cf_beat";
pub(crate) const DROP_BEAT: &str = "delete from cf_beat where session = ?1";
pub(crate) const DROP_SESSION_NAME: &str = "delete from cf_name where request = 0 and session = ?1";
pub(crate) const NAME_SESSION: &str = "
insert into cf_name (request, session, name) values (0, ?1, ?2)
    on conflict (request, session) do update set name = excluded.name";
pub(crate) const SET_TIMER: &str = "
insert into cf_timer (request, stage, due, payload)
    select id, ?2, ?3, ?4 from cf_request where id = ?1
    on conflict (request, stage) do update set due = excluded.due, payload = excluded.payload";
pub(crate) const DUE_TIMERS: &str = "
select name, id, stage, due, payload from cf_timer join cf_request on id = request
    where due <= ?1 order by due";
pub(crate) const DROP_TIMER: &str = "delete from cf_timer where request = ?1 and stage = ?2";
pub(crate) const AWAY: [i32; 13] = [1, 3, 4, 5, 6, 7, 8, 9, 10, 13, 14, 15, 17];
