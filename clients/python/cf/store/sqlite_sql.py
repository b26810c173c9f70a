"""Written by clients/engines/generate: change clients/engines/sqlite.sql."""
SCHEMA = """
create table if not exists cf_request (id integer primary key autoincrement, name text not null unique,
    plan text not null, opened real not null, closed real);
create table if not exists cf_word (n integer primary key, request integer, at integer, word integer not null,
    token integer not null, payload blob, unique (request, at));
create table if not exists cf_large (request integer, place integer, payload blob not null,
    primary key (request, place));
create table if not exists cf_beat (session integer primary key, count integer not null);
create table if not exists cf_timer (request integer, stage integer, due real not null, payload blob not null,
    primary key (request, stage)) without rowid;
create index if not exists cf_timer_due on cf_timer (due);
create index if not exists cf_request_open on cf_request (id) where closed is null;
create table if not exists cf_glance (request integer primary key, words integer not null, said text not null);
create table if not exists cf_name (request integer, session integer, name text not null,
    primary key (request, session)) without rowid;
"""
SET_JOURNAL = "pragma journal_mode = wal"
ANSWER_FROM_DISK = "pragma synchronous = full"
ANSWER_AT_ONCE = "pragma synchronous = off"
VERSION = "pragma data_version"
OPEN = """
insert into cf_request (name, plan, opened)
    values (:name, :plan, (julianday('now') - 2440587.5) * 86400.0) on conflict do nothing
"""
FIND = "select id, plan, opened from cf_request where name = :name"
IS_THERE = "select 1 from cf_request where id = :request"
END = """
update cf_request set closed = (julianday('now') - 2440587.5) * 86400.0 where id = :request and closed is null
    and (select coalesce(max(at) + 1, 0) from cf_word where request = id) = :at
"""
OPEN_AGAIN = "update cf_request set closed = null where id = :request and closed is not null"
DROP = """
delete from cf_request where id = :request and (:at is null or closed is not null
    and (select coalesce(max(at) + 1, 0) from cf_word where request = id) = :at)
"""
DROP_WORDS = "delete from cf_word where request = :request"
DROP_LARGE = "delete from cf_large where request = :request"
DROP_TIMERS = "delete from cf_timer where request = :request"
DROP_GLANCE = "delete from cf_glance where request = :request"
DROP_NAMES = "delete from cf_name where request = :request"
PUT = """
insert into cf_word (request, at, word, token, payload) select id, :at, :word, :token, :payload from cf_request
    where id = :request and not exists (select 1 from cf_word where request = :request and at >= :at)
"""
PUT_TWO = """
insert into cf_word (request, at, word, token, payload)
    select id, v.* from cf_request, (values (:at, :word, :token, :payload),
        (:at + 1, :next_word, :next_token, :next_payload)) as v
    where id = :request and not exists (select 1 from cf_word where request = :request and at >= :at)
"""
PUT_LARGE = "insert into cf_large (request, place, payload) values (:request, :place, :payload)"
READ = """
select at, word, token from cf_request left join cf_word on request = id and at >= :at where id = :request order by at
"""
PAYLOAD = """
select coalesce(payload, (select payload from cf_large where request = :request and place = :place)) from cf_word
    where request = :request and at = :place - 1
"""
MARK = "select (select coalesce(max(n), 0) from cf_word), (select coalesce(max(id), 0) from cf_request)"
ENDS = """
select name, (select coalesce(max(at) + 1, 0) from cf_word where request = id) from cf_request where closed is null
"""
NEWS = """
select null, (select coalesce(max(n), 0) from cf_word), (select coalesce(max(id), 0) from cf_request) union all
select name, 0, null from cf_request where id > :requests and closed is null union all
select name, case when closed is null then max(at) + 1 else -1 end, null from cf_word join cf_request on id = request
    where n > :words group by +request
"""
BEAT = """
insert into cf_beat (session, count) values (:session, 1) on conflict (session) do update set count = count + 1
"""
BEATS = "select session, count from cf_beat"
DROP_BEAT = "delete from cf_beat where session = :session"
DROP_SESSION_NAME = "delete from cf_name where request = 0 and session = :session"
NAME_SESSION = """
insert into cf_name (request, session, name) values (0, :session, :said)
    on conflict (request, session) do update set name = excluded.name
"""
NAME_SESSION_IN = """
insert into cf_name (request, session, name) select id, :session, :said from cf_request where id = :request
    on conflict (request, session) do update set name = excluded.name
"""
SESSION_NAMES = "select session, name from cf_name where request = :request"
SET_TIMER = """
insert into cf_timer (request, stage, due, payload)
    select id, :stage, :due, :payload from cf_request where id = :request
    on conflict (request, stage) do update set due = excluded.due, payload = excluded.payload
"""
DUE_TIMERS = """
select name, id, stage, due, payload from cf_timer join cf_request on id = request
    where due <= :now order by due
"""
DROP_TIMER = "delete from cf_timer where request = :request and stage = :stage"
LISTING = """
select name, opened, closed, (select max(at) + 1 from cf_word where request = id) from cf_request order by name
"""
CLOSED = """
select name, opened, closed, (select max(at) + 1 from cf_word where request = id) from cf_request
    where closed is not null and name > :behind and instr(cf_lower(name), cf_lower(:part)) > 0
    order by name limit :most
"""
OVERVIEW = """
select r.id, r.name, r.opened, (select max(at) + 1 from cf_word where request = r.id),
    substr(r.plan, 1, :head), g.words, g.said
    from cf_request r left join cf_glance g on g.request = r.id where r.closed is null
"""
OPENED = """
select r.id, r.name, r.opened, (select max(at) + 1 from cf_word where request = r.id),
    substr(r.plan, 1, :head), g.words, g.said
    from cf_request r left join cf_glance g on g.request = r.id where r.closed is null and r.id = :request
"""
OPENED_SINCE = """
select r.id, r.name, r.opened, (select max(at) + 1 from cf_word where request = r.id),
    substr(r.plan, 1, :head), g.words, g.said
    from cf_request r left join cf_glance g on g.request = r.id where r.closed is null and r.id > :request
"""
FIRST_OPENED = """
select r.id, r.name, r.opened, (select max(at) + 1 from cf_word where request = r.id),
    substr(r.plan, 1, :head), g.words, g.said, f.many
    from (select id, (select count(*) from cf_request where closed is null) as many
        from (select id, name from cf_request where closed is null limit -1) order by name limit :most) f,
        cf_request r left join cf_glance g on g.request = r.id where r.id = f.id
"""
OPEN_NUMBERS = "select id from cf_request where closed is null"
LONGER = "select request, max(at) + 1 from cf_word where n > :words group by +request"
KEEP_GLANCE = """
insert into cf_glance (request, words, said) select id, :words, :said from cf_request
    where id = :request and closed is null
    on conflict (request) do update set words = excluded.words, said = excluded.said
"""
AWAY = (1, 3, 4, 5, 6, 7, 8, 9, 10, 13, 14, 15, 17)
