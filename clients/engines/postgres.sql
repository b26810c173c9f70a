-- A store in PostgreSQL, 13 or later: its tables, what is asked of them, and what its errors mean.
-- clients/engines/README.md says how Python, Java and Rust come to it.

-- The lock has one make the tables at a time: else who makes one that another is making is refused.
-- name: schema
select pg_advisory_xact_lock(6318042);
create table if not exists cf_request (id bigserial primary key, name text not null unique, plan text not null,
    opened double precision not null, closed double precision, made_by xid8 not null default pg_current_xact_id());
create index if not exists cf_request_open on cf_request (made_by) where closed is null;
create table if not exists cf_word (request bigint, at int, word bigint not null, token bigint not null,
    payload bytea, made_by xid8 not null default pg_current_xact_id(), primary key (request, at));
create index if not exists cf_word_made_by on cf_word (made_by);
create table if not exists cf_beat (session bigint primary key, count bigint not null);
create table if not exists cf_timer (request bigint, stage int, due double precision not null,
    payload bytea not null, primary key (request, stage));
create index if not exists cf_timer_due on cf_timer (due);
create table if not exists cf_glance (request bigint primary key, words int not null, said text not null);
create table if not exists cf_name (request bigint, session bigint, name text not null,
    primary key (request, session));

-- Whether all of these are there. Then none is made: an index that is made waits for open transactions, and all puts
-- wait for it.
-- name: is_made
select bool_and(to_regclass(name) is not null) from unnest(array['cf_request', 'cf_request_open', 'cf_word',
    'cf_word_made_by', 'cf_beat', 'cf_timer', 'cf_timer_due', 'cf_glance', 'cf_name']) as name

-- What is set so that words are lost or can't be put.
-- name: unsafe_settings
select name, current_setting(name) from (values ('fsync', 'on'), ('full_page_writes', 'on'),
    ('transaction_read_only', 'off')) as safe(name, setting) where current_setting(name) <> setting

-- Whether the server can't be written to, as a standby.
-- name: is_read_only
select current_setting('transaction_read_only') = 'on'

-- Has a commit answered once it is on disk, where the server hasn't more.
-- name: answer_from_disk
select set_config('synchronous_commit', 'on', false)
    where current_setting('synchronous_commit') in ('off', 'local')

-- Has it answered before, for what may be lost.
-- name: answer_at_once
set synchronous_commit = off

-- name: listen
listen cf

-- Wakes who listens. By a connection of its own, behind the commit: within the put it takes a lock of the whole database.
-- name: notify
notify cf

-- The store's clock.
-- name: now
select extract(epoch from clock_timestamp())::double precision

-- Requests.

-- name: open(name text, plan text)
insert into cf_request (name, plan, opened)
    values (:name, :plan, extract(epoch from clock_timestamp())::double precision) on conflict do nothing

-- name: find(name text)
select id, plan, opened from cf_request where name = :name

-- The lock under which a request is closed, opened again or dropped. A statement of its own takes it, so that the next one
-- sees all that stands by then: who closes a request sees the words of all that have opened it again, and who opens it
-- again sees that it was closed.
-- name: lock_closing(request bigint) often
select pg_advisory_xact_lock(6318043, (:request % 2147483648)::int)

-- Closes a request that has just so many words. A row, if the request is there: whether this has closed it.
-- name: end(request bigint, at int)
with closed as (update cf_request set closed = extract(epoch from clock_timestamp())::double precision
        where id = :request and closed is null
        and (select coalesce(max(at) + 1, 0) from cf_word where request = id) = :at returning id),
    timers as (delete from cf_timer where request in (select id from closed)),
    glances as (delete from cf_glance where request in (select id from closed))
select exists (select 1 from closed) from cf_request where id = :request

-- Opens a closed request. A row, if the request is there.
-- name: open_again(request bigint) often
with opened as (update cf_request set closed = null, made_by = pg_current_xact_id()
    where id = :request and closed is not null)
select 1 from cf_request where id = :request

-- Waits until the puts that are under way stand. A statement of its own, so that the next one sees their words.
-- name: lock_dropping(request bigint) of python
select 1 from cf_request where id = :request for update

-- Deletes a request; with `at` only if it is closed and has just so many words. A row, if this has deleted it.
-- name: drop(request bigint, at int) of python
with gone as (delete from cf_request where id = :request and (:at is null or closed is not null
        and (select coalesce(max(at) + 1, 0) from cf_word where request = id) = :at) returning id),
    words as (delete from cf_word where request in (select id from gone)),
    timers as (delete from cf_timer where request in (select id from gone)),
    glances as (delete from cf_glance where request in (select id from gone)),
    names as (delete from cf_name where request in (select id from gone))
select id from gone

-- Words. Who puts has the request's row until the put stands, so that nobody drops it meanwhile, and finds none where
-- another has dropped it. Whoever else puts, or closes the request, isn't kept waiting by that.

-- One word. No row, if its place is taken or the request was dropped.
-- name: put(request bigint, at int, word bigint, token bigint, payload bytea) often
insert into cf_word select id, :at, :word, :token, :payload
    from (select id from cf_request where id = :request for key share) as there on conflict do nothing

-- Words of one request. No row, if the request was dropped. A place that is taken is an error, and nothing stands: else
-- words behind it might.
-- name: put_group(request bigint, places int[], words bigint[], tokens bigint[], payloads bytea[]) often
insert into cf_word select id, v.* from (select id from cf_request where id = :request for key share) as there,
    unnest(:places, :words, :tokens, :payloads) as v

-- The same of several requests. Fewer rows than words, if one was dropped.
-- name: put_groups(requests bigint[], places int[], words bigint[], tokens bigint[], payloads bytea[]) of python
insert into cf_word select id, at, word, token, payload from (select v.*, id
    from unnest(:requests, :places, :words, :tokens, :payloads)
        as v(request, at, word, token, payload)
    join cf_request on id = request for key share of cf_request) as there

-- The words from a place on. Without any a row without a place, if the request is there.
-- name: read(request bigint, at int) of python rust often
select at, word, token from cf_request left join cf_word on request = id and at >= :at where id = :request order by at

-- The same with payloads, as far as they are small.
-- name: read_with_payloads(request bigint, at int) of java
select at, word, token, case when octet_length(payload) <= 512 then payload end
    from cf_request left join cf_word on request = id and at >= :at where id = :request order by at

-- The payloads of words at these places, which are counted from 0. Without any a row without a place, if the request is
-- there.
-- name: payloads(request bigint, places int[])
select at, payload from cf_request left join cf_word on request = id and at = any(:places) and payload is not null
    where id = :request

-- News. All transactions below the mark had ended when it was read, so what they did was told.

-- name: mark
select pg_snapshot_xmin(pg_current_snapshot())::text::bigint

-- How many words each open request has.
-- name: ends
select name, (select coalesce(max(at) + 1, 0) from cf_word where request = id) from cf_request where closed is null

-- The next mark, without a name; and since one the requests that were opened or got words: how many words each has, 0 where
-- another row may tell more, and -1 where it is closed.
-- name: news(since text)
select null, pg_snapshot_xmin(pg_current_snapshot())::text::bigint union all
select name, 0 from cf_request where closed is null and made_by >= :since::xid8 union all
select name, case when closed is null then max(at) + 1 else -1 end from cf_word w join cf_request on id = request
    where w.made_by >= :since::xid8 group by name, closed

-- Sessions and timers.

-- name: beat(session bigint)
insert into cf_beat values (:session, 1) on conflict (session) do update set count = cf_beat.count + 1

-- name: beats
select session, count from cf_beat

-- name: drop_beat(session bigint)
with names as (delete from cf_name where request = 0 and session = :session)
delete from cf_beat where session = :session

-- Names a session, as long as its beats are kept.
-- name: name_session(session bigint, said text)
insert into cf_name values (0, :session, :said) on conflict (request, session) do update set name = excluded.name

-- Names it as long as a request is kept. No row, if that was dropped.
-- name: name_session_in(request bigint, session bigint, said text) of python
insert into cf_name select id, :session, :said
    from (select id from cf_request where id = :request for key share) as there
    on conflict (request, session) do update set name = excluded.name

-- The names of sessions in a request, or with 0 as long as their beats are kept.
-- name: session_names(request bigint) of python java
select session, name from cf_name where request = :request

-- No row, if the request was dropped.
-- name: set_timer(request bigint, stage int, due double precision, payload bytea)
insert into cf_timer select id, :stage, :due, :payload
    from (select id from cf_request where id = :request for key share) as there
    on conflict (request, stage) do update set due = excluded.due, payload = excluded.payload

-- name: due_timers(now double precision)
select name, id, stage, due, payload from cf_timer join cf_request on id = request
    where due <= :now order by due

-- name: drop_timer(request bigint, stage int)
delete from cf_timer where request = :request and stage = :stage

-- What lists of requests ask for. Only Python has these. `{told}` stands for the text of that part.

-- part: told
r.id, r.name, r.opened, (select max(at) + 1 from cf_word where request = r.id),
    substr(r.plan, 1, :head), g.words, g.said

-- part: requests
cf_request r left join cf_glance g on g.request = r.id

-- name: listing of python
select name, opened, closed, (select max(at) + 1 from cf_word where request = id) from cf_request order by name

-- name: closed(behind text, part text, most int) of python
select name, opened, closed, (select max(at) + 1 from cf_word where request = id) from cf_request
    where closed is not null and name > :behind and position(lower(:part) in lower(name)) > 0
    order by name limit :most

-- All open requests.
-- name: overview(head int) of python
select {told}
    from {requests} where r.closed is null

-- Those of these that are open.
-- name: opened(head int, requests bigint[]) of python
select {told}
    from {requests} where r.closed is null and r.id = any(:requests)

-- The first open ones by name, each with how many there are in all. (Materialized, it goes through the open ones alone, and
-- not through all by their names.)
-- name: first_opened(head int, most int) of python
with opened as materialized (select id, name from cf_request where closed is null)
select {told}, f.many
    from (select id, (select count(*) from opened) as many from opened order by name collate "C" limit :most) f,
        {requests} where r.id = f.id

-- What is other in a list since a mark, by what was put since then. (The mark stands in each place as a constant: else whole
-- tables are read, since as many rows are reckoned with as stand there.)
-- name: some_other(since text, head int) of python
select pg_snapshot_xmin(pg_current_snapshot())::text::bigint, null, null::double precision, null::int, null, null::int,
    null, 'mark' union all
select request, null, null, max(at) + 1, null, null, null, 'longer' from cf_word
    where made_by >= :since::xid8 group by request union all
select {told}, 'told'
    from {requests} where r.closed is null and r.made_by >= :since::xid8

-- The same; the numbers of all that are open; and some of these anew, behind a number.
-- name: all_other(since text, head int, turn bigint, most int) of python
select pg_snapshot_xmin(pg_current_snapshot())::text::bigint, null, null::double precision, null::int, null, null::int,
    null, 'mark' union all
select request, null, null, max(at) + 1, null, null, null, 'longer' from cf_word
    where made_by >= :since::xid8 group by request union all
select {told}, 'told'
    from {requests} where r.closed is null and r.made_by >= :since::xid8 union all
select null, null, null, null, null, null, string_agg(id::text, ','), 'open' from cf_request where closed is null union all
select {told}, 'told'
    from (select id from cf_request where closed is null and id > :turn order by id limit :most) as anew,
        {requests} where r.id = anew.id

-- Rows of requests from places on, with payloads as far as they are small. A row without a place for each that is there,
-- with its plan where the place is the first.
-- name: rows(requests bigint[], places int[]) of python
select r.id, null::int, null::bigint, null::bigint, null::bytea, name, opened, case when v.at = 0 then plan end
    from unnest(:requests, :places) as v(id, at) join cf_request r on r.id = v.id union all
select request, w.at, word, token, case when octet_length(payload) <= 512 then payload end, null, null, null
    from unnest(:requests, :places) as v(id, at) join cf_word w on request = v.id and w.at >= v.at

-- name: payloads_of(requests bigint[], places int[]) of python
select request, w.at, payload from unnest(:requests, :places) as v(id, at)
    join cf_word w on request = v.id and w.at = v.at where payload is not null

-- Beats, names of sessions, how many words were ever put, and the clock.
-- name: pulse of python
select session, count, null from cf_beat union all
select session, null, name from cf_name where request = 0 union all
select null, pg_stat_get_tuples_inserted('cf_word'::regclass),
    (extract(epoch from clock_timestamp())::double precision)::text

-- name: words_put of python
select pg_stat_get_tuples_inserted('cf_word'::regclass)

-- name: keep_glances(requests bigint[], words int[], said text[]) of python
insert into cf_glance select id, words, said from (select v.*, id
    from unnest(:requests, :words, :said) as v(request, words, said)
    join cf_request on id = v.request where closed is null for key share of cf_request) as there
    on conflict (request) do update set words = excluded.words, said = excluded.said

-- What codes mean, by SQLSTATE, the longest that fits: https://www.postgresql.org/docs/current/errcodes-appendix.html
--   away     it may have been done or not, or can't be done now: the same is asked again
--   taken    something stands there: what stands is read
--   refused  it was not done, and will not be: all others
-- Nothing is told by a code of a request that was dropped: then a put has no row, and nor has a read. An error without a
-- code, and each that refuses a connection, is away.
-- codes
-- 08     away     connection_exception: the connection is lost
-- 23505  taken    unique_violation: another's word stands at a place of the put
-- 25006  away     read_only_sql_transaction: the server became a standby, and there is another first one
-- 26     away     invalid_sql_statement_name: the connection behind a pooler is another, or was reset
-- 40     away     transaction_rollback: others were in the way (40001, 40P01), or nobody knows (40003)
-- 53     away     insufficient_resources: the disk or the memory is full, or there are too many connections
-- 55     away     object_not_in_prerequisite_state: a lock isn't to be had in lock_timeout (55P03)
-- 57     away     operator_intervention: it took longer than statement_timeout (57014), or the server ends or starts (57P0*)
-- 58     away     system_error: a file can't be read or written
