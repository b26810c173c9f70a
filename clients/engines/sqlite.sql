-- A store in a file of SQLite's, 3.24 or later: its tables, what is asked of them, and what its errors mean.
-- clients/engines/README.md says how Python, Java and Rust come to it.
--
-- Who writes has the file for himself, by a lock on FILE-line, so nothing comes between the statements of a transaction.

-- name: schema
create table if not exists cf_request (id integer primary key autoincrement, name text not null unique,
    plan text not null, opened real not null, closed real);
create table if not exists cf_word (n integer primary key, request integer, at integer, word integer not null,
    token integer not null, payload blob, unique (request, at));
create table if not exists cf_large (request integer, place integer, payload blob not null,
    primary key (request, place));
create table if not exists cf_beat (session integer primary key, count integer not null);
create table if not exists cf_timer (request integer, stage integer, due real not null, payload blob not null,
    primary key (request, stage)) without rowid;
create index if not exists cf_timer_due on cf_timer (due);
create index if not exists cf_request_open on cf_request (id) where closed is null;
create table if not exists cf_glance (request integer primary key, words integer not null, said text not null);
create table if not exists cf_name (request integer, session integer, name text not null,
    primary key (request, session)) without rowid;

-- Gives the journal that the file has: with `off` and `memory` a crash loses words.
-- name: set_journal
pragma journal_mode = wal

-- name: answer_from_disk
pragma synchronous = full

-- Has it answered before it has written, which tests of tests need.
-- name: answer_at_once of python
pragma synchronous = off

-- Another number, once another connection has committed something.
-- name: version
pragma data_version

-- Requests.

-- name: open(name, plan)
insert into cf_request (name, plan, opened)
    values (:name, :plan, (julianday('now') - 2440587.5) * 86400.0) on conflict do nothing

-- name: find(name)
select id, plan, opened from cf_request where name = :name

-- name: is_there(request)
select 1 from cf_request where id = :request

-- Closes a request that has just so many words. Behind it its timers and its glance are deleted.
-- name: end(request, at)
update cf_request set closed = (julianday('now') - 2440587.5) * 86400.0 where id = :request and closed is null
    and (select coalesce(max(at) + 1, 0) from cf_word where request = id) = :at

-- name: open_again(request)
update cf_request set closed = null where id = :request and closed is not null

-- Deletes a request; with `at` only if it is closed and has just so many words. Behind it the rest is deleted.
-- name: drop(request, at) of python
delete from cf_request where id = :request and (:at is null or closed is not null
    and (select coalesce(max(at) + 1, 0) from cf_word where request = id) = :at)

-- name: drop_words(request) of python
delete from cf_word where request = :request

-- name: drop_large(request) of python
delete from cf_large where request = :request

-- name: drop_timers(request)
delete from cf_timer where request = :request

-- name: drop_glance(request)
delete from cf_glance where request = :request

-- name: drop_names(request) of python
delete from cf_name where request = :request

-- Words. One word, or two, each with a payload that is small or stands in `cf_large`: else the words' own pages would be
-- large. No row, if a word stands there or behind, or the request was dropped. More words are put one by one.

-- name: put(request, at, word, token, payload)
insert into cf_word (request, at, word, token, payload) select id, :at, :word, :token, :payload from cf_request
    where id = :request and not exists (select 1 from cf_word where request = :request and at >= :at)

-- name: put_two(request, at, word, token, payload, next_word, next_token, next_payload)
insert into cf_word (request, at, word, token, payload)
    select id, v.* from cf_request, (values (:at, :word, :token, :payload),
        (:at + 1, :next_word, :next_token, :next_payload)) as v
    where id = :request and not exists (select 1 from cf_word where request = :request and at >= :at)

-- name: put_large(request, place, payload)
insert into cf_large (request, place, payload) values (:request, :place, :payload)

-- The words from a place on. Without any a row without a place, if the request is there.
-- name: read(request, at) of python rust
select at, word, token from cf_request left join cf_word on request = id and at >= :at where id = :request order by at

-- The same with payloads, as far as they are small.
-- name: read_with_payloads(request, at) of java
select at, word, token, payload from cf_request left join cf_word on request = id and at >= :at
    where id = :request order by at

-- The payload at a place, which is counted from 1.
-- name: payload(request, place)
select coalesce(payload, (select payload from cf_large where request = :request and place = :place)) from cf_word
    where request = :request and at = :place - 1

-- News. Words and requests are numbered in the order of their commits, since SQLite has one writer. Where the last ones
-- were dropped numbers come again, and what was put by then is told by the ends.

-- name: mark
select (select coalesce(max(n), 0) from cf_word), (select coalesce(max(id), 0) from cf_request)

-- How many words each open request has.
-- name: ends
select name, (select coalesce(max(at) + 1, 0) from cf_word where request = id) from cf_request where closed is null

-- The next mark, without a name; and since one the requests that were opened or got words: how many words each has, 0 where
-- another row may tell more, and -1 where it is closed. (`+` keeps SQLite from going through all words by the index of
-- requests.)
-- name: news(words, requests)
select null, (select coalesce(max(n), 0) from cf_word), (select coalesce(max(id), 0) from cf_request) union all
select name, 0, null from cf_request where id > :requests and closed is null union all
select name, case when closed is null then max(at) + 1 else -1 end, null from cf_word join cf_request on id = request
    where n > :words group by +request

-- Sessions and timers.

-- name: beat(session)
insert into cf_beat (session, count) values (:session, 1) on conflict (session) do update set count = count + 1

-- name: beats
select session, count from cf_beat

-- name: drop_beat(session)
delete from cf_beat where session = :session

-- name: drop_session_name(session)
delete from cf_name where request = 0 and session = :session

-- Names a session, as long as its beats are kept.
-- name: name_session(session, said)
insert into cf_name (request, session, name) values (0, :session, :said)
    on conflict (request, session) do update set name = excluded.name

-- Names it as long as a request is kept. No row, if that was dropped.
-- name: name_session_in(request, session, said) of python
insert into cf_name (request, session, name) select id, :session, :said from cf_request where id = :request
    on conflict (request, session) do update set name = excluded.name

-- The names of sessions in a request, or with 0 as long as their beats are kept.
-- name: session_names(request) of python java
select session, name from cf_name where request = :request

-- No row, if the request was dropped.
-- name: set_timer(request, stage, due, payload)
insert into cf_timer (request, stage, due, payload)
    select id, :stage, :due, :payload from cf_request where id = :request
    on conflict (request, stage) do update set due = excluded.due, payload = excluded.payload

-- name: due_timers(now)
select name, id, stage, due, payload from cf_timer join cf_request on id = request
    where due <= :now order by due

-- name: drop_timer(request, stage)
delete from cf_timer where request = :request and stage = :stage

-- What lists of requests ask for. Only Python has these, and the function `cf_lower`: SQLite's own knows the letters of
-- ASCII alone. `{told}` stands for the text of that part.

-- part: told
r.id, r.name, r.opened, (select max(at) + 1 from cf_word where request = r.id),
    substr(r.plan, 1, :head), g.words, g.said

-- part: requests
cf_request r left join cf_glance g on g.request = r.id

-- name: listing of python
select name, opened, closed, (select max(at) + 1 from cf_word where request = id) from cf_request order by name

-- name: closed(behind, part, most) of python
select name, opened, closed, (select max(at) + 1 from cf_word where request = id) from cf_request
    where closed is not null and name > :behind and instr(cf_lower(name), cf_lower(:part)) > 0
    order by name limit :most

-- All open requests.
-- name: overview(head) of python
select {told}
    from {requests} where r.closed is null

-- One, if it is open.
-- name: opened(head, request) of python
select {told}
    from {requests} where r.closed is null and r.id = :request

-- Those that were opened behind a number.
-- name: opened_since(head, request) of python
select {told}
    from {requests} where r.closed is null and r.id > :request

-- The first open ones by name, each with how many there are in all. (The inner limit has it go through the open ones alone,
-- and not through all by their names.)
-- name: first_opened(head, most) of python
select {told}, f.many
    from (select id, (select count(*) from cf_request where closed is null) as many
        from (select id, name from cf_request where closed is null limit -1) order by name limit :most) f,
        {requests} where r.id = f.id

-- name: open_numbers of python
select id from cf_request where closed is null

-- How many words requests have that got some since a mark.
-- name: longer(words) of python
select request, max(at) + 1 from cf_word where n > :words group by +request

-- name: keep_glance(request, words, said) of python
insert into cf_glance (request, words, said) select id, :words, :said from cf_request
    where id = :request and closed is null
    on conflict (request) do update set words = excluded.words, said = excluded.said

-- What primary result codes mean: https://www.sqlite.org/rescode.html
--   away     it may have been done or not, or can't be done now: the same is asked again
--   taken    something stands there: what stands is read
--   refused  it was not done, and will not be: all others
-- No code tells that a place is taken or that a request was dropped: then a put has no row.
-- codes
-- 1   away     ERROR: a table isn't there, as while a file is put in another's place; no statement here is at fault
-- 3   away     PERM: the system refuses it
-- 4   away     ABORT: it was broken off
-- 5   away     BUSY: another connection has the file
-- 6   away     LOCKED: another statement of this process has the table
-- 7   away     NOMEM: there is no memory now
-- 8   away     READONLY: the file or its disk can't be written now
-- 9   away     INTERRUPT: somebody interrupted it
-- 10  away     IOERR: the disk can't be read or written now
-- 11  refused  CORRUPT: the file is damaged, and stays so
-- 13  away     FULL: the disk is full
-- 14  away     CANTOPEN: the file, or one beside it, can't be opened now
-- 15  away     PROTOCOL: others lock and unlock the log all the time
-- 17  away     SCHEMA: the tables were changed as often as it was tried
-- 18  refused  TOOBIG: a text or a blob is larger than SQLite takes
-- 19  refused  CONSTRAINT: a trigger or constraint of somebody's own forbids it
-- 26  refused  NOTADB: it is no database
