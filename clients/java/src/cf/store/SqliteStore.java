package cf.store;

import java.sql.SQLException;
import java.util.ArrayList;
import java.util.Arrays;
import java.util.Collections;
import java.util.HashMap;
import java.util.List;
import java.util.Map;
import java.util.concurrent.ConcurrentLinkedQueue;
import java.util.concurrent.TimeUnit;

/** A file of SQLite's. Who writes stands in a {@link Line}, as the clients in other languages do. */
final class SqliteStore extends JdbcStore {
    /** In bytes: a larger payload would make the words' own pages large. */
    private static final int SMALL = 512;
    /** In a commit: others wait for it. */
    private static final int MOST_AT_ONCE = 64;
    /** One by whose version it is seen what others have committed, and that version. */
    private PreparedConnection watch;
    private long version = -1;

    /** The file, or none where it is in memory; and whether this thread has a transaction of a function's open there. */
    private final String path;
    private final Line line;
    private final ThreadLocal<Boolean> inFunction = new ThreadLocal<>();
    /** What threads want to put, and that of the one that puts for all, which the queue's lock guards. */
    private final ConcurrentLinkedQueue<WaitingPut> waiting = new ConcurrentLinkedQueue<>();
    private WaitingPut leader;
    /** How many commits have put words; the turn guards it. */
    int commits;

    SqliteStore(String url) {
        super(url, Sql.Engine.SQLITE);
        String file = url.substring("jdbc:sqlite:".length()).replaceFirst("\\?.*", "").replaceFirst("^file:", "");
        path = file.isEmpty() || file.equals(":memory:") ? null : file;
        line = path == null ? null : new Line(path);
    }

    private void refuseWithin() {
        if (inFunction.get() != null) {
            throw new StoreException(path + ": a transactional function can't put: its own transaction has the file");
        }
    }

    @Override
    void takeTurn() {
        refuseWithin();
        if (line != null) {
            line.lockWithin(LONGEST_WAIT);
        }
    }

    @Override
    void giveTurn() {
        if (line != null) {
            line.unlockTurn();
        }
    }

    @Override
    public boolean locksOutOthers() {
        return true;
    }

    @Override
    public Transaction transaction() {
        Transaction made = new FunctionTransaction() {
            @Override
            public void close() {
                inFunction.remove();
                super.close();
            }
        };
        inFunction.set(true);
        return made;
    }

    @Override
    void begin(PreparedConnection db) throws SQLException {
        db.execute("begin immediate");
    }

    @Override
    void commit(PreparedConnection db) throws SQLException {
        db.execute("commit");
    }

    @Override
    void releaseFunction(PreparedConnection db) {
        try {
            super.releaseFunction(db);
        } catch (SQLException none) { // (its code is that of a table which isn't there)
            throw new StoreException("the function has ended its transaction", none);
        }
    }

    @Override
    boolean rollBackToFunction(PreparedConnection db) {
        return false;
    }

    @Override
    void setUp() {
        inOwnTransaction(db -> {
            for (String statement : Sql.SCHEMA.of(Sql.Engine.SQLITE).text.split(";")) {
                db.execute(statement);
            }
            return null;
        });
    }

    @Override
    void prepare(PreparedConnection db) throws SQLException {
        db.execute("pragma busy_timeout = " + LONGEST_WAIT * 1000);
        String mode = db.rows(Sql.SET_JOURNAL, row -> row.getString(1)).get(0);
        db.execute(Sql.ANSWER_FROM_DISK);
        if (!Arrays.asList("wal", "delete", "truncate", "persist").contains(mode)) {
            throw new StoreException("journal_mode is " + mode + ", with which a crash loses words");
        }
    }

    @Override
    boolean isAway(SQLException error) {
        return Sql.SQLITE_AWAY.contains(error.getErrorCode() & 0xff);
    }

    /** A put that waits for the file, and what became of it, which the lock of {@link #waiting} guards. */
    private static final class WaitingPut {
        final Put put;
        boolean isDone, landed;
        RuntimeException refused;

        WaitingPut(Put put) {
            this.put = put;
        }
    }

    /** One thread puts for all: it takes its turn, and commits at once what they want to put by then. */
    @Override
    boolean putOnConnection(Put put) {
        refuseWithin();
        WaitingPut its = new WaitingPut(put);
        waiting.add(its);
        try {
            if (becomesLeader(its)) {
                takeTurn();
                try {
                    while (!its.isDone) {
                        putAll(nextGroup());
                    }
                } finally {
                    giveTurn();
                }
            }
        } finally {
            waiting.remove(its); // (where it isn't there although its thread gives up, it may stand: so {@code Unknown} is right)
            awaitLeader(its);
        }
        if (its.refused != null) {
            throw its.refused;
        }
        return its.landed;
    }

    /** Waits until another thread has put it, or this one is to put for all. {@code Unknown} where that takes too long. */
    private boolean becomesLeader(WaitingPut its) {
        long until = System.nanoTime() + TimeUnit.SECONDS.toNanos(LONGEST_WAIT);
        synchronized (waiting) {
            while (!its.isDone && leader != null) {
                long left = TimeUnit.NANOSECONDS.toMillis(until - System.nanoTime());
                if (left <= 0) {
                    throw new StoreException.Unknown(path + ": a thread of this process has the file for " + LONGEST_WAIT + " s", null);
                }
                try {
                    waiting.wait(left);
                } catch (InterruptedException interrupted) {
                    Thread.currentThread().interrupt();
                    throw new StoreException.Unknown(path + ": interrupted in the line", interrupted);
                }
            }
            leader = its.isDone ? leader : its;
            return !its.isDone;
        }
    }

    /** Lets the next one lead, if this one has. */
    private void awaitLeader(WaitingPut its) {
        synchronized (waiting) {
            if (leader == its) {
                leader = null;
                waiting.notifyAll();
            }
        }
    }

    /** The puts that are committed next: some of one statement each, or one that isn't. */
    private List<WaitingPut> nextGroup() {
        List<WaitingPut> next = new ArrayList<>();
        for (WaitingPut it = waiting.peek(); it != null && next.size() < MOST_AT_ONCE; it = waiting.peek()) {
            boolean isLarge = !largePayloads(it.put).isEmpty();
            if (isLarge && !next.isEmpty()) {
                break;
            }
            if (waiting.remove(it)) { // (else its thread has given up)
                next.add(it);
                if (isLarge) {
                    break;
                }
            }
        }
        return next;
    }

    /** How many puts wait for the file. */
    int waitingPuts() {
        return waiting.size();
    }

    private void putAll(List<WaitingPut> all) {
        Action<Void> act = db -> {
            for (WaitingPut it : all) {
                it.landed = putWaiting(db, it);
            }
            return null;
        };
        try {
            boolean isOneStatement = all.size() == 1 && isOneStatement(all.get(0).put);
            withConnection(isOneStatement ? act : inTransaction(act));
            commits++;
        } catch (RuntimeException | Error fault) {
            RuntimeException told = fault instanceof RuntimeException ? (RuntimeException) fault
                    : new StoreException.Unknown(fault.toString(), fault);
            all.forEach(it -> it.refused = told);
        } finally {
            synchronized (waiting) {
                all.forEach(it -> it.isDone = true);
                waiting.notifyAll();
            }
        }
    }

    /** What is refused of one of several leaves the others alone, unless the engine is away. */
    private boolean putWaiting(PreparedConnection db, WaitingPut it) throws SQLException {
        try {
            return put(db, it.put);
        } catch (SQLException error) {
            if (isAway(error) || !largePayloads(it.put).isEmpty()) {
                throw error;
            }
            it.refused = toStoreException(error);
            return false;
        }
    }

    /** Whether a put is one statement, which does all or nothing. */
    private static boolean isOneStatement(Put put) {
        return put.entries.size() <= 2 && !put.opens && largePayloads(put).isEmpty();
    }

    @Override
    boolean put(PreparedConnection db, Put put) throws SQLException {
        if (isOneStatement(put)) {
            return putWords(db, put);
        }
        db.execute("savepoint cf_put"); // (all of its statements stand, or none)
        boolean landed = false;
        try {
            landed = putWords(db, put) && (!put.opens || db.change(Sql.OPEN_AGAIN, put.number) >= 0);
        } finally {
            if (!landed) {
                db.execute("rollback to cf_put");
            }
            db.execute("release cf_put");
        }
        return landed;
    }

    private boolean putWords(PreparedConnection db, Put put) throws SQLException {
        List<Integer> large = largePayloads(put);
        if (put.entries.size() == 2 && large.isEmpty()) {
            Entry first = put.entries.get(0), second = put.entries.get(1);
            return db.change(Sql.PUT_TWO, put.number, put.at, first.word, first.token, put.payloads.get(put.at + 1), second.word, second.token,
                    put.payloads.get(put.at + 2)) == 2;
        }
        for (int k = 0; k < put.entries.size(); k++) {
            Entry entry = put.entries.get(k);
            int place = put.at + 1 + k;
            byte[] payload = put.payloads.get(place);
            if (db.change(Sql.PUT, put.number, put.at + k, entry.word, entry.token, large.contains(place) ? null : payload) == 0) {
                return false;
            }
            if (large.contains(place)) {
                db.change(Sql.PUT_LARGE, put.number, place, payload);
            }
        }
        return true;
    }

    /** The places of payloads that don't stand beside their words. */
    private static List<Integer> largePayloads(Put put) {
        List<Integer> large = Collections.emptyList();
        for (Map.Entry<Integer, byte[]> it : put.payloads.entrySet()) {
            if (it.getValue().length > SMALL) {
                large = large.isEmpty() ? new ArrayList<>() : large;
                large.add(it.getKey());
            }
        }
        return large;
    }

    @Override
    void notePut() {}

    @Override
    public byte[] payload(String name, long number, int place) {
        List<byte[]> found = query(Sql.PAYLOAD, row -> row.getBytes(1), number, place);
        if (found.isEmpty()) {
            checkPresent(name, number);
        }
        return found.isEmpty() ? null : found.get(0);
    }

    @Override
    public News news(Object mark) {
        long[] since = mark == null ? new long[] {Long.MAX_VALUE, Long.MAX_VALUE} : (long[]) mark, at = new long[2];
        Map<String, Integer> ends = new HashMap<>();
        query(Sql.NEWS, row -> {
            String name = row.getString(1);
            if (name == null) {
                at[0] = row.getLong(2);
                at[1] = row.getLong(3);
                return null;
            }
            return ends.merge(name, row.getInt(2), Math::max);
        }, since[0], since[1]);
        if (mark == null || at[0] < since[0]) {
            addEnds(ends, query(Sql.ENDS, JdbcStore::readEnd));
        }
        return new News(ends, at);
    }

    @Override
    public void awaitChange(long millis) throws InterruptedException {
        long until = System.nanoTime() + millis * 1_000_000;
        while (true) {
            Thread.sleep(1); // (first: where words come all the time, who waits for them looks no more often)
            try {
                if (watch == null) {
                    watch = connect();
                }
                long now = watch.rows(Sql.VERSION, row -> row.getLong(1)).get(0);
                boolean isOther = now != version;
                version = now;
                if (isOther || System.nanoTime() - until >= 0) {
                    return;
                }
            } catch (SQLException error) {
                watch = null;
                throw toStoreException(error);
            }
        }
    }

    @Override
    public boolean end(String name, long number, int at) {
        boolean closes = inOwnTransaction(db -> {
            boolean closed = db.change(Sql.END, number, at) == 1;
            if (closed) {
                db.change(Sql.DROP_TIMERS, number);
                db.change(Sql.DROP_GLANCE, number);
            }
            return closed;
        });
        if (!closes) {
            checkPresent(name, number);
        }
        return closes;
    }

    @Override
    public void dropBeat(long session) {
        inOwnTransaction(db -> db.change(Sql.DROP_BEAT, session) + db.change(Sql.DROP_SESSION_NAME, session));
    }

    @Override
    public double now() {
        return System.currentTimeMillis() / 1000.0;
    }

    @Override
    public void close() {
        super.close();
        try {
            if (watch != null) {
                watch.close();
            }
        } catch (SQLException lost) {
            // It is gone anyway.
        } finally {
            if (line != null) {
                line.close();
            }
        }
    }
}
