package cf.store;

import java.lang.reflect.Method;
import java.sql.Connection;
import java.sql.SQLException;
import java.util.HashMap;
import java.util.List;
import java.util.Map;

/**
 * A database of PostgreSQL's. Those who wait are woken by {@code NOTIFY} of a connection of its own, behind the commit: within the put it takes a
 * lock of the whole database.
 */
final class PostgresStore extends JdbcStore {
    private static final long BETWEEN_NOTICES = 10;

    private PreparedConnection listens;
    private Thread notifier;
    private boolean isWanted, isOver;
    /** Whether the server was safe before. */
    private volatile boolean isSetUp;

    PostgresStore(String url) {
        super(url + (url.contains("?") ? "&" : "?") + "connectTimeout=5&socketTimeout=" + LONGEST_WAIT, Sql.Engine.POSTGRES);
    }

    @Override
    void setUp() {
        if (!query(Sql.IS_MADE, row -> row.getBoolean(1)).get(0)) {
            inOwnTransaction(db -> {
                db.execute(Sql.SCHEMA);
                return null;
            });
        }
        isSetUp = true;
    }

    /** Nothing was asked yet where there is none to be had. */
    @Override
    Connection openConnection(String url) {
        try {
            return super.openConnection(url);
        } catch (SQLException error) {
            throw new StoreException.Unknown(error.getMessage(), error);
        }
    }

    @Override
    void prepare(PreparedConnection db) throws SQLException {
        db.rows(Sql.ANSWER_FROM_DISK, row -> null);
        db.rows(Sql.UNSAFE_SETTINGS, row -> {
            String name = row.getString(1), why = name + " is " + row.getString(2) + ", with which words are lost or can't be put";
            throw isSetUp && name.equals("transaction_read_only") ? new StoreException.Unknown(why, null) : new StoreException(why);
        });
    }

    @Override
    boolean isAway(SQLException error) {
        String state = error.getSQLState();
        return state == null || Sql.POSTGRES_AWAY.stream().anyMatch(state::startsWith);
    }

    @Override
    boolean isTaken(SQLException error) {
        return Sql.POSTGRES_TAKEN.contains(String.valueOf(error.getSQLState()));
    }

    @Override
    void begin(PreparedConnection it) throws SQLException {
        it.db.setAutoCommit(false);
    }

    @Override
    void commit(PreparedConnection it) throws SQLException {
        it.db.commit();
    }

    @Override
    boolean rollBackToFunction(PreparedConnection it) throws SQLException {
        it.db.rollback();
        return it.rows(Sql.IS_READ_ONLY, row -> row.getBoolean(1)).get(0);
    }

    @Override
    boolean put(PreparedConnection db, Put put) throws SQLException {
        int many = put.entries.size();
        Integer[] places = new Integer[many];
        Long[] words = new Long[many], tokens = new Long[many];
        byte[][] payloads = new byte[many][];
        for (int k = 0; k < many; k++) {
            places[k] = put.at + k;
            words[k] = put.entries.get(k).word;
            tokens[k] = put.entries.get(k).token;
            payloads[k] = put.payloads.get(put.at + 1 + k);
        }
        return (many == 1 ? db.change(Sql.PUT, put.number, put.at, words[0], tokens[0], payloads[0])
                : db.change(Sql.PUT_GROUP, put.number, places, words, tokens, payloads)) == many;
    }

    @Override
    boolean putOnConnection(Put put) {
        return !put.opens ? super.putOnConnection(put) : withConnection(inTransaction(db -> {
            db.rows(Sql.LOCK_CLOSING, row -> null, put.number);
            return put(db, put) && !db.rows(Sql.OPEN_AGAIN, row -> 1, put.number).isEmpty();
        }));
    }

    @Override
    public byte[] payload(String name, long number, int place) {
        List<byte[]> found = query(Sql.PAYLOADS, row -> row.getBytes(2), number, new Integer[] {place - 1});
        if (found.isEmpty()) {
            throw new StoreException.Gone(name);
        }
        return found.get(0);
    }

    @Override
    public News news(Object mark) {
        Map<String, Integer> ends = new HashMap<>();
        if (mark == null) {
            Long next = query(Sql.MARK, row -> row.getLong(1)).get(0);
            addEnds(ends, query(Sql.ENDS, JdbcStore::readEnd));
            return new News(ends, next);
        }
        Long[] next = new Long[1];
        query(Sql.NEWS, row -> {
            String name = row.getString(1);
            return name == null ? next[0] = row.getLong(2) : (Object) ends.merge(name, row.getInt(2), Math::max);
        }, mark.toString());
        return new News(ends, next[0]);
    }

    @Override
    public void awaitChange(long millis) throws InterruptedException {
        try {
            if (listens == null) {
                listens = connect();
                listens.execute(Sql.LISTEN);
                return;
            }
            // (the driver's own class, which isn't there where the store is compiled)
            Class<?> kind = Class.forName("org.postgresql.PGConnection", true, listens.db.getClass().getClassLoader());
            Method get = kind.getMethod("getNotifications", int.class);
            get.invoke(listens.db.unwrap(kind), (int) Math.max(millis, 1));
        } catch (SQLException error) {
            listens = null;
            throw toStoreException(error);
        } catch (ReflectiveOperationException fault) {
            boolean isLost = fault.getCause() instanceof SQLException;
            listens = isLost ? null : listens;
            if (isLost) {
                throw toStoreException((SQLException) fault.getCause());
            }
            Thread.sleep(millis); // (another driver, which tells no notices)
        }
    }

    @Override
    synchronized void notePut() {
        isWanted = true;
        if (notifier == null) {
            Thread made = new Thread(this::sendNotices, "cf-notify");
            made.setDaemon(true);
            try {
                made.start();
                notifier = made;
            } catch (OutOfMemoryError noThread) {
                return; // The next put tries again, and who waits looks by himself.
            }
        }
        notifyAll();
    }

    private void sendNotices() {
        PreparedConnection db = null;
        try {
            while (isNoticeWanted()) {
                try {
                    if (db == null) {
                        db = connect();
                        db.execute(Sql.ANSWER_AT_ONCE);
                    }
                    db.execute(Sql.NOTIFY);
                } catch (SQLException | StoreException lost) {
                    db = null;
                }
                Thread.sleep(BETWEEN_NOTICES);
            }
            if (db != null) {
                db.close();
            }
        } catch (InterruptedException | SQLException over) {
            // Who waits looks by himself.
        }
    }

    private synchronized boolean isNoticeWanted() throws InterruptedException {
        while (!isWanted && !isOver) {
            wait();
        }
        isWanted = false;
        return !isOver;
    }

    @Override
    public boolean end(String name, long number, int at) {
        List<Boolean> closes = inOwnTransaction(db -> {
            db.rows(Sql.LOCK_CLOSING, row -> null, number);
            return db.rows(Sql.END, row -> row.getBoolean(1), number, at);
        });
        if (closes.isEmpty()) {
            throw new StoreException.Gone(name);
        }
        return closes.get(0);
    }

    @Override
    public void dropBeat(long session) {
        change(Sql.DROP_BEAT, session);
    }

    @Override
    public double now() {
        return query(Sql.NOW, row -> row.getDouble(1)).get(0);
    }

    @Override
    public void close() {
        synchronized (this) {
            isOver = true;
            notifyAll();
        }
        super.close();
        try {
            if (listens != null) {
                listens.close();
            }
        } catch (SQLException lost) {
            // It is gone anyway.
        }
    }
}
