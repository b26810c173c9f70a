package cf.store;

import java.lang.reflect.InvocationHandler;
import java.lang.reflect.InvocationTargetException;
import java.lang.reflect.Proxy;
import java.sql.Connection;
import java.sql.DriverManager;
import java.sql.ResultSet;
import java.sql.SQLException;
import java.util.ArrayList;
import java.util.Arrays;
import java.util.HashMap;
import java.util.List;
import java.util.Map;
import java.util.concurrent.ConcurrentHashMap;
import java.util.concurrent.ConcurrentLinkedDeque;

/**
 * Rows in tables, by JDBC: a file of SQLite's, which processes of one machine share, or a database of PostgreSQL's. The tables are those of
 * Python's {@code cf.store} and Rust's {@code cf-store}. What it has answered is on disk; an engine that is set to lose something is refused.
 */
public abstract class JdbcStore implements Store {
    /** How long a writer waits for an engine that others have, in seconds. */
    static final int LONGEST_WAIT = 20;

    private static final List<String> ENDS_IT = Arrays.asList("commit", "rollback", "setAutoCommit", "close", "abort");

    private final String url;
    private final Sql.Engine engine;
    private final ConcurrentLinkedDeque<PreparedConnection> idle = new ConcurrentLinkedDeque<>();
    private volatile boolean isClosed;

    JdbcStore(String url, Sql.Engine engine) {
        this.url = url;
        this.engine = engine;
    }

    /**
     * The store of an address of JDBC's: {@code jdbc:sqlite:FILE}, for which Xerial's driver has to be there, or
     * {@code jdbc:postgresql://HOST/DATABASE?user=..}.
     *
     * @throws StoreException.Unknown the engine doesn't answer
     * @throws StoreException the address is another engine's, or the engine refuses it
     */
    public static JdbcStore open(String url) {
        JdbcStore store;
        if (url.startsWith("jdbc:sqlite:")) {
            store = new SqliteStore(url);
        } else if (url.startsWith("jdbc:postgresql:")) {
            store = new PostgresStore(url);
        } else {
            throw new StoreException("no store is known by " + url.replaceAll("[?;].*", ""));
        }
        store.setUp();
        return store;
    }

    /** Makes the tables. */
    abstract void setUp();

    /** Makes a new connection safe; {@code StoreException} where it can't be. */
    abstract void prepare(PreparedConnection db) throws SQLException;

    /** Whether it isn't known what became of a statement, or the engine can't write now. */
    abstract boolean isAway(SQLException error);

    /** Whether it says that a place is taken. */
    boolean isTaken(SQLException error) {
        return false;
    }

    Connection openConnection(String url) throws SQLException {
        return DriverManager.getConnection(url);
    }

    /** Begins a transaction of a function's; then commits it. */
    abstract void begin(PreparedConnection db) throws SQLException;

    abstract void commit(PreparedConnection db) throws SQLException;

    /** Takes this thread's turn to write, and gives it to the next one. */
    void takeTurn() {}

    void giveTurn() {}

    /** Has such a transaction keep what the function did. The savepoint is there, unless the function has ended the transaction. */
    void releaseFunction(PreparedConnection db) throws SQLException {
        db.execute("release savepoint cf_function");
    }

    /** Undoes what such a transaction did, and says whether the engine can't write now. */
    abstract boolean rollBackToFunction(PreparedConnection db) throws SQLException;

    /** Something that is done on a connection. */
    interface Action<T> {
        T runOn(PreparedConnection db) throws SQLException;
    }

    final PreparedConnection connect() throws SQLException {
        PreparedConnection db = new PreparedConnection(openConnection(url), engine);
        try {
            prepare(db);
        } catch (SQLException | RuntimeException fault) {
            db.close();
            throw fault;
        }
        return db;
    }

    /** Uses a connection. One that failed isn't used again, unless it was the statement's fault. */
    final <T> T withConnection(Action<T> act) {
        PreparedConnection db = idle.pollFirst();
        boolean isKept = false;
        try {
            if (db == null) {
                db = connect();
            }
            T told = act.runOn(db);
            isKept = true;
            return told;
        } catch (SQLException error) {
            isKept = !isAway(error);
            throw toStoreException(error);
        } finally {
            if (db != null) {
                giveBack(db, isKept);
            }
        }
    }

    private void giveBack(PreparedConnection db, boolean isKept) {
        try {
            if (isKept && !isClosed && db.db.getAutoCommit()) {
                idle.addFirst(db);
                return;
            }
            db.close();
        } catch (SQLException lost) {
            // It is gone anyway.
        }
    }

    final StoreException toStoreException(SQLException error) {
        return isAway(error) ? new StoreException.Unknown(error.getMessage(), error) : new StoreException(error.getMessage(), error);
    }

    /** Acts on a connection in this thread's turn to write. */
    final <T> T withTurn(Action<T> act) {
        takeTurn();
        try {
            return withConnection(act);
        } finally {
            giveTurn();
        }
    }

    /** Acts in a transaction of its own. */
    final <T> T inOwnTransaction(Action<T> act) {
        return withTurn(inTransaction(act));
    }

    static <T> Action<T> inTransaction(Action<T> act) {
        return it -> {
            it.db.setAutoCommit(false);
            boolean stands = false;
            try {
                T told = act.runOn(it);
                it.db.commit();
                stands = true;
                return told;
            } finally {
                if (!stands) {
                    it.db.rollback(); // (whatever was thrown: the next call would commit)
                }
                it.db.setAutoCommit(true);
            }
        };
    }

    final <T> List<T> query(Sql statement, PreparedConnection.RowReader<T> reader, Object... values) {
        return withConnection(db -> db.rows(statement, reader, values));
    }

    /** How many rows a statement changed, which is a transaction of its own. */
    final int change(Sql statement, Object... values) {
        return withTurn(db -> db.change(statement, values));
    }

    /** {@code Gone} where a request of this number isn't there. */
    final void checkPresent(String name, long number) {
        if (query(Sql.IS_THERE, row -> 1, number).isEmpty()) {
            throw new StoreException.Gone(name);
        }
    }

    @Override
    public final Opened open(String name, String plan) {
        Opened found = find(name);
        while (found == null) { // (it may be dropped meanwhile)
            change(Sql.OPEN, name, plan);
            found = find(name);
        }
        return found;
    }

    @Override
    public final Opened find(String name) {
        List<Opened> found = query(Sql.FIND, row -> new Opened(name, row.getString(2), row.getLong(1)), name);
        return found.isEmpty() ? null : found.get(0);
    }

    @Override
    public final List<Entry> append(Put put) {
        boolean landed = false;
        StoreException taken = null;
        try {
            landed = putOnConnection(put);
        } catch (StoreException refused) {
            if (!(refused.getCause() instanceof SQLException) || !isTaken((SQLException) refused.getCause())) {
                throw refused;
            }
            taken = refused;
        }
        if (landed) {
            notePut();
            return null;
        }
        List<Entry> stands = read(put.request, put.number, put.at);
        if (stands.isEmpty()) { // (by what somebody else has put into the database, if a place is taken)
            throw taken == null ? new StoreException.Gone(put.request) : taken;
        }
        return stands;
    }

    @Override
    public final boolean isTransactional() {
        return true;
    }

    @Override
    public Transaction transaction() {
        return new FunctionTransaction();
    }

    /** A connection as a transactional function has it: it refuses what ends the transaction, since the function's finish does that. */
    static Connection guardConnection(Connection db) {
        InvocationHandler calls = (proxy, method, args) -> {
            if (ENDS_IT.contains(method.getName()) && (args == null || !method.getName().equals("rollback"))) {
                throw new SQLException("the finish of a transactional function ends its transaction, and not " + method.getName());
            }
            try {
                return method.invoke(db, args);
            } catch (InvocationTargetException thrown) {
                throw thrown.getCause();
            }
        };
        return (Connection) Proxy.newProxyInstance(JdbcStore.class.getClassLoader(), new Class<?>[] {Connection.class}, calls);
    }

    /** A transaction of a function's, on a connection of its own, in the turn of the thread that makes it. */
    class FunctionTransaction implements Transaction {
        private final PreparedConnection db;

        FunctionTransaction() {
            takeTurn();
            PreparedConnection made = null;
            try {
                made = connect();
                begin(made);
                made.execute("savepoint cf_function");
            } catch (SQLException | RuntimeException fault) {
                closeAndGiveTurn(made);
                throw fault instanceof SQLException ? toStoreException((SQLException) fault) : (RuntimeException) fault;
            }
            db = made;
        }

        @Override
        public Connection connection() {
            return guardConnection(db.db);
        }

        @Override
        public boolean isAway() {
            try {
                return rollBackToFunction(db);
            } catch (SQLException lost) {
                return true;
            }
        }

        @Override
        public boolean append(Put put) {
            try {
                releaseFunction(db);
                return put(db, put);
            } catch (SQLException error) {
                if (isTaken(error)) {
                    return false;
                }
                throw toStoreException(error);
            }
        }

        @Override
        public void commit() {
            try {
                JdbcStore.this.commit(db);
            } catch (SQLException error) {
                throw toStoreException(error);
            }
            notePut();
        }

        @Override
        public void close() {
            closeAndGiveTurn(db);
        }

        private void closeAndGiveTurn(PreparedConnection made) {
            try {
                if (made != null) {
                    made.close(); // What wasn't committed is undone by that.
                }
            } catch (SQLException lost) {
                // It is gone anyway.
            } finally {
                giveTurn();
            }
        }
    }

    /** Puts a group in a transaction, and says whether it landed. A place that is taken may be an error, too. Nothing of the group stands then. */
    abstract boolean put(PreparedConnection db, Put put) throws SQLException;

    /** Puts a group, and says whether it landed. What it throws may be due to a place that {@link #isTaken}. */
    boolean putOnConnection(Put put) {
        return withConnection(db -> put(db, put));
    }

    /** Something was put. */
    abstract void notePut();

    @Override
    public final List<Entry> read(String name, long number, int at) {
        List<Entry> entries = new ArrayList<>();
        boolean[] isThere = {false};
        query(Sql.READ_WITH_PAYLOADS, row -> {
            isThere[0] = true;
            long place = row.getLong(1);
            if (!row.wasNull()) {
                Entry.add(entries, name, at, place, row.getLong(2), row.getLong(3), row.getBytes(4));
            }
            return null;
        }, number, at);
        if (!isThere[0]) {
            throw new StoreException.Gone(name);
        }
        return entries;
    }

    /** Adds requests to those that are told, each with how many words it has. */
    static void addEnds(Map<String, Integer> ends, List<Map.Entry<String, Integer>> rows) {
        rows.forEach(row -> ends.merge(row.getKey(), row.getValue(), Math::max));
    }

    static Map.Entry<String, Integer> readEnd(ResultSet row) throws SQLException {
        return new java.util.AbstractMap.SimpleEntry<>(row.getString(1), row.getInt(2));
    }

    @Override
    public final void beat(long session) {
        change(Sql.BEAT, session);
    }

    @Override
    public final Map<Long, Long> beats() {
        Map<Long, Long> beats = new HashMap<>();
        query(Sql.BEATS, row -> beats.put(row.getLong(1), row.getLong(2)));
        return beats;
    }

    @Override
    public final void nameSession(long session, String name) {
        change(Sql.NAME_SESSION, session, name);
    }

    @Override
    public final Map<Long, String> sessionNames(String request, long number) {
        Map<Long, String> names = new HashMap<>();
        query(Sql.SESSION_NAMES, row -> names.put(row.getLong(1), row.getString(2)), number);
        return names;
    }

    @Override
    public final void setTimer(Timer timer) {
        if (change(Sql.SET_TIMER, timer.number, timer.stage, timer.due, timer.payload) == 0) {
            throw new StoreException.Gone(timer.request);
        }
    }

    @Override
    public final List<Timer> dueTimers(double now) {
        return query(Sql.DUE_TIMERS,
                row -> new Timer(row.getString(1), row.getLong(2), row.getInt(3), row.getDouble(4), row.getBytes(5)), now);
    }

    @Override
    public final void dropTimer(Timer timer) {
        change(Sql.DROP_TIMER, timer.number, timer.stage);
    }

    @Override
    public void close() {
        isClosed = true;
        for (PreparedConnection db = idle.pollFirst(); db != null; db = idle.pollFirst()) {
            giveBack(db, false);
        }
    }
}
