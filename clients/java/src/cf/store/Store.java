package cf.store;

import java.sql.Connection;
import java.util.Collections;
import java.util.List;
import java.util.Map;

/**
 * Rows of words in an engine, which any thread may use: {@link JdbcStore} is one. Each call may throw {@link StoreException.Unknown}, and one that
 * has a request's number {@link StoreException.Gone} where that was dropped.
 *
 * <p>The engine puts a group of entries whole or not at all, and only where none stands yet; what it has answered is on disk; and what it gives
 * to read is the row, or a beginning of it.
 */
public interface Store extends AutoCloseable {
    /** Opens a request, or gives it as another opened it: then the plan may be another. */
    Opened open(String name, String plan);

    /** A request as it was opened, or null. */
    Opened find(String name);

    /** Puts entries: null where they stand now, else the entries that stand from their first place on. */
    List<Entry> append(Put put);

    /** The entries behind {@code at} of them. A stale answer is a shorter one. */
    List<Entry> read(String name, long number, int at);

    /** The payload of a place, which is counted from 1, or null. */
    byte[] payload(String name, long number, int place);

    /**
     * How many words those open requests have that may have changed since a mark, and the next mark; since null, all of them. One that is closed, and
     * to which words were put since the mark, may be told, too, with -1.
     */
    News news(Object mark);

    /** Waits until something may have been put, for so many milliseconds at most. One thread at a time waits so. */
    void awaitChange(long millis) throws InterruptedException;

    /**
     * Marks a request as closed, where it has just so many words, and forgets its timers. Whether this call has closed it. A put that
     * {@link Put#opens} takes it back.
     */
    boolean end(String name, long number, int at);

    /** Says that a session is there. */
    void beat(long session);

    /** How often each session has said so. */
    Map<Long, Long> beats();

    /** Forgets a session that has ended. */
    void dropBeat(long session);

    /** Names a session, as long as its beats are kept. */
    void nameSession(long session, String name);

    /** The store's clock, in seconds since 1970. */
    double now();

    /** What sessions are called in a request, by whoever did something there by hand. */
    default Map<Long, String> sessionNames(String request, long number) {
        return Collections.emptyMap();
    }

    /** Whether it has transactions that a function can take part in. */
    default boolean isTransactional() {
        return false;
    }

    /** Whether an open transaction keeps all others from putting. */
    default boolean locksOutOthers() {
        return false;
    }

    /** Begins a transaction, with a connection of its own. */
    default Transaction transaction() {
        throw new StoreException("the store has no transactions that a function can take part in");
    }

    /** Keeps a timer of a stage, in the place of one that it had. */
    void setTimer(Timer timer);

    /** The timers of moments up to this one. */
    List<Timer> dueTimers(double now);

    /** Forgets a stage's timer. */
    void dropTimer(Timer timer);

    @Override
    void close();

    /** A transaction of an engine. Closing it undoes what isn't committed. */
    interface Transaction extends AutoCloseable {
        /** The connection that a function is called with. */
        Connection connection();

        /** Whether the connection is gone, or the engine can't write now, once what a function threw may be due to that. All is undone. */
        boolean isAway();

        /** Puts within the transaction, and says whether its place was free. */
        boolean append(Put put);

        /** Lets all of it stand. {@link StoreException.Unknown} where it may or may not. */
        void commit();

        @Override
        void close();
    }

    /** An entry of a row: a word, the token that says who put it, and its payload, where a store that was asked for entries has given that along. */
    final class Entry {
        final long word, token;
        final byte[] payload;

        /** An entry of this word and token. */
        public Entry(long word, long token) {
            this(word, token, null);
        }

        /** The same with the payload, or null where {@link Store#payload} is to be asked. */
        public Entry(long word, long token, byte[] payload) {
            this.word = word;
            this.token = token;
            this.payload = payload;
        }

        /** The word of an event. */
        public long word() {
            return word;
        }

        /** The session, times 2^23, and a count. */
        public long token() {
            return token;
        }

        /** Adds what stands at a place to what stands behind so many words. {@link StoreException.Broken} where it is no entry, or leaves a gap. */
        static void add(List<Entry> entries, String name, int at, long place, long word, long token, byte[] payload) {
            int expected = at + entries.size();
            if (place != expected) {
                throw new StoreException.Broken(name, expected + 1, "no word stands there, and one stands at " + (place + 1));
            }
            if (word < 0 || token < 0) {
                throw new StoreException.Broken(name, expected + 1, word + " with " + token + " is no word with its token");
            }
            entries.add(new Entry(word, token, payload));
        }
    }

    /** A request as it was opened. If it is dropped and another one of its name is opened, that has another number. */
    final class Opened {
        final String name, plan;
        final long number;

        /** A request of this name, plan and number. */
        public Opened(String name, String plan, long number) {
            this.name = name;
            this.plan = plan;
            this.number = number;
        }

        /** The request's name. */
        public String name() {
            return name;
        }

        /** The text of its plan. */
        public String plan() {
            return plan;
        }

        /** Its own number. */
        public long number() {
            return number;
        }
    }

    /** Entries that are to stand behind the first {@code at} of a request's row, with the payloads of words that have one, by their places. */
    final class Put {
        final String request;
        final long number;
        final int at;
        final List<Entry> entries;
        final Map<Integer, byte[]> payloads;
        final boolean opens;

        Put(String request, long number, int at, List<Entry> entries, Map<Integer, byte[]> payloads, boolean opens) {
            this.request = request;
            this.number = number;
            this.at = at;
            this.entries = Collections.unmodifiableList(entries);
            this.payloads = Collections.unmodifiableMap(payloads);
            this.opens = opens;
        }

        /** The request's name. */
        public String request() {
            return request;
        }

        /** The request's own number. */
        public long number() {
            return number;
        }

        /** Behind how many entries they are to stand. */
        public int at() {
            return at;
        }

        /** The entries, at least one. */
        public List<Entry> entries() {
            return entries;
        }

        /** The payloads of words that have one, by the words' places, which are counted from 1. */
        public Map<Integer, byte[]> payloads() {
            return payloads;
        }

        /** Whether the request is opened again with them, in one step, where it is closed. */
        public boolean opens() {
            return opens;
        }
    }

    /** How many words requests have by name, or -1 of one that is closed, and up to where that was told. */
    final class News {
        final Map<String, Integer> ends;
        final Object mark;

        /** These ends and this mark. */
        public News(Map<String, Integer> ends, Object mark) {
            this.ends = ends;
            this.mark = mark;
        }
    }

    /**
     * The outcome that a stage gets at a moment, unless it is settled by then. The payload is a letter and bytes: {@code E} and an error for a
     * stage that times out, {@code V} and a value, or {@code N} for null.
     */
    final class Timer {
        final String request;
        final long number;
        final int stage;
        final double due;
        final byte[] payload;

        /** A timer of a request's stage, due in seconds of the store's clock since 1970. */
        public Timer(String request, long number, int stage, double due, byte[] payload) {
            this.request = request;
            this.number = number;
            this.stage = stage;
            this.due = due;
            this.payload = payload;
        }

        /** The request's name. */
        public String request() {
            return request;
        }

        /** The request's own number. */
        public long number() {
            return number;
        }

        /** The number of the stage. */
        public int stage() {
            return stage;
        }

        /** When it is due, in seconds of the store's clock since 1970. */
        public double due() {
            return due;
        }

        /** The outcome that the stage gets. */
        public byte[] payload() {
            return payload.clone();
        }
    }
}
