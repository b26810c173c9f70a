package cf.store;

import cf.internal.WatchedServices;
import java.sql.Connection;
import java.util.HashMap;
import java.util.List;
import java.util.Map;
import java.util.TreeMap;

/**
 * Functions by name and version, so that a request which one process began goes on in another.
 *
 * <pre>{@code
 * Functions functions = new Functions().with("charge", 1, order -> charge((Map<?, ?>) order)).with("ship", 2, Shop::ship);
 * }</pre>
 *
 * <p>Arguments and results are JSON's values: null, {@code Boolean}, {@code Long}, {@code Double}, {@code String}, {@code List}, and {@code Map} by
 * {@code String}s; a number that is given as an {@code Integer} comes as a {@code Long}. Where a stage's exception is an argument it is a
 * {@link RemoteException}. What a function throws becomes one, with the simple name of its class as the kind.
 *
 * <p>A stage calls the latest version that was registered where it was attached. A changed meaning is a new version: keep the old one as long as
 * requests have it. A second function of the same name and version takes the place of the first.
 */
public final class Functions {
    private final Map<String, TreeMap<Integer, Registered>> known = new HashMap<>();

    static {
        WatchedServices.setStores(new Insight());
    }

    /** A function without arguments. */
    public interface Call0 {
        /** Calls it. */
        Object call() throws Exception;
    }

    /** A function of one argument. */
    public interface Call1 {
        /** Calls it. */
        Object call(Object argument) throws Exception;
    }

    /** A function of two arguments. */
    public interface Call2 {
        /** Calls it. */
        Object call(Object first, Object second) throws Exception;
    }

    /** A function that takes arguments by name, too. */
    public interface CallNamed {
        /** Calls it with the arguments without a name, and with the others by their names. */
        Object call(List<Object> args, Map<String, Object> named) throws Exception;
    }

    /** A function that attaches stages. */
    public interface Compose {
        /** Calls it with the request, as the process has it that calls, and with the value. It gives a stage of that request. */
        StoredStage call(StoredRequest request, Object value) throws Exception;
    }

    /** A function in a transaction. */
    public interface Transact {
        /** Calls it with the store's own connection. */
        Object call(Connection connection, List<Object> args) throws Exception;
    }

    /** The arguments that a function may take. */
    static final class Given {
        final StoredRequest request;
        final Connection connection;
        final List<Object> args;
        final Map<String, Object> named;

        Given(StoredRequest request, Connection connection, List<Object> args, Map<String, Object> named) {
            this.request = request;
            this.connection = connection;
            this.args = args;
            this.named = named;
        }
    }

    interface Any {
        Object call(Given given) throws Exception;
    }

    /** Which of this a function takes, beside arguments. One that is elsewhere is called by other processes alone. */
    enum Takes { NOTHING, NAMED, REQUEST, CONNECTION, ELSEWHERE }

    /** A function, and its arguments. */
    static final class Registered {
        final Takes takes;
        final Any call;

        Registered(Takes takes, Any call) {
            this.takes = takes;
            this.call = call;
        }
    }

    /** No functions, but for the two that gather a list. */
    public Functions() {
        with("cf.gather", 1, value -> java.util.Collections.singletonList(value));
        with("cf.add", 1, (first, second) -> {
            List<Object> both = new java.util.ArrayList<>((List<?>) first);
            both.addAll((List<?>) second);
            return both;
        });
    }

    /**
     * Registers a function without arguments.
     *
     * @return this
     */
    public Functions with(String name, int version, Call0 function) {
        return add(name, version, Takes.NOTHING, 0, given -> function.call());
    }

    /** Registers a function of one argument. */
    public Functions with(String name, int version, Call1 function) {
        return add(name, version, Takes.NOTHING, 1, given -> function.call(given.args.get(0)));
    }

    /** Registers a function of two arguments. */
    public Functions with(String name, int version, Call2 function) {
        return add(name, version, Takes.NOTHING, 2, given -> function.call(given.args.get(0), given.args.get(1)));
    }

    /** Registers a function that takes arguments by name, too, as Python's do. No other one is called for a stage that has some. */
    public Functions byName(String name, int version, CallNamed function) {
        return add(name, version, Takes.NAMED, -1, given -> function.call(given.args, given.named));
    }

    /**
     * Registers a function that attaches stages to the request and returns one of them, for {@link StoredStage#compose}. A further try calls it from
     * its beginning; {@link StoredStage#again} says what it then attaches. A call that goes on after its process was taken for gone attaches nothing
     * more: that throws a {@link RemoteException} of the kind {@link RemoteException#ABANDONED}.
     */
    public Functions composing(String name, int version, Compose function) {
        return add(name, version, Takes.REQUEST, 1, given -> function.call(given.request, given.args.get(0)));
    }

    /**
     * Registers a function that is called with the connection of the store, SQLite or PostgreSQL, in a transaction. What it does with that
     * connection is committed together with the stage's end, or not at all. Keep it short: in SQLite nobody else writes meanwhile. It may be called
     * again if the transaction didn't stand. It must neither commit, nor put to its own request, nor, in SQLite, to its own file: that throws.
     *
     * <pre>{@code
     * functions.transactional("pay", 1, (db, args) -> {
     *     try (PreparedStatement insert = db.prepareStatement("insert into payment (cents) values (?)")) {
     *         insert.setLong(1, (Long) args.get(0));
     *         return insert.executeUpdate();
     *     }
     * });
     * }</pre>
     */
    public Functions transactional(String name, int version, Transact function) {
        return add(name, version, Takes.CONNECTION, -1, given -> function.call(given.connection, given.args));
    }

    /**
     * Says that other processes have a function of this name and version. Stages that call it can be attached here, and it isn't called here: so a
     * process that only begins requests needs no code of functions. A name that nobody registered is refused, since it may be mistyped.
     */
    public Functions elsewhere(String name, int version) {
        return add(name, version, Takes.ELSEWHERE, -1, given -> {
            throw new IllegalStateException(name + " is elsewhere");
        });
    }

    private Functions add(String name, int version, Takes takes, int many, Any function) {
        Any checked = given -> {
            if (many >= 0 && given.args.size() != many) {
                throw new IllegalArgumentException(name + " takes " + many + " arguments, and was given " + given.args.size());
            }
            return function.call(given);
        };
        known.computeIfAbsent(name, it -> new TreeMap<>()).put(version, new Registered(takes, checked));
        return this;
    }

    Registered find(String name, int version) {
        TreeMap<Integer, Registered> versions = known.get(name);
        return versions == null ? null : versions.get(version);
    }

    /** Whether one of them is transactional. */
    boolean hasTransactional() {
        return known.values().stream().flatMap(it -> it.values().stream()).anyMatch(it -> it.takes == Takes.CONNECTION);
    }

    /** The highest version of a function, which composes or doesn't. */
    int latestVersion(String name, boolean composes) {
        TreeMap<Integer, Registered> versions = known.get(name);
        if (versions == null) {
            throw new IllegalArgumentException("no function \"" + name + "\" is registered: other processes know functions by name. One that only they"
                    + " call is named by Functions.elsewhere");
        }
        Takes takes = versions.lastEntry().getValue().takes;
        if (takes != Takes.ELSEWHERE && takes == Takes.REQUEST != composes) {
            throw new IllegalArgumentException("\"" + name + (composes ? "\" isn't registered as composing" : "\" composes: attach it by compose"));
        }
        return versions.lastKey();
    }
}
