package cf.testing;

import cf.internal.WatchedServices;
import java.lang.reflect.InvocationHandler;
import java.lang.reflect.Method;
import java.lang.reflect.Proxy;
import java.sql.Connection;
import java.sql.PreparedStatement;
import java.sql.SQLException;
import java.sql.SQLFeatureNotSupportedException;
import java.sql.Statement;
import java.util.ArrayList;
import java.util.Arrays;
import java.util.Collections;
import java.util.List;
import java.util.TreeMap;
import java.util.function.Consumer;

/** A connection without a database: each statement that changes something is told, and answers that it has changed one row. It reads nothing. */
final class EffectConnection {
    private EffectConnection() {}

    static Connection reportingTo(Consumer<Effect> told) {
        return WatchedServices.stores().guardConnection(newProxy(Connection.class, (method, args) -> {
            switch (method.getName()) {
                case "createStatement":
                    return newProxy(Statement.class, new StatementHandler(null, told));
                case "prepareStatement":
                    return newProxy(PreparedStatement.class, new StatementHandler((String) args[0], told));
                case "isValid":
                    return true;
                case "isClosed":
                case "getAutoCommit":
                    return false;
                default:
                    throw unsupported(method);
            }
        }));
    }

    private interface Handler {
        Object answer(Method method, Object[] args) throws SQLException;
    }

    private static <T> T newProxy(Class<T> kind, Handler answer) {
        InvocationHandler calls = (proxy, method, args) -> {
            switch (method.getName()) {
                case "toString":
                    return "the " + kind.getSimpleName() + " of a world's store";
                case "hashCode":
                    return System.identityHashCode(proxy);
                case "equals":
                    return proxy == args[0];
                default:
                    return answer.answer(method, args == null ? new Object[0] : args);
            }
        };
        return kind.cast(Proxy.newProxyInstance(EffectConnection.class.getClassLoader(), new Class<?>[] {kind}, calls));
    }

    private static SQLException unsupported(Method method) {
        return new SQLFeatureNotSupportedException("a world's store has no database, so its " + method.getDeclaringClass().getSimpleName()
                + " only writes, and has no " + method.getName());
    }

    /** What a statement answers, which was prepared unless its text is null. */
    private static final class StatementHandler implements Handler {
        private final String prepared;
        private final Consumer<Effect> effects;
        private final TreeMap<Integer, Object> values = new TreeMap<>();
        private boolean isClosed;

        StatementHandler(String prepared, Consumer<Effect> told) {
            this.prepared = prepared;
            this.effects = told;
        }

        @Override
        public Object answer(Method method, Object[] args) throws SQLException {
            String name = method.getName();
            switch (name) {
                case "execute":
                case "executeUpdate":
                case "executeLargeUpdate":
                    effects.accept(args.length == 0 ? new Effect(prepared, parameters()) : new Effect((String) args[0], Collections.emptyList()));
                    return method.getReturnType() == boolean.class ? (Object) false : method.getReturnType() == long.class ? (Object) 1L : (Object) 1;
                case "clearParameters":
                    values.clear();
                    return null;
                case "close":
                    isClosed = true;
                    return null;
                case "isClosed":
                    return isClosed;
                default:
                    if (!name.startsWith("set") || args.length < 2 || !(args[0] instanceof Integer)) {
                        throw unsupported(method);
                    }
                    values.put((Integer) args[0], name.equals("setNull") ? null : args[1]);
                    return null;
            }
        }

        private List<Object> parameters() {
            Object[] given = new Object[values.isEmpty() ? 0 : values.lastKey()];
            values.forEach((place, value) -> given[place - 1] = value);
            return new ArrayList<>(Arrays.asList(given));
        }
    }
}
