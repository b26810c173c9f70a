package cf.store;

import java.sql.Connection;
import java.sql.PreparedStatement;
import java.sql.ResultSet;
import java.sql.SQLException;
import java.sql.Statement;
import java.sql.Types;
import java.util.ArrayList;
import java.util.EnumMap;
import java.util.List;
import java.util.Map;

/** A connection to an engine, which prepares each statement once. One thread at a time has it. */
final class PreparedConnection implements AutoCloseable {
    final Connection db;
    private final Sql.Engine engine;
    private final Map<Sql, PreparedStatement> prepared = new EnumMap<>(Sql.class);

    PreparedConnection(Connection db, Sql.Engine engine) {
        this.db = db;
        this.engine = engine;
    }

    /** Reads one row of an answer. */
    interface RowReader<T> {
        T read(ResultSet row) throws SQLException;
    }

    private interface Use<T> {
        T run(PreparedStatement statement) throws SQLException;
    }

    /** How many rows a statement changed. */
    int change(Sql statement, Object... values) throws SQLException {
        return withStatement(statement, PreparedStatement::executeUpdate, values);
    }

    <T> List<T> rows(Sql statement, RowReader<T> reader, Object... values) throws SQLException {
        return withStatement(statement, made -> {
            try (ResultSet rows = made.executeQuery()) {
                List<T> read = new ArrayList<>();
                while (rows.next()) {
                    read.add(reader.read(rows));
                }
                return read;
            }
        }, values);
    }

    /** Uses a statement with these values. One that failed is prepared anew: some drivers have ended it. */
    private <T> T withStatement(Sql statement, Use<T> use, Object... values) throws SQLException {
        Sql.Text its = statement.of(engine);
        PreparedStatement made = prepared.get(statement);
        if (made == null) {
            made = db.prepareStatement(its.text);
            prepared.put(statement, made);
        }
        boolean isKept = false;
        try {
            for (int k = 0; k < its.order.length; k++) {
                set(made, k + 1, values[its.order[k]]);
            }
            T told = use.run(made);
            isKept = true;
            return told;
        } finally {
            if (!isKept) {
                prepared.remove(statement);
                closeQuietly(made);
            }
        }
    }

    private void set(PreparedStatement made, int k, Object value) throws SQLException {
        if (value == null) {
            made.setNull(k, Types.BINARY);
        } else if (value instanceof Object[]) {
            String type = value instanceof Integer[] ? "int4" : value instanceof Long[] ? "int8" : "bytea";
            made.setArray(k, db.createArrayOf(type, (Object[]) value));
        } else {
            made.setObject(k, value);
        }
    }

    private static void closeQuietly(PreparedStatement made) {
        try {
            made.close();
        } catch (SQLException lost) {
            // What it failed with is thrown.
        }
    }

    /** Does a statement without values, which isn't prepared. */
    void execute(Sql statement) throws SQLException {
        execute(statement.of(engine).text);
    }

    /** The same of other statements. */
    void execute(String statements) throws SQLException {
        try (Statement made = db.createStatement()) {
            made.execute(statements);
        }
    }

    /** It closes its statements, too. */
    @Override
    public void close() throws SQLException {
        db.close();
    }
}
