package cf.testing;

import java.util.ArrayList;
import java.util.Collections;
import java.util.List;

/** A statement that a transactional function has done by its connection, and that stands: {@link WorldStore#effects} gives them. */
public final class Effect {
    private final String sql;
    private final List<Object> values;

    Effect(String sql, List<Object> values) {
        this.sql = sql;
        this.values = Collections.unmodifiableList(new ArrayList<>(values));
    }

    /** The statement. */
    public String sql() {
        return sql;
    }

    /** The values of its parameters, by their places. One that wasn't set is null. */
    public List<Object> values() {
        return values;
    }

    @Override
    public boolean equals(Object other) {
        return other instanceof Effect && sql.equals(((Effect) other).sql) && values.equals(((Effect) other).values);
    }

    @Override
    public int hashCode() {
        return 31 * sql.hashCode() + values.hashCode();
    }

    @Override
    public String toString() {
        return values.isEmpty() ? sql : sql + " " + values;
    }
}
