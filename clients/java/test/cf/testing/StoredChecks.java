package cf.testing;

import cf.store.Store;
import cf.store.StoreChecks;
import cf.testing.Answer.Bound;
import java.sql.Connection;
import java.sql.SQLException;
import java.sql.Statement;
import java.util.HashMap;
import java.util.HashSet;
import java.util.Map;
import java.util.Set;

/** What has to hold of a store in all orders, whatever goes wrong. */
final class StoredChecks {
    /** With what the name of a transactional function ends. */
    static final String WRITES = " by connection";

    private StoredChecks() {}

    /** Lets one thing go wrong once. */
    static void with(WorldStore store, Bound fault) {
        switch (fault) {
            case LOST: store.lost(1); break;
            case UNANSWERED: store.unanswered(1); break;
            case LATE: store.late(1); break;
            case SILENT: store.silent(1); break;
            case KILLED: store.killed(1); break;
            default: store.slow(1);
        }
    }

    /** Whether each word stands as its process was told, and no put stands twice. */
    static boolean standsOnce(WorldStore store) {
        Set<Long> tokens = new HashSet<>();
        for (String name : store.rows.names) {
            for (Store.Entry entry : store.rows.memory.read(name)) {
                if (!tokens.add(entry.token())) {
                    return false;
                }
            }
        }
        return store.answered().stream().allMatch(it -> store.rows.memory.read(it.request()).get(it.place() - 1).word() == it.word());
    }

    /** What a transactional function does: its effect is its name. */
    static Object write(Connection connection, String function) throws SQLException {
        try (Statement insert = connection.createStatement()) {
            return insert.executeUpdate(function);
        }
    }

    /** Whether each effect stands exactly where the finish of a stage of its function has settled that. */
    static boolean effectsStand(WorldStore store) {
        Map<String, Integer> effects = new HashMap<>();
        store.effects().forEach(effect -> effects.merge(effect.sql(), 1, Integer::sum));
        for (String name : store.rows.names) {
            for (int stage : StoreChecks.finished(store.rows.memory.read(name))) {
                String function = store.rows.stageName(name, stage).replaceAll("( again)*$", "");
                if (function.endsWith(WRITES)) {
                    effects.merge(function, -1, Integer::sum);
                }
            }
        }
        return effects.values().stream().allMatch(left -> left == 0);
    }

    /** Whether no claim is granted twice. */
    static boolean grantedOnce(WorldStore store) {
        Set<String> granted = new HashSet<>();
        return store.granted().stream().allMatch(it -> granted.add(it.request() + " " + it.stage()));
    }
}
