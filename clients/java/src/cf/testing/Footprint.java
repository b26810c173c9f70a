package cf.testing;

import java.util.HashMap;
import java.util.Map;

/**
 * What a move touches. Two moves that touch nothing in common come to the same in either order, so one order is enough.
 *
 * <p>It says of each thing whether a move reads it, changes it, or leads to it. A thing is a stage, by its {@link Move#place}; what user code
 * may share; the clock of a request; and what else a run has one of. A move <em>leads</em> to the stages behind one that it settles: these are
 * settled once all others before them are, so of two moves that only lead to the same stage it doesn't matter which comes first, unless one of
 * them settles it.
 */
final class Footprint {
    enum Access { READS, CHANGES, LEADS }

    /** All that functions share of which nothing is known; the workers; what checks look at. */
    static final String USER = "user", WORKERS = "workers", CHECKED = "checked";
    private static final String ALL = "all";

    private final Map<Object, Access> touched = new HashMap<>();

    /** That of a move of which nothing is known. */
    static Footprint ofUnknownMove() {
        Footprint made = new Footprint();
        made.touch(ALL, Access.CHANGES);
        return made;
    }

    void touch(Object thing, Access access) {
        Access old = touched.putIfAbsent(thing, access);
        if (old != null && old != access) {
            touched.put(thing, Access.CHANGES);
        }
    }

    boolean touches(Object thing) {
        return touched.containsKey(thing);
    }

    /** Whether it changes one of these. */
    boolean changes(Iterable<Object> things) {
        for (Object thing : things) {
            if (touched.get(thing) == Access.CHANGES) {
                return true;
            }
        }
        return false;
    }

    Iterable<Object> things() {
        return touched.keySet();
    }

    /** Whether it and another one touch the same in the same way, but for what checks look at: they may look at more by now. */
    boolean isSame(Footprint other) {
        return other != null && withoutChecked().equals(other.withoutChecked());
    }

    private Map<Object, Access> withoutChecked() {
        Map<Object, Access> rest = new HashMap<>(touched);
        rest.remove(CHECKED);
        return rest;
    }

    /** Whether two neighbouring moves come to the same in either order. */
    boolean isIndependent(Footprint other) {
        if (touched.containsKey(ALL) || other.touched.containsKey(ALL)) {
            return false;
        }
        if (other.touched.size() < touched.size()) {
            return other.isIndependent(this);
        }
        for (Map.Entry<Object, Access> each : touched.entrySet()) {
            Access access = other.touched.get(each.getKey());
            if (access != null && (access != each.getValue() || access == Access.CHANGES)) {
                return false;
            }
        }
        return true;
    }

    @Override
    public String toString() {
        return touched.toString();
    }
}
