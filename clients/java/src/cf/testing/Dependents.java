package cf.testing;

import java.util.ArrayDeque;
import java.util.Collection;
import java.util.Deque;
import java.util.HashMap;
import java.util.HashSet;
import java.util.LinkedHashSet;
import java.util.Map;
import java.util.Set;
import java.util.function.BiConsumer;
import java.util.function.Predicate;

/** Which stages stand behind which. */
final class Dependents {
    private final Map<Long, Set<Long>> dependents = new HashMap<>();

    void add(long stage, long source) {
        dependents.computeIfAbsent(source, none -> new LinkedHashSet<>()).add(stage);
    }

    /**
     * Hands on each stage that changed stages lead to. One that is settled already is read: it hides the change from those behind it.
     */
    void forEachReached(Collection<Long> changed, Predicate<Long> isSettled, BiConsumer<Long, Footprint.Access> tells) {
        Deque<Long> left = new ArrayDeque<>(changed);
        Set<Long> seen = new HashSet<>(changed);
        for (Long at; (at = left.poll()) != null;) {
            for (Long stage : dependents.getOrDefault(at, new LinkedHashSet<>())) {
                if (seen.add(stage)) {
                    boolean is = isSettled.test(stage);
                    tells.accept(stage, is ? Footprint.Access.READS : Footprint.Access.LEADS);
                    if (!is) {
                        left.add(stage);
                    }
                }
            }
        }
    }
}
