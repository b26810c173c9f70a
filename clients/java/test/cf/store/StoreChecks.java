package cf.store;

import cf.internal.Words;
import java.util.HashSet;
import java.util.List;
import java.util.Set;

/** What tests read of rows. */
public final class StoreChecks {
    private StoreChecks() {}

    /** The stages of a row that a finish with a value has settled, since no word has settled them before. */
    public static Set<Integer> finished(List<Store.Entry> row) {
        Set<Integer> settled = new HashSet<>(), finished = new HashSet<>();
        for (Store.Entry entry : row) {
            int kind = Words.kind(entry.word);
            if (kind != Words.ATTACH && kind != Words.CLAIM && !Words.isLinking(entry.word) && settled.add(Words.stage(entry.word))
                    && kind == Words.FINISH && !Words.isThrowing(entry.word)) {
                finished.add(Words.stage(entry.word));
            }
        }
        return finished;
    }
}
