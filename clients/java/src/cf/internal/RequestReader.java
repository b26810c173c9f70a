package cf.internal;

import cf.store.Store;
import cf.store.StoredHistory;
import java.util.Collection;
import java.util.List;

/** What is known of a request by all words that stand. */
public interface RequestReader {
    /** Takes in the words that came, and gives the stages that they settled, rising. */
    List<Integer> catchUp();

    /** How many words it has taken in. */
    int wordCount();

    /** How many stages there are. */
    int stageCount();

    /** What a stage is called. */
    String stageName(int stage);

    boolean isSettled(int stage);

    /** The value or the exception that a settled stage ended with. */
    Object outcome(int stage);

    /** The same in words: {@code ends: 7}. */
    String endText(int stage);

    /** The stages whose function is ready, rising. */
    List<Integer> readyStages();

    /** The sessions that have claimed stages which aren't settled. */
    Collection<Long> claimants();

    /** Whether promises of composing stages are to be settled. */
    boolean hasRelays();

    /** Whether it is a flow's, all its stages are settled, and no claim is open. */
    boolean isFinished();

    /** Whether all stages are settled, and no claim is open but for those of sessions that are gone. */
    boolean isDone(Collection<Long> gone);

    /** What happened to it. */
    StoredHistory history();

    /** What a put to it is called. */
    String putText(Store.Put put);
}
