package cf.testing;

/**
 * What becomes of a call of a store: it is answered; or no answer comes, and it stands, never comes there, or is on its way. That is what an
 * engine may do (docs/ENGINES.md), and no more.
 */
enum Answer {
    ANSWERED("", true),
    LOST("it never comes to the store", false, Bound.LOST),
    UNANSWERED("it stands, and the answer is lost", true, Bound.UNANSWERED),
    LATE("it is on its way, and no answer comes", false, Bound.LATE),
    SILENT("the store is silent for a minute, and it never comes there", false, Bound.SILENT),
    SILENT_STANDS("it stands, and the store is silent for a minute", true, Bound.SILENT),
    SILENT_LATE("it is on its way, and the store is silent for a minute", false, Bound.SILENT, Bound.LATE);

    /** Of functions; of what is asked of the store. */
    static final Answer[] OF_CALLS = {ANSWERED}, OF_READS = {ANSWERED, SILENT}, OF_WRITES = {ANSWERED, LOST, UNANSWERED, SILENT, SILENT_STANDS},
            OF_PUTS = values();

    final String text;
    /** Whether it stands at once. */
    final boolean isDone;
    /** Of what it takes one. With {@code LATE} it may come to stand at any moment from now on, and with {@code SILENT} the caller gives up. */
    final Bound[] costs;

    /** What may go wrong: {@link WorldStore} has how often. */
    enum Bound { LOST, UNANSWERED, LATE, SILENT, KILLED, SLOW }

    Answer(String text, boolean stands, Bound... costs) {
        this.text = text;
        this.isDone = stands;
        this.costs = costs;
    }

    boolean hasCost(Bound bound) {
        for (Bound cost : costs) {
            if (cost == bound) {
                return true;
            }
        }
        return false;
    }
}
