package cf.testing;

import cf.internal.RequestReader;
import cf.internal.WatchedServices;
import cf.store.Store;
import cf.testing.Footprint.Access;
import java.util.ArrayList;
import java.util.LinkedHashMap;
import java.util.List;
import java.util.Map;
import java.util.function.BiConsumer;
import java.util.function.Consumer;

/** What stands. Each call touches what it reads or changes. */
final class WorldRows {
    /** Which requests there are. */
    static final String ROWS = "rows";
    /** What transactional functions have done. */
    static final String EFFECTS = "effects";

    final Memory memory = new Memory();
    /** Of requests, in the order in which they were opened. */
    final List<String> names = new ArrayList<>();
    /** With the number of each, by its stage. */
    final Map<String, NumberedTimer> timers = new LinkedHashMap<>();
    /** What transactional functions have done, and what stands. */
    final List<Effect> effects = new ArrayList<>();
    private final Map<String, RequestReader> readers = new LinkedHashMap<>();
    /** The open transactions that have a place of a request's row. */
    private final Map<String, ProcessTransaction> heldPlaces = new LinkedHashMap<>();
    private final BiConsumer<Object, Access> touch;
    /** Is told what a put settles, in words; null where nobody asks. */
    private Consumer<String> teller;
    private int timersMade;

    /** A timer, and which one it is. */
    static final class NumberedTimer {
        final int number;
        final Store.Timer timer;

        NumberedTimer(int number, Store.Timer timer) {
            this.number = number;
            this.timer = timer;
        }
    }

    WorldRows(BiConsumer<Object, Access> touch) {
        this.touch = touch;
    }

    void setTeller(Consumer<String> told) {
        teller = told;
    }

    /** What is known of a request by all its words, or null where there is none. */
    RequestReader reader(String name) {
        return readers.get(name);
    }

    /** What a stage is called. */
    String stageName(String request, int stage) {
        RequestReader reader = reader(request);
        return reader == null || stage >= reader.stageCount() ? "stage " + stage : reader.stageName(stage);
    }

    static String rowThing(String name) {
        return "row " + name;
    }

    /** Who may put next to a request's row. */
    static String placeThing(String name) {
        return "place of " + name;
    }

    Store.Opened open(String name, String plan) {
        boolean isNew = memory.find(name) == null;
        touch.accept(ROWS, isNew ? Access.CHANGES : Access.READS);
        Store.Opened opened = memory.open(name, plan);
        if (isNew) {
            touch.accept(rowThing(name), Access.CHANGES);
            readers.put(name, WatchedServices.stores().reader(memory, opened));
            names.add(name);
        }
        return opened;
    }

    List<Store.Entry> append(Store.Put put) {
        List<Store.Entry> stands = memory.append(put);
        touch.accept(rowThing(put.request()), stands == null ? Access.CHANGES : Access.READS);
        touch.accept(placeThing(put.request()), Access.READS);
        if (stands != null) {
            tell("another's word stands there");
            return stands;
        }
        RequestReader reader = reader(put.request());
        for (int stage : reader.catchUp()) {
            if (teller != null) {
                tell(reader.stageName(stage) + " " + reader.endText(stage));
            }
        }
        return null;
    }

    // Transactions.

    /** Whether an open transaction has a place of a request's row. */
    boolean isHeld(String name) {
        return heldPlaces.containsKey(name);
    }

    /** Takes a put's place for a transaction, if it is free. */
    boolean takePlace(ProcessTransaction transaction, Store.Put put) {
        if (!read(put.request(), put.number(), put.at()).isEmpty()) {
            return false;
        }
        transaction.put = put;
        touch.accept(placeThing(put.request()), Access.CHANGES);
        heldPlaces.put(put.request(), transaction);
        return true;
    }

    /** Lets all of a transaction stand, and ends it. */
    void commit(ProcessTransaction transaction) {
        append(transaction.put);
        touch.accept(EFFECTS, Access.CHANGES);
        effects.addAll(transaction.effects);
        releasePlace(transaction);
    }

    /** It has ended. */
    void releasePlace(ProcessTransaction transaction) {
        if (transaction.put != null && heldPlaces.remove(transaction.put.request(), transaction)) {
            touch.accept(placeThing(transaction.put.request()), Access.CHANGES);
        }
    }

    /** Undoes the transactions of a process, but for commits that are on their way. */
    void releaseAllOf(StoreProcess process) {
        new ArrayList<>(heldPlaces.values()).stream().filter(it -> it.process == process && !it.isOnItsWay).forEach(this::releasePlace);
    }

    private void tell(String text) {
        if (teller != null) {
            teller.accept(text);
        }
    }

    List<Store.Entry> read(String name, long number, int at) {
        touch.accept(rowThing(name), Access.READS);
        return memory.read(name, number, at);
    }

    boolean end(String name, long number, int at) {
        touch.accept(rowThing(name), Access.CHANGES);
        boolean did = memory.end(name, number, at);
        if (!memory.isOpen(name)) {
            timers.values().removeIf(it -> it.timer.request().equals(name));
        }
        return did;
    }

    void setTimer(Store.Timer timer) {
        touch.accept(rowThing(timer.request()), Access.CHANGES);
        timers.put(key(timer), new NumberedTimer(++timersMade, timer));
    }

    void dropTimer(Store.Timer timer) {
        touch.accept(rowThing(timer.request()), Access.CHANGES);
        timers.remove(key(timer));
    }

    /** The timer of a request's stage. */
    Store.Timer timer(int request, int stage) {
        return timers.get(names.get(request) + " " + stage).timer;
    }

    private static String key(Store.Timer timer) {
        return timer.request() + " " + timer.stage();
    }
}
