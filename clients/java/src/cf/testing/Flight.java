package cf.testing;

import cf.internal.Watch;
import java.util.Collections;
import java.util.List;
import java.util.function.BooleanSupplier;
import java.util.function.Supplier;

/** A thread of a run: an executor's, with a function that it has claimed; whoever settled a stage, with the functions that became ready by that; a caller; the test itself. */
final class Flight {
    /** What its moves touch, so that they come one after another. */
    final String thing;
    /** What histories call it. */
    final String caller;
    /** What it has to do, function by function; null of what isn't a stage's. */
    final Watch.Turn turn;
    /** Whether it takes one of the workers. */
    final boolean isWorker;
    /** What it is about: a stage, or {@link Move#MAIN} and the like. */
    long place;
    String name;
    Move.Action word = Move.Action.CALL;
    /** What it does, where it has no turn. */
    Runnable act;
    Carrier carrier;
    Wait wait;
    /** Whether the time is over for which it waits. */
    boolean isLate;
    Object chosen;
    /** What it touches with each move behind a wait. */
    List<Object> touches = Collections.singletonList(Footprint.USER);
    /** The process of a store whose thread it is, or null. */
    StoreProcess process;
    /** What a test has a process call; it hasn't asked the store for anything yet. */
    boolean isCaller, isFresh;
    /** How often it asked the store for something, or was about to call a function. */
    int asked;

    /** What a function waits for. */
    static final class Wait {
        final String name;
        /** The stage, or what else is read then, or null. */
        final Object thing;
        final BooleanSupplier isOver;
        /** Of which one is chosen, where it waits for that; else null. */
        final Object[] ways;
        /** Which of them are possible, where it asks a store; else null. */
        final Supplier<List<Integer>> possible;

        Wait(String name, Object thing, BooleanSupplier isOver, Object[] ways) {
            this(name, thing, isOver, ways, null);
        }

        private Wait(String name, Object thing, BooleanSupplier isOver, Object[] ways, Supplier<List<Integer>> possible) {
            this.name = name;
            this.thing = thing;
            this.isOver = isOver;
            this.ways = ways;
            this.possible = possible;
        }

        /** That for what a store answers. */
        static Wait forAnswer(String name, Answer[] ways, Supplier<List<Integer>> possible) {
            return new Wait(name, null, () -> true, ways, possible);
        }
    }

    Flight(long place, String name, String caller, Watch.Turn turn, boolean isWorker, Runnable act) {
        this.place = place;
        this.name = name;
        this.caller = caller;
        this.turn = turn;
        this.isWorker = isWorker;
        this.act = act;
        thing = "thread " + place;
    }
}
