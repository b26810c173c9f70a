package cf.service;

import java.util.ArrayList;
import java.util.Comparator;
import java.util.List;
import java.util.concurrent.ExecutorService;
import java.util.concurrent.Executors;
import java.util.concurrent.Future;
import java.util.concurrent.FutureTask;
import java.util.concurrent.locks.Condition;
import java.util.concurrent.locks.ReentrantLock;
import java.util.function.BooleanSupplier;

/**
 * A search of what waits and wakes: threads do what they are given, one at a time, and are led through all orders of their turns. A thread asks for
 * its turn before it takes a request's lock or looks at a stage without it. One that rests goes on as soon as what it waits for is there, which is
 * no choice, since nobody sees it. If all that are left rest, a wake-up is lost.
 */
final class Led implements Waits.Leader {
    private enum State { RUNS, ASKS, DONE }

    private static final ExecutorService THREADS = Executors.newCachedThreadPool(run -> {
        Thread thread = new Thread(run, "led");
        thread.setDaemon(true);
        return thread;
    });
    private static final ThreadLocal<Player> SELF = new ThreadLocal<>();

    private final ReentrantLock board = new ReentrantLock();
    private final Condition changed = board.newCondition();
    private final List<Player> players = new ArrayList<>();
    private final List<Task> tasks = new ArrayList<>();
    private final int[] choices, of;
    private int chosen;
    private boolean isOver, hasFailed;
    private long now;
    /** Which start of a thread fails, from 0 on, or -1, and how many there were. */
    private int fails = -1, starts;
    private Checks.Test atEnd = () -> {};

    /** What is tried: it gives players to one that leads them. */
    interface World {
        void begin(Led led) throws Exception;
    }

    final class Player {
        private final Checks.Test act;
        private State state = State.RUNS;
        private BooleanSupplier until;
        private boolean heedsInterrupts, isInterrupted;
        private Throwable thrown;

        private Player(Checks.Test act) {
            this.act = act;
        }

        private void run() {
            SELF.set(this);
            try {
                ask(null, false);
                act.run();
            } catch (Throwable any) {
                thrown = any;
            } finally {
                SELF.remove();
                board.lock();
                Thread.interrupted();
                state = State.DONE;
                changed.signalAll();
                board.unlock();
            }
        }

        private void ask(BooleanSupplier until, boolean orInterrupted) {
            board.lock();
            try {
                isInterrupted |= Thread.interrupted();
                heedsInterrupts = orInterrupted;
                this.until = until;
                state = State.ASKS;
                changed.signalAll();
                while (state == State.ASKS) {
                    if (isOver) {
                        throw new AssertionError("it rests for good");
                    }
                    changed.awaitUninterruptibly();
                }
                if (isInterrupted) {
                    isInterrupted = false;
                    Thread.currentThread().interrupt();
                }
            } finally {
                board.unlock();
            }
        }

        private boolean mayGoOn() {
            return until.getAsBoolean() || heedsInterrupts && isInterrupted;
        }

        /** Interrupts it, as it will find when it goes on. */
        void interrupt() {
            board.lock();
            isInterrupted = true;
            board.unlock();
        }
    }

    /** What the clock does at a moment. */
    private static final class Task extends FutureTask<Void> {
        private final long moment;

        Task(long moment, Runnable act) {
            super(act, null);
            this.moment = moment;
        }
    }

    private Led(int[] choices, int[] of) {
        this.choices = choices;
        this.of = of;
    }

    /** Goes through all orders of the players of a world, which is made anew each time. How many there are. */
    static int orders(World world) throws Exception {
        int[] choices = new int[200], of = new int[200];
        for (int count = 1;; count++) {
            Led led = new Led(choices, of);
            led.tried(world);
            int last = led.chosen - 1;
            while (last >= 0 && choices[last] + 1 == of[last]) {
                last--;
            }
            if (last < 0) {
                return count;
            }
            choices[last]++;
            for (int k = last + 1; k < of.length; k++) {
                of[k] = choices[k] = 0;
            }
        }
    }

    private void tried(World world) throws Exception {
        Waits.setLeader(this);
        try {
            world.begin(this);
            players.forEach(player -> THREADS.execute(player::run));
            lead();
            atEnd.run();
        } catch (Throwable thrown) {
            StringBuilder row = new StringBuilder();
            for (int k = 0; k < chosen; k++) {
                row.append(choices[k]);
            }
            throw new AssertionError("in the order " + row, thrown);
        } finally {
            Waits.setLeader(null);
        }
    }

    private void lead() {
        board.lock();
        try {
            for (Player next; (next = next()) != null;) {
                next.state = State.RUNS;
                changed.signalAll();
                while (players.stream().anyMatch(player -> player.state == State.RUNS)) {
                    changed.awaitUninterruptibly();
                }
            }
        } finally {
            isOver = true;
            changed.signalAll();
            board.unlock();
        }
        for (Player player : players) {
            if (player.thrown != null) {
                throw new AssertionError("a player has thrown", player.thrown);
            }
        }
    }

    /** Who goes on; null if all are done. */
    private Player next() {
        while (players.stream().anyMatch(player -> player.state == State.RUNS)) {
            changed.awaitUninterruptibly();
        }
        List<Player> may = new ArrayList<>();
        boolean rests = false;
        for (Player player : players) {
            if (player.state == State.ASKS && player.until == null) {
                may.add(player);
            } else if (player.state == State.ASKS && player.mayGoOn()) {
                return player;
            }
            rests |= player.state == State.ASKS;
        }
        if (may.isEmpty()) {
            Checks.is(rests ? "somebody rests for good" : "all are done", "all are done");
            return null;
        }
        Checks.is(of[chosen] == 0 || of[chosen] == may.size(), true);
        of[chosen] = may.size();
        return may.get(choices[chosen++]);
    }

    // What a world says.

    Player plays(Checks.Test act) {
        Player player = new Player(act);
        players.add(player);
        return player;
    }

    void atEnd(Checks.Test holds) {
        atEnd = holds;
    }

    /** Which of the threads from now on can't be started. */
    void failsToStart(int which) {
        fails = which;
        starts = 0;
    }

    boolean hasFailed() {
        return hasFailed;
    }

    /** How many alarms come yet. */
    int alarms() {
        synchronized (tasks) {
            tasks.removeIf(Task::isDone);
            return tasks.size();
        }
    }

    /** The clock has what is due next come, if anything is. Whether anything was. */
    boolean ticks() throws Exception {
        Task due;
        synchronized (tasks) {
            tasks.removeIf(Task::isDone);
            due = tasks.stream().min(Comparator.comparingLong(task -> task.moment)).orElse(null);
            tasks.remove(due);
            now = due == null ? now : Math.max(now, due.moment);
        }
        if (due != null) {
            due.run();
            if (!due.isCancelled()) {
                due.get();
            }
        }
        return due != null;
    }

    // What a service asks.

    @Override
    public void awaitTurn() {
        waitUntil(null, false);
    }

    @Override
    public void waitUntil(BooleanSupplier until, boolean orInterrupted) {
        Player self = SELF.get();
        if (self != null) {
            self.ask(until, orInterrupted);
        }
    }

    @Override
    public long now() {
        return now;
    }

    @Override
    public Future<?> runAt(long moment, Runnable act) {
        if (starts++ == fails) {
            hasFailed = true;
            throw new OutOfMemoryError("unable to create native thread");
        }
        Task task = new Task(moment, act);
        synchronized (tasks) {
            tasks.add(task);
        }
        return task;
    }
}
