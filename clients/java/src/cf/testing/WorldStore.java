package cf.testing;

import cf.internal.Host;
import cf.internal.RequestReader;
import cf.store.Functions;
import cf.store.Store;
import cf.store.StoreException;
import cf.store.StoredHistory;
import cf.store.StoredStage;
import cf.testing.Answer.Bound;
import cf.testing.Footprint.Access;
import cf.testing.Move.Action;
import java.util.ArrayList;
import java.util.Arrays;
import java.util.Collection;
import java.util.Collections;
import java.util.HashMap;
import java.util.HashSet;
import java.util.Iterator;
import java.util.List;
import java.util.Map;
import java.util.Objects;
import java.util.function.Supplier;
import java.util.stream.Collectors;

/**
 * Rows in memory that processes of a world share: {@link World#store} gives it. What may go wrong is said first, for each order, and nothing else
 * does.
 *
 * <p>A process looks only where that leads to something. Its look, and the first read that follows, are one move: between them nothing of it could
 * be seen. What has to be done in the store stands in footprints as the rows that are read and changed; all that one process does stands there as
 * a change of that process, so no two of its moves are swapped unseen.
 */
public final class WorldStore {
    private static final String KILLS = "kills", FAULTS = "faults";
    /** How often a process looks at beats, until it takes a silent one for gone. */
    private static final int LOOKS = 5;
    /** How long a service waits for an answer, in nanoseconds. */
    private static final long PATIENCE = 61_000_000_000L;

    final Run run;
    final WorldRows rows;
    final List<StoreProcess> processes = new ArrayList<>();
    final List<GrantedClaim> grantedClaims = new ArrayList<>();
    final List<AnsweredWord> answeredWords = new ArrayList<>();
    /** How many things of a kind may still go wrong. */
    private final int[] bounds = new int[Bound.values().length];
    /** Puts that are on their way, also those that have come. */
    private final List<Coming> flying = new ArrayList<>();
    private final List<Integer> landed = new ArrayList<>();
    private final List<Flight> dead = new ArrayList<>();
    private final Map<String, String[]> marks = new HashMap<>();

    /** A granted claim that a process was told of. */
    public static final class GrantedClaim {
        private final String process, request;
        private final int stage;

        GrantedClaim(String process, String request, int stage) {
            this.process = process;
            this.request = request;
            this.stage = stage;
        }

        /** The process's name. */
        public String process() {
            return process;
        }

        /** The request's name. */
        public String request() {
            return request;
        }

        /** The stage's number. */
        public int stage() {
            return stage;
        }

        @Override
        public String toString() {
            return process + " has stage " + stage + " of " + request;
        }
    }

    /** A word that a process was told to stand. */
    public static final class AnsweredWord {
        private final String process, request;
        private final int place;
        private final long word;

        AnsweredWord(String process, String request, int place, long word) {
            this.process = process;
            this.request = request;
            this.place = place;
            this.word = word;
        }

        /** The process's name. */
        public String process() {
            return process;
        }

        /** The request's name. */
        public String request() {
            return request;
        }

        /** The word's place in the request's row, counted from 1. */
        public int place() {
            return place;
        }

        /** The word. */
        public long word() {
            return word;
        }

        @Override
        public String toString() {
            return process + " was told of word " + place + " of " + request;
        }
    }

    WorldStore(Run run) {
        this.run = run;
        rows = new WorldRows(run::touch);
    }

    // What may go wrong.

    /** So many calls of the store never come there. They are asked again. */
    public WorldStore lost(int times) {
        return setBound(Bound.LOST, times);
    }

    /** So many calls are done, and the answer is lost. They are asked again. */
    public WorldStore unanswered(int times) {
        return setBound(Bound.UNANSWERED, times);
    }

    /** So many puts are on their way for a while, and come later, if their place is still free then. Meanwhile they are asked again. */
    public WorldStore late(int times) {
        return setBound(Bound.LATE, times);
    }

    /** So often the store doesn't answer for a minute: the caller gets {@link StoreException.Unknown}, and its call is done or not. */
    public WorldStore silent(int times) {
        return setBound(Bound.SILENT, times);
    }

    /** So many processes are killed, between any two moves of their threads. Their claims stay until others take them for gone. */
    public WorldStore killed(int times) {
        return setBound(Bound.KILLED, times);
    }

    /** So often a process that is there is taken for gone, while its threads are at work. */
    public WorldStore slow(int times) {
        return setBound(Bound.SLOW, times);
    }

    private WorldStore setBound(Bound bound, int times) {
        bounds[bound.ordinal()] = times;
        return this;
    }

    /** How many faults of a kind may still come. */
    int remaining(Bound bound) {
        return bounds[bound.ordinal()];
    }

    // Processes, and what is known of functions.

    /** A process that has no functions. */
    public StoreProcess process(String name) {
        return process(name, new Functions());
    }

    /** A process with a service over this store, which works on the requests that it has opened. {@link StoreProcess} has what else is said. */
    public StoreProcess process(String name, Functions functions) {
        StoreProcess made = new StoreProcess(this, processes.size(), name, functions);
        processes.add(made);
        run.touch("processes", Access.CHANGES);
        return made;
    }

    /** One that works on all requests that are open in the store. */
    public StoreProcess worker(String name, Functions functions) {
        return process(name, functions).takesAll();
    }

    /** A function of this name neither reads nor changes what other functions change. The mark is a promise, as {@link World#pure} is. */
    public WorldStore pure(String function) {
        return touches(function);
    }

    /** A function of this name shares with others no more than what has these names: as {@link World#touches} says of a stage. */
    public WorldStore touches(String function, String... names) {
        marks.put(Objects.requireNonNull(function), names.clone());
        return this;
    }

    // What stands.

    /** The value or the exception that the first stage of this name ended with, by all words that stand; null where it isn't settled. */
    public Object outcome(String request, String stage) {
        int number = stageNumber(request, stage);
        return number < 0 || !rows.reader(request).isSettled(number) ? null : rows.reader(request).outcome(number);
    }

    /** Whether the first stage of this name is settled, by all words that stand. */
    public boolean isSettled(String request, String stage) {
        int number = stageNumber(request, stage);
        return number >= 0 && rows.reader(request).isSettled(number);
    }

    /** The first stage of this name, or -1. */
    private int stageNumber(String request, String stage) {
        touch(WorldRows.rowThing(request), Access.READS);
        RequestReader reader = rows.reader(request);
        for (int k = 0; reader != null && k < reader.stageCount(); k++) {
            if (reader.stageName(k).equals(stage)) {
                return k;
            }
        }
        return -1;
    }

    /** Each claim that a process was told to be its own, in turn. */
    public List<GrantedClaim> granted() {
        return Collections.unmodifiableList(grantedClaims);
    }

    /** Each word that a process was told to stand, in turn. */
    public List<AnsweredWord> answered() {
        return Collections.unmodifiableList(answeredWords);
    }

    /** The committed effects of transactional functions on their connections, in turn. */
    public List<Effect> effects() {
        touch(WorldRows.EFFECTS, Access.READS);
        return Collections.unmodifiableList(rows.effects);
    }

    /** The outcome of each stage of each request, by all words that stand, to compare the ends of orders. */
    public List<String> outcomes() {
        List<String> outcomes = new ArrayList<>();
        for (String name : rows.names) {
            RequestReader reader = rows.reader(name);
            touch(WorldRows.rowThing(name), Access.READS);
            for (int k = 0; k < reader.stageCount(); k++) {
                outcomes.add(name + ": " + reader.stageName(k) + " " + (reader.isSettled(k) ? reader.endText(k) : "is open"));
            }
        }
        return outcomes;
    }

    /** All words that stand, as a text. */
    String words() {
        StringBuilder text = new StringBuilder();
        for (String name : rows.names) {
            text.append(name);
            rows.memory.read(name).forEach(entry -> text.append(' ').append(entry.word()).append(' ').append(entry.token()));
        }
        return text.toString();
    }

    /** The history of each request, by all words that stand, in the order in which they were opened. */
    List<StoredHistory> histories() {
        return rows.names.stream().map(name -> rows.reader(name).history()).collect(Collectors.toList());
    }

    /** Whether it is a stage of a killed process. */
    boolean isOfKilled(StoredStage stage) {
        return processes.stream().anyMatch(it -> it.isDead && it.serving().hasStage(stage));
    }

    // What processes ask.

    void touch(Object thing, Access access) {
        run.touch(thing, access);
    }

    /** The thread of this process that goes on, or null: then its call is a part of another's move. */
    private Flight currentFlight(StoreProcess process) {
        Flight flight = run.current();
        return flight != null && flight.process == process ? flight : null;
    }

    /** Makes a call of the store, which is a move of its own, and which the search answers. {@code coming} is the put that is asked for, or null. */
    <T> T askStore(StoreProcess process, Answer[] ways, String text, Coming coming, Supplier<T> act) {
        Flight flight = currentFlight(process);
        if (process.isDead || run.isClosing()) {
            throw new Leaving(Leaving.Reason.GONE);
        }
        boolean isOthers = coming != null && coming.commits == null;
        if (flight == null || flight.isFresh && ways == Answer.OF_READS) {
            if (flight != null) {
                flight.isFresh = false;
            } else if (isOthers && run.current() != null) {
                awaitPlace(coming.put.request());
            }
            return act.get();
        }
        flight.isFresh = false;
        Answer chosen = (Answer) run.waitFor(Flight.Wait.forAnswer(text, ways, () -> possibleAnswers(ways)), -1);
        for (Bound cost : chosen.costs) {
            touch(FAULTS, Access.CHANGES);
            bounds[cost.ordinal()]--;
        }
        try {
            if (chosen.isDone && isOthers) {
                awaitPlace(coming.put.request());
            }
            if (chosen == Answer.ANSWERED) {
                return act.get();
            }
            if (chosen.isDone) {
                runUntold(act);
            }
            if (chosen.hasCost(Bound.LATE)) {
                flying.add(coming);
                if (coming.commits != null) {
                    coming.commits.isOnItsWay = true;
                }
            }
            if (chosen.hasCost(Bound.SILENT)) {
                process.host.clock += PATIENCE;
            }
            throw new StoreException.Unknown("no answer", null);
        } finally {
            if (flight.isCaller && chosen.isDone && ways != Answer.OF_READS) { // (a test's own lines follow)
                run.waitFor(Flight.Wait.forAnswer("goes on", Answer.OF_CALLS, () -> possibleAnswers(Answer.OF_CALLS)), -1);
            }
        }
    }

    /**
     * Waits until no transaction has a place of a request's row. The move that asks begins the wait, so it races with the one that took the place. If
     * it came behind the wait, it would always come after the place was given back, and so race with nothing.
     */
    private void awaitPlace(String request) {
        touch(WorldRows.placeThing(request), Access.READS);
        while (rows.isHeld(request)) {
            run.waitFor(new Flight.Wait("its place in " + request, WorldRows.placeThing(request), () -> !rows.isHeld(request), null), -1);
        }
    }

    /** Takes a put's place for a transaction, if it is free, once no other transaction has it. That is no move, unless it waits. */
    boolean takePlace(ProcessTransaction transaction, Store.Put put) {
        awaitPlace(put.request());
        return rows.takePlace(transaction, put);
    }

    /** Lets a transaction stand. */
    void commit(ProcessTransaction transaction) {
        Store.Put put = transaction.put;
        askStore(transaction.process, Answer.OF_PUTS, "commits, and " + rows.reader(put.request()).putText(put), new Coming(put, transaction), () -> {
            rows.commit(transaction);
            return null;
        });
    }

    /** Runs a call whose answer is lost. */
    private static void runUntold(Supplier<?> act) {
        try {
            act.get();
        } catch (StoreException untold) {
            // Nobody hears of it.
        }
    }

    private List<Integer> possibleAnswers(Answer[] ways) {
        List<Integer> possible = new ArrayList<>();
        for (int k = 0; k < ways.length; k++) {
            if (Arrays.stream(ways[k].costs).allMatch(cost -> remaining(cost) > 0)) {
                possible.add(k);
            }
        }
        return possible;
    }

    /** Calls a function, which is a move of its own. */
    Object call(StoreProcess process, String name, Host.FunctionCall call) throws Throwable {
        Flight flight = currentFlight(process);
        if (flight == null) {
            return call.call();
        }
        run.waitFor(Flight.Wait.forAnswer("calls " + name, Answer.OF_CALLS, () -> possibleAnswers(Answer.OF_CALLS)), -1);
        List<Object> before = flight.touches;
        flight.touches = new ArrayList<>(before);
        flight.touches.addAll(touchedThings(name));
        flight.touches.forEach(thing -> touch(thing, Access.CHANGES));
        try {
            return call.call();
        } catch (AssertionError failed) {
            run.fail(name + " threw " + Run.text(failed), failed);
            throw failed;
        } finally {
            flight.touches = before;
        }
    }

    /** The things that a function touches. */
    private List<Object> touchedThings(String function) {
        String[] names = marks.get(function);
        if (names == null) {
            return Collections.singletonList(Footprint.USER);
        }
        List<Object> things = new ArrayList<>();
        for (String name : names) {
            things.add("user " + name);
        }
        if (!run.checks.isEmpty()) {
            things.add(Footprint.CHECKED);
        }
        return things;
    }

    // Moves.

    /** The moves of processes beside those of their threads. */
    List<Move> moves(boolean hasOthers) {
        List<Move> moves = new ArrayList<>();
        List<StoreProcess> living = new ArrayList<>(processes), free = new ArrayList<>();
        living.removeIf(it -> it.isDead);
        living.stream().filter(this::isFree).forEach(free::add);
        living.forEach(process -> addMovesOf(process, moves));
        addNoticed(free, moves);
        for (int n = 0; n < flying.size(); n++) {
            if (mayLand(n, flying.get(n))) {
                moves.add(new Move(Action.LAND, n, 0, 0));
            }
        }
        List<Move> faults = new ArrayList<>();
        for (StoreProcess other : living) {
            if (remaining(Bound.SLOW) > 0 && !flights(other).isEmpty()) {
                addGone(other, free, faults);
            }
        }
        for (StoreProcess process : living) {
            if (remaining(Bound.KILLED) > 0 && !flights(process).isEmpty()) {
                faults.add(new Move(Action.KILL, process.key(), 0, 0));
            }
        }
        if (!faults.isEmpty() && (run.settings.isReduced || moves.isEmpty() && !hasOthers)) {
            moves.add(new Move(Action.SPARE, 0, 0, 0));
        }
        moves.addAll(faults);
        return moves;
    }

    private void addMovesOf(StoreProcess process, List<Move> moves) {
        process.callers.forEach(work -> moves.add(new Move(Action.JOB, process.key(), work.number, 0)));
        if (isFree(process)) {
            StoreProcess.Work work = nextWork(process);
            if (work != null) {
                moves.add(new Move(Action.JOB, process.key(), work.number, 0));
            } else if (!process.stuck.isEmpty() || rows.names.stream().anyMatch(name -> matters(process, name))) {
                moves.add(new Move(Action.LOOK, process.key(), 0, 0));
            }
        }
    }

    /**
     * Limits that have passed, and processes that are gone. The first process notices that is free: which one it is makes no difference to what
     * stands.
     */
    private void addNoticed(List<StoreProcess> free, List<Move> moves) {
        for (WorldRows.NumberedTimer each : rows.timers.values()) {
            free.stream().filter(it -> isDue(it, each.timer)).findFirst().ifPresent(
                    by -> moves.add(new Move(Action.DUE, by.key(), rows.names.indexOf(each.timer.request()), each.timer.stage(), each.number)));
        }
        processes.stream().filter(it -> it.isDead).forEach(other -> addGone(other, free, moves));
    }

    private void addGone(StoreProcess other, List<StoreProcess> free, List<Move> moves) {
        free.stream().filter(it -> it != other && hasClaim(it, other)).findFirst().ifPresent(
                by -> moves.add(new Move(Action.GONE, by.key(), other.key(), 0)));
    }

    private boolean mayLand(int number, Coming coming) {
        String request = coming.put.request();
        return !landed.contains(number) && (coming.commits != null || !rows.isHeld(request)) && rows.reader(request).wordCount() == coming.put.at();
    }

    private List<Flight> flights(StoreProcess process) {
        List<Flight> flights = new ArrayList<>(run.flights());
        flights.removeIf(it -> it.process != process);
        return flights;
    }

    /** Whether a thread of its pool is free. */
    private boolean isFree(StoreProcess process) {
        long busy = flights(process).stream().filter(it -> !it.isCaller).count();
        return busy < Math.max(process.workers, 1) && !process.serving().isStopped();
    }

    private StoreProcess.Work nextWork(StoreProcess process) {
        return process.queue.stream().filter(it -> it.job == Host.Job.FIRE || it.job == Host.Job.WORK && matters(process, it.name)).findFirst()
                .orElse(null);
    }

    /** Whether a process that looks at a request finds work in it, or wakes a waiter. */
    private boolean matters(StoreProcess process, String name) {
        RequestReader all = rows.reader(name);
        if (!process.worksOn(name) || process.serving().isBroken(name)) {
            return false;
        }
        boolean isOpen = rows.memory.isOpen(name);
        if (isOpen && process.workers > 0 && all.readyStages().stream().anyMatch(stage -> process.serving().knowsFunction(all, stage))) {
            return true;
        }
        return process.serving().hasRequest(name) && (process.serving().hasUntold(name, all) || isOpen && (all.isFinished() || all.hasRelays()));
    }

    private boolean isDue(StoreProcess process, Store.Timer timer) {
        return process.worksOn(timer.request()) && !process.serving().isFiring(timer) && !rows.reader(timer.request()).isSettled(timer.stage());
    }

    /** Whether a process works on a request in which the other one has claimed something. */
    private boolean hasClaim(StoreProcess process, StoreProcess other) {
        return rows.names.stream().anyMatch(name -> rows.reader(name).claimants().contains(other.serving().session()) && process.worksOn(name));
    }

    /** Makes a move. */
    void make(Move move) {
        StoreProcess process = move.action.isOfProcess ? processOf(move.a) : null;
        if (process != null) {
            touch(process.thing, Access.CHANGES);
        }
        switch (move.action) {
            case JOB:
                beginWork(process, removeWork(process, move.b));
                break;
            case LOOK:
                process.stuck.clear();
                runRound(process, null);
                beginNext(process);
                break;
            case DUE:
                touch(WorldRows.rowThing(rows.names.get(move.b)), Access.READS);
                process.due = rows.timer(move.b, move.c);
                runRound(process, null);
                process.due = null;
                beginNext(process);
                break;
            case GONE:
                takeForGone(process, processOf(move.b));
                break;
            case KILL:
                kill(process);
                break;
            case LAND:
                landed.add(move.a);
                touch("land " + move.a, Access.CHANGES);
                landPut(flying.get(move.a));
                break;
            default:
                touch(KILLS, Access.CHANGES);
                killed(0).slow(0);
        }
    }

    private StoreProcess processOf(int key) {
        return processes.get(Move.PROCESS - key);
    }

    private static StoreProcess.Work removeWork(StoreProcess process, int number) {
        for (List<StoreProcess.Work> works : Arrays.asList(process.queue, process.callers)) {
            for (Iterator<StoreProcess.Work> each = works.iterator(); each.hasNext();) {
                StoreProcess.Work work = each.next();
                if (work.number == number) {
                    each.remove();
                    return work;
                }
            }
        }
        throw new IllegalStateException("there is no job " + number);
    }

    private void beginWork(StoreProcess process, StoreProcess.Work work) {
        boolean isCaller = work.job == null;
        String name = isCaller ? work.name : process.name;
        Flight flight = new Flight(Move.place(process.key(), work.number), name, name, null, false,
                () -> run.runOrFail(work.act::run, name));
        flight.process = process;
        flight.isCaller = isCaller;
        flight.isFresh = !isCaller;
        flight.touches = new ArrayList<>(isCaller ? Arrays.asList(process.thing, Footprint.USER) : Collections.singletonList(process.thing));
        if (isCaller) {
            touch(Footprint.USER, Access.CHANGES);
        }
        run.begin(flight);
    }

    private void beginNext(StoreProcess process) {
        StoreProcess.Work work = nextWork(process);
        if (work == null) {
            work = process.queue.stream().filter(it -> it.job == Host.Job.WORK).findFirst().orElse(null);
        }
        if (work != null) {
            process.queue.remove(work);
            beginWork(process, work);
        }
    }

    /** Lets time pass, in which all living processes but one beat, and has a process look at the store. */
    private void runRound(StoreProcess process, StoreProcess silent) {
        passTime(process, silent);
        process.serving().runRound();
    }

    private void passTime(StoreProcess process, StoreProcess silent) {
        process.host.clock += process.lease / 4;
        for (StoreProcess other : processes) {
            if (other != silent && !other.isDead) {
                rows.memory.beat(other.serving().session());
            }
        }
    }

    private void takeForGone(StoreProcess process, StoreProcess other) {
        touch(other.thing, Access.READS);
        if (!other.isDead) {
            touch(KILLS, Access.CHANGES);
            bounds[Bound.SLOW.ordinal()]--;
        }
        for (int k = 0; k < LOOKS; k++) {
            passTime(process, other);
            process.serving().beat();
        }
        runRound(process, other);
        beginNext(process);
    }

    private void kill(StoreProcess process) {
        touch(KILLS, Access.CHANGES);
        bounds[Bound.KILLED.ordinal()]--;
        process.isDead = true;
        List<Flight> flights = flights(process);
        run.flights().removeAll(flights);
        dead.addAll(flights);
        rows.releaseAllOf(process);
    }

    private void landPut(Coming coming) {
        if (coming.commits == null) {
            rows.append(coming.put);
        } else {
            rows.commit(coming.commits);
        }
    }

    /** The text of a move, which is asked for before it is made. */
    String text(Move move) {
        switch (move.action) {
            case LAND:
                Coming coming = flying.get(move.a);
                return "the " + (coming.commits == null ? "put" : "commit") + " that was on its way comes: "
                        + rows.reader(coming.put.request()).putText(coming.put);
            case SPARE:
                return "nobody is killed any more";
            case JOB:
                return workText(processOf(move.a), move.b);
            case DUE:
                return processOf(move.a).name + " finds that the limit of " + rows.stageName(rows.names.get(move.b), move.c) + " has passed";
            case GONE:
                return processOf(move.a).name + " takes " + processOf(move.b).name + " for gone";
            default:
                return processOf(move.a).name + (move.action == Action.LOOK ? " looks what is new" : " is killed");
        }
    }

    private String workText(StoreProcess process, int number) {
        Collection<StoreProcess.Work> works = new HashSet<>(process.queue);
        works.addAll(process.callers);
        StoreProcess.Work work = works.stream().filter(it -> it.number == number).findFirst().get();
        return work.job == null ? work.name + " begins" : process.name + " works on " + work.name;
    }

    /** Whether a put that was on its way has come. */
    boolean hasLanded() {
        return !landed.isEmpty();
    }

    /** Ends the threads of processes that were killed. */
    void close() {
        dead.forEach(flight -> {
            if (flight.carrier != null) {
                flight.carrier.stop();
            }
        });
    }
}
