package cf.testing;

import cf.internal.Watch;
import cf.internal.WatchedServices;
import cf.service.Describe;
import cf.service.Request;
import cf.service.RequestHistory;
import cf.service.Service;
import cf.service.Stage;
import cf.store.StoredStage;
import cf.testing.Footprint.Access;
import cf.testing.Move.Action;
import java.util.ArrayList;
import java.util.Arrays;
import java.util.Collections;
import java.util.HashMap;
import java.util.HashSet;
import java.util.IdentityHashMap;
import java.util.LinkedHashMap;
import java.util.List;
import java.util.Map;
import java.util.Set;
import java.util.TreeMap;
import java.util.concurrent.CancellationException;
import java.util.concurrent.CompletableFuture;
import java.util.concurrent.CompletionException;
import java.util.concurrent.CompletionStage;
import java.util.concurrent.Executor;
import java.util.function.BooleanSupplier;
import java.util.function.Supplier;
import java.util.stream.Collectors;

/**
 * One run of a test, of which a search chooses each move.
 *
 * <p>A run is the {@link Watch} of its service: it keeps ready functions, threads, arrivals from outside and timers, and says which moves may be
 * next ({@link #moves}). {@link #make} makes a move, and gives its footprint. One thread at a time goes on: the search's, or a carrier that it
 * has given the turn.
 */
final class Run implements Watch, Executor {
    private static final String OUTSIDE = "the world outside";
    private static final String[] UNMARKED = null;

    final Settings settings;
    final Service service;
    final World world = new World(this);
    final List<Request> requests = new ArrayList<>();
    final List<Caller> callers = new ArrayList<>();
    final List<Check> checks = new ArrayList<>(), endChecks = new ArrayList<>();
    final List<CompletableFuture<?>> settling = new ArrayList<>();
    final List<StoredStage> settlingStored = new ArrayList<>();
    /** In how many ways workers could have been chosen. */
    long weight = 1;
    /** Why it fails; null where it doesn't. */
    volatile String reason;
    /** What was thrown there, or null. */
    Throwable cause;

    /** Whether it fails since a thread blocks. To do so again takes a while. */
    boolean isStuck;

    /** The things that checks have read in all runs. It grows. */
    private final Set<Object> watched;
    private final Map<Request, Integer> indices = new IdentityHashMap<>();
    private final Map<Long, Stage<?>> stages = new HashMap<>();
    private final Map<Long, String[]> marks = new HashMap<>();
    private final Set<Long> settled = new HashSet<>();
    private final Map<Long, Watch.ReadyStage> readyStages = new LinkedHashMap<>();
    private final List<Flight> flights = new ArrayList<>();
    private final List<Arrival> arrivals = new ArrayList<>();
    private List<WorldTimer> timers = new ArrayList<>();
    private final List<WorldTimer> passedTimers = new ArrayList<>();
    private final Map<Integer, Integer> timersMade = new HashMap<>();
    private final Map<Integer, Long> clocks = new HashMap<>();
    private final Dependents dependents = new Dependents();
    /** Relays of each stage of another request, also those that were let go. */
    private final Map<Long, List<Long>> relays = new HashMap<>();
    private final Map<Long, String> relayNames = new HashMap<>();
    private final List<Long> changedPlaces = new ArrayList<>();
    /** Texts of what the last move settled, which are made without a request's lock. */
    private final List<Supplier<String>> settledTexts = new ArrayList<>();
    private final Thread homeThread = Thread.currentThread();
    private Request outside;
    private Footprint footprint;
    /** The thread whose function goes on, or null. */
    private Flight current;
    private String caller = "main";
    private boolean isInUserCode, isInBody, isOver, isStopped, isBeginning, isOutside, needsThreads, isTelling, isClosing;
    /** The store that processes share, or null. */
    private WorldStore store;
    private int jobs;

    /** A condition that has to hold, and its text. */
    static final class Check {
        final BooleanSupplier holds;
        final String text;

        Check(BooleanSupplier holds, String text) {
            this.holds = holds;
            this.text = text;
        }
    }

    Run(Settings settings, Set<Object> watched) {
        this.settings = settings;
        this.watched = watched;
        service = WatchedServices.newService(this, this);
    }

    // What may come next.

    /** The moves that are possible, in an order that the same row always has. */
    List<Move> moves() {
        List<Move> moves = new ArrayList<>();
        for (Flight flight : flights) {
            addMoves(moves, flight);
        }
        readyStages.keySet().removeIf(settled::contains);
        if (freeWorkers() > 0) {
            readyStages.keySet().forEach(place -> moves.add(new Move(Action.BEGIN, place)));
        }
        for (int n = 0; n < arrivals.size(); n++) {
            Arrival arrival = arrivals.get(n);
            for (int k = 0; k < arrival.ways.size() && isOpen(arrival); k++) {
                moves.add(new Move(Action.COME, n, k, 0));
            }
        }
        for (int n = 0; n < callers.size(); n++) {
            if (callers.get(n).nextCall() != null && findFlight(Move.place(Move.CALLER, n)) == null) {
                moves.add(new Move(Action.BY, n, callers.get(n).callsMade, 0));
            }
        }
        addLimits(moves);
        if (store != null) {
            moves.addAll(store.moves(!moves.isEmpty()));
        }
        if (settings.isClockFree && mayStop(moves)) {
            moves.add(new Move(Action.STOP, 0, 0, 0));
        }
        return moves;
    }

    private static void addMoves(List<Move> moves, Flight flight) {
        Flight.Wait wait = flight.wait;
        if (wait == null) {
            moves.add(new Move(flight.word, flight.place));
        } else if (wait.possible != null) {
            wait.possible.get().forEach(k -> moves.add(new Move(Action.ASK, (int) (flight.place >> 32), (int) flight.place, flight.asked, k)));
        } else if (wait.ways != null) {
            for (int k = 0; k < wait.ways.length; k++) {
                moves.add(new Move(Action.CHOOSE, (int) (flight.place >> 32), (int) flight.place, k));
            }
        } else if (flight.isLate || wait.isOver.getAsBoolean()) {
            moves.add(new Move(Action.GO, flight.place));
        }
    }

    private boolean isOpen(Arrival arrival) {
        return !arrival.isNever && !settled.contains(place(arrival.stage));
    }

    private int freeWorkers() {
        return settings.workers == 0 ? 1 : settings.workers - busyWorkers();
    }

    private int busyWorkers() {
        int busy = 0;
        for (Flight flight : flights) {
            busy += flight.isWorker ? 1 : 0;
        }
        return busy;
    }

    /** The next limit of each request. */
    private void addLimits(List<Move> moves) {
        if (timers.isEmpty()) {
            return;
        }
        if (!settings.isClockFree) {
            List<WorldTimer> open = new ArrayList<>();
            for (WorldTimer timer : timers) {
                (timer.isLost.getAsBoolean() ? passedTimers : open).add(timer);
            }
            timers = open;
        }
        if (isStopped) {
            return;
        }
        Map<Integer, WorldTimer> first = new TreeMap<>();
        for (WorldTimer timer : timers) {
            first.merge(timer.request(), timer, (a, b) -> a.due <= b.due ? a : b);
        }
        first.values().forEach(timer -> moves.add(timer.move()));
    }

    /**
     * Whether it may be that no limit passes any more. It may be at any moment, and comes to the same at the end; but for what is left out the
     * move has to be there as long as the limits are.
     */
    private boolean mayStop(List<Move> moves) {
        long limits = moves.stream().filter(move -> move.action == Action.LIMIT).count();
        return limits > 0 && (settings.isReduced || limits == moves.size());
    }

    // Moves.

    /** Makes a move, and gives its footprint. */
    Footprint make(Move move) {
        footprint = new Footprint();
        settledTexts.clear();
        if (move.action.isOfStore()) {
            store.make(move);
        } else {
            makeOwn(move);
        }
        Footprint made = footprint;
        footprint = null;
        runChecks(made);
        return made;
    }

    private void makeOwn(Move move) {
        switch (move.action) {
            case BEGIN:
                beginFunction(move.place());
                break;
            case CALL:
                callFunction(flightOf(move));
                break;
            case GO:
                continueFlight(flightOf(move));
                break;
            case CHOOSE:
                Flight flight = flightOf(move);
                flight.chosen = flight.wait.ways[move.c];
                continueFlight(flight);
                break;
            case ASK:
                Flight asking = flightOf(move);
                touch(asking.process.thing, Access.CHANGES);
                asking.asked++;
                asking.chosen = asking.wait.ways[move.d];
                continueFlight(asking);
                break;
            case END:
                endFunction(flightOf(move));
                break;
            case COME:
                makeArrival(move);
                break;
            case BY:
                makeCall(move);
                break;
            case LIMIT:
                passLimit(move);
                break;
            default:
                timers.forEach(timer -> touch(clockThing(timer.request()), Access.CHANGES));
                isStopped = true;
        }
    }

    private Flight flightOf(Move move) {
        Flight flight = findFlight(move.place());
        touch(flight.thing, Access.CHANGES);
        caller = flight.caller;
        return flight;
    }

    private Flight findFlight(long place) {
        for (Flight flight : flights) {
            if (flight.place == place) {
                return flight;
            }
        }
        return null;
    }

    private void beginFunction(long place) {
        Watch.ReadyStage task = readyStages.remove(place);
        if (settings.workers > 0) {
            touch(Footprint.WORKERS, Access.CHANGES);
            weight *= freeWorkers();
        }
        caller = freeWorkerName();
        isBeginning = true;
        Watch.Turn turn = task.claim();
        isBeginning = false;
        Flight flight = new Flight(place, task.stage().name(), caller, turn, true, null);
        touch(flight.thing, Access.CHANGES);
        if (turn.tellToNext()) {
            flights.add(flight);
        }
    }

    /** The first name of a worker that is free. */
    private String freeWorkerName() {
        Set<String> taken = new HashSet<>();
        flights.forEach(flight -> taken.add(flight.caller));
        int number = 1;
        while (taken.contains("worker " + number)) {
            number++;
        }
        return "worker " + number;
    }

    private void callFunction(Flight flight) {
        if (flight.turn != null) {
            touch(flight.place, Access.READS);
        }
        flight.touches = sharedThings(marks.get(flight.place));
        if (flight.turn == null || !settled.contains(flight.place)) {
            flight.touches.forEach(thing -> touch(thing, Access.CHANGES));
        }
        runBody(flight);
        removeIfEnded(flight);
    }

    /** The things that a function with these marks shares with others, in each of its moves. */
    private List<Object> sharedThings(String[] names) {
        if (names == UNMARKED) {
            return Collections.singletonList(Footprint.USER);
        }
        List<Object> things = new ArrayList<>();
        Arrays.stream(names).forEach(name -> things.add("user " + name));
        if (!checks.isEmpty()) {
            things.add(Footprint.CHECKED);
        }
        return things;
    }

    private void continueFlight(Flight flight) {
        flight.touches.forEach(thing -> touch(thing, Access.CHANGES));
        if (flight.wait != null && flight.wait.thing != null) {
            touch(flight.wait.thing, Access.READS);
        }
        flight.wait = null;
        giveTurn(flight, false);
        removeIfEnded(flight);
    }

    /** Removes a thread whose function has ended, and is no stage's: its end is no move. */
    private void removeIfEnded(Flight flight) {
        if (flight.word == Action.END && flight.turn == null) {
            flights.remove(flight);
        }
    }

    private void endFunction(Flight flight) {
        failOnAssertion(flight.turn, flight.name);
        flight.turn.finishStage();
        if (flight.turn.tellToNext()) {
            flight.place = place(flight.turn.stage());
            flight.name = flight.turn.stage().name();
            flight.word = Action.CALL;
        } else {
            flights.remove(flight);
        }
        if (settings.workers > 0 && flight.isWorker) {
            touch(Footprint.WORKERS, Access.CHANGES);
        }
    }

    /** Fails the order where a function has thrown an assertion. */
    private void failOnAssertion(Watch.Turn turn, String name) {
        if (turn.exception() instanceof AssertionError) {
            fail(name + " threw " + text(turn.exception()), turn.exception());
        }
    }

    private void makeArrival(Move move) {
        Arrival arrival = arrivals.get(move.a);
        Arrival.Way way = arrival.ways.get(move.b);
        touch("come " + move.a, Access.CHANGES);
        caller = OUTSIDE;
        if (way.isNever) {
            touch(place(arrival.stage), Access.CHANGES);
            arrival.isNever = true;
        } else if (way.error != null) {
            arrival.stage.completeExceptionally(way.error);
        } else {
            arrival.stage.complete(way.value);
        }
    }

    private void makeCall(Move move) {
        Caller by = callers.get(move.a);
        Caller.CallerCall call = by.nextCall();
        by.callsMade++;
        touch("by " + move.a, Access.CHANGES);
        caller = by.name;
        if (call.isOfStage) {
            runOrFail(call.act, by.name);
            return;
        }
        touch(Footprint.USER, Access.CHANGES);
        Flight flight = new Flight(Move.place(Move.CALLER, move.a), by.name, by.name, null, false, () -> runOrFail(call.act, by.name));
        begin(flight);
    }

    /** Starts a thread that is no stage's. */
    void begin(Flight flight) {
        flights.add(flight);
        runBody(flight);
        removeIfEnded(flight);
    }

    private void passLimit(Move move) {
        WorldTimer timer = timer(move);
        timers.remove(timer);
        touch(clockThing(move.a), Access.CHANGES);
        for (List<WorldTimer> others : Arrays.asList(passedTimers, timers)) {
            for (WorldTimer other : others) {
                if (other.request() == move.a) {
                    touch(other.place, Access.READS);
                }
            }
        }
        clocks.merge(move.a, timer.due, Math::max);
        caller = "the clock";
        timer.act.run();
    }

    private WorldTimer timer(Move move) {
        return timers.stream().filter(it -> it.request() == move.a && it.number == move.c).findFirst().get();
    }

    // Functions, which may wait.

    /** Runs the body of a function, on a thread of its own where functions wait. */
    private void runBody(Flight flight) {
        Runnable act = flight.turn != null ? flight.turn::callFunction : flight.act;
        if (settings.hasThreads) {
            flight.carrier = Carrier.borrow();
            flight.act = act;
            giveTurn(flight, true);
            return;
        }
        runUserCode(act, true);
        flight.word = Action.END;
        leaveIfOver();
    }

    /** Runs a test's code on this thread, and notes the stages that it reads. Within a function's body, others may go on. */
    private void runUserCode(Runnable act, boolean isBody) {
        boolean savedUser = isInUserCode, savedBody = isInBody;
        isInUserCode = true;
        isInBody = isBody;
        try {
            act.run();
        } finally {
            isInUserCode = savedUser;
            isInBody = savedBody;
        }
    }

    /** Gives a thread the turn until its function waits or has ended. */
    private void giveTurn(Flight flight, boolean begins) {
        Carrier carrier = flight.carrier;
        boolean savedUser = isInUserCode, savedBody = isInBody;
        isInUserCode = isInBody = true;
        current = flight;
        String stuck = begins ? carrier.runJob(flight.act) : carrier.resume();
        current = null;
        isInUserCode = savedUser;
        isInBody = savedBody;
        if (stuck != null) {
            flight.carrier = null;
            isStuck = true;
            fail(flight.name + " blocks outside the world, at " + stuck);
        }
        if (carrier.isIdle()) {
            carrier.giveBack();
            flight.carrier = null;
            flight.word = Action.END;
        }
        leaveIfOver();
    }

    /** Ends the run where it is over, though the test's code may have caught that. */
    private void leaveIfOver() {
        if (reason != null) {
            throw new Leaving(Leaving.Reason.FAILED);
        }
        if (needsThreads) {
            throw new Leaving(Leaving.Reason.NEEDS_THREADS);
        }
    }

    // Beginning and end.

    /** Runs the test itself, which is one move. */
    void start(Scenario scenario) {
        Flight flight = new Flight(Move.place(Move.MAIN, 0), "the test", "main", null, false, () -> runOrFail(() -> scenario.run(world), "the test"));
        flights.add(flight);
        footprint = new Footprint();
        runBody(flight);
        footprint = null;
        removeIfEnded(flight);
        runChecks(new Footprint());
    }

    /** Checks all that must hold at the end, once no move is possible. */
    void checkEnd() {
        isOver = isInUserCode = true;
        StringBuilder waiting = new StringBuilder();
        for (Flight flight : flights) {
            waiting.append(waiting.length() == 0 ? "deadlock: " : ", ").append(flight.name).append(" waits for ").append(flight.wait.name);
        }
        if (waiting.length() > 0) {
            fail(waiting.toString());
        }
        for (CompletableFuture<?> future : settling) {
            if (!future.isDone()) {
                fail((future instanceof Stage<?> ? ((Stage<?>) future).name() : "what the test waits for") + " is never settled");
            }
        }
        for (StoredStage stage : settlingStored) {
            if (!store.isOfKilled(stage) && !stage.isDone()) {
                fail(stage.name() + " is never settled");
            }
        }
        endChecks.forEach(this::runCheck);
    }

    /** Ends functions that wait. */
    void close() {
        isClosing = true;
        for (Flight flight : flights) {
            if (flight.carrier != null) {
                flight.carrier.stop();
            }
        }
        if (store != null) {
            store.close();
        }
        isClosing = false;
        requests.forEach(Request::close);
        if (outside != null) {
            outside.close();
        }
    }

    /** All words of requests, and of what stands in a store. */
    String words() {
        StringBuilder words = new StringBuilder(store == null ? "" : store.words());
        requests.forEach(request -> words.append(Arrays.toString(request.history().words())));
        return words.toString();
    }

    /** The history of each request: first of those in memory, then of those in the store, each in the order in which they were opened. */
    List<RequestHistory> histories() {
        List<RequestHistory> histories = new ArrayList<>();
        requests.forEach(request -> histories.add(request.history()));
        if (store != null) {
            histories.addAll(store.histories());
        }
        return histories;
    }

    List<String> outcomes() {
        List<String> outcomes = new ArrayList<>();
        for (Request request : requests) {
            Arrays.stream(request.history().report().split("\n")).filter(line -> line.startsWith("stage ")).forEach(outcomes::add);
        }
        if (store != null) {
            outcomes.addAll(store.outcomes());
        }
        return outcomes;
    }

    // What has to hold.

    void fail(String text) {
        fail(text, null);
    }

    void fail(String text, Throwable thrown) {
        if (reason == null) {
            reason = text;
            cause = thrown;
        }
        throw new Leaving(Leaving.Reason.FAILED);
    }

    /** Checks all that must hold between moves. */
    private void runChecks(Footprint made) {
        leaveIfOver();
        if (checks.isEmpty()) {
            return;
        }
        Footprint seen = footprint = new Footprint();
        try {
            runUserCode(() -> checks.forEach(this::runCheck), false);
        } finally {
            footprint = null;
        }
        seen.things().forEach(watched::add);
        if (made.touches(Footprint.USER) || made.changes(watched)) {
            made.touch(Footprint.CHECKED, Access.CHANGES);
        }
    }

    private void runCheck(Check check) {
        boolean holds;
        try {
            holds = check.holds.getAsBoolean();
        } catch (Leaving leaving) {
            throw leaving;
        } catch (AssertionError failed) {
            fail(failed.getMessage() == null ? check.text : check.text + ": " + failed.getMessage(), failed);
            return;
        } catch (Throwable thrown) {
            fail(check.text + ": it threw " + text(thrown), thrown);
            return;
        }
        if (!holds) {
            fail(check.text);
        }
    }

    /** Runs an action, whose exception fails the order. */
    void runOrFail(World.Act act, String name) {
        try {
            act.run();
        } catch (Leaving leaving) {
            throw leaving;
        } catch (Throwable thrown) {
            fail(name + " threw " + text(thrown), thrown);
        }
    }

    void touch(Object thing, Access access) {
        if (footprint != null) {
            footprint.touch(thing, access);
        }
    }

    private static String clockThing(int request) {
        return "clock " + request;
    }

    private long place(Stage<?> stage) {
        return Move.place(indices.get(stage.request()), stage.number());
    }

    private long place(Request request, int stage) {
        return Move.place(indices.get(request), stage);
    }

    private String stageName(Stage<?> stage) {
        String relay = relayNames.get(place(stage));
        return relay != null ? relay : stage.name();
    }

    // What a test says.

    /** The store that processes share. Their threads are carriers. */
    WorldStore store() {
        if (!settings.hasThreads) {
            needsThreads = true;
            throw new Leaving(Leaving.Reason.NEEDS_THREADS);
        }
        if (store == null) {
            store = new WorldStore(this);
            if (isTelling) {
                store.rows.setTeller(text -> settledTexts.add(() -> text));
            }
        }
        return store;
    }

    /** The thread whose function goes on, or null. */
    Flight current() {
        return current;
    }

    List<Flight> flights() {
        return flights;
    }

    boolean isClosing() {
        return isClosing;
    }

    @SuppressWarnings("unchecked")
    <T> Stage<T> addArrival(String name, List<Arrival.Way> ways) {
        if (outside == null) {
            isOutside = true;
            outside = service.request(OUTSIDE);
            isOutside = false;
        }
        Stage<Object> stage = outside.promise().named(name);
        arrivals.add(new Arrival(stage, name, ways));
        return (Stage<T>) stage;
    }

    void mark(Stage<?> stage, String[] names) {
        marks.put(place(stage), names);
    }

    /** Takes a job that is no stage's. */
    @Override
    public void execute(Runnable job) {
        int number = jobs++;
        String name = "job " + number;
        touch("jobs", Access.CHANGES);
        flights.add(new Flight(Move.place(Move.JOB, number), name, name, null, false, () -> runOrFail(job::run, name)));
    }

    // Called by the service.

    @Override
    public String callerName() {
        Thread thread = Thread.currentThread();
        if (thread != homeThread && !(thread instanceof Carrier.CarrierThread)) {
            reason = reason != null ? reason : "the thread " + thread.getName() + " changed a request: threads of your own are outside the world";
            return thread.getName();
        }
        return caller;
    }

    @Override
    public long now(Request request) {
        return clocks.getOrDefault(indices.get(request), 0L);
    }

    @Override
    public void requestOpened(Request request) {
        if (isOutside) {
            indices.put(request, Move.OUTSIDE);
            return;
        }
        indices.put(request, requests.size());
        requests.add(request);
    }

    @Override
    public void stageAttached(Stage<?> stage, List<? extends Stage<?>> of) {
        long place = place(stage);
        stages.put(place, stage);
        for (Stage<?> source : of) {
            dependents.add(place, place(source));
            touch(place(source), Access.READS);
        }
        touch("attach " + indices.get(stage.request()), Access.CHANGES);
        touch(place, Access.CHANGES);
    }

    @Override
    public void settlingTried(Request request, int stage, boolean did) {
        touch(place(request, stage), did ? Access.CHANGES : Access.READS);
    }

    @Override
    public void functionFinished(Request request, int stage, int to) {
        long place = place(request, stage);
        touch(place, Access.CHANGES);
        if (to >= 0) {
            stageFollows(request, stage, to);
            changedPlaces.add(place);
        }
    }

    @Override
    public void stageFollows(Request request, int stage, int of) {
        dependents.add(place(request, stage), place(request, of));
        touch(place(request, of), Access.READS);
    }

    @Override
    public void stageSettled(Request request, int stage, Object value, Throwable error, boolean isWrapped) {
        long place = place(request, stage);
        settled.add(place);
        changedPlaces.add(place);
        for (Long relay : relays.getOrDefault(place, new ArrayList<>())) {
            touch(relay, Access.READS); // Also one that was let go, which it would settle.
        }
        if (request != outside && isTelling) {
            String name = stages.get(place).name();
            if (!name.startsWith("relay")) {
                boolean isCancelled = error instanceof CancellationException && !isWrapped;
                settledTexts.add(() -> name + (isCancelled ? " is cancelled" : " ends: " + text(error == null ? value : error)));
            }
        }
    }

    @Override
    public void functionReady(Request request, int stage) {
        long place = place(request, stage);
        touch(place, Access.CHANGES);
        if (!isBeginning) {
            changedPlaces.add(place);
        }
    }

    @Override
    public void eventTold() {
        if (footprint != null) {
            changedPlaces.forEach(place -> touch(place, Access.CHANGES));
            dependents.forEachReached(changedPlaces, settled::contains, this::touch);
        }
        changedPlaces.clear();
        if (settings.isFine && isInUserCode && current != null && reason == null) {
            letOthersGoOn();
        }
    }

    @Override
    public void relayLinked(Stage<?> relay, CompletionStage<?> of) {
        if (of instanceof Stage<?> && indices.containsKey(((Stage<?>) of).request())) {
            relays.computeIfAbsent(place((Stage<?>) of), none -> new ArrayList<>()).add(place(relay));
            relayNames.put(place(relay), "relay of " + stageName((Stage<?>) of));
            touch(place((Stage<?>) of), Access.READS);
        }
    }

    @Override
    public void stageRead(Request request, int stage, boolean orWaits) {
        if (isInUserCode && footprint != null) {
            long place = place(request, stage);
            touch(place, Access.READS);
            if (!orWaits && !settled.contains(place)) {
                letOthersIn();
            }
        }
    }

    @Override
    public void historyRead(Request request) {
        if (footprint != null) {
            int index = indices.get(request);
            touch("attach " + index, Access.READS);
            for (Long place : stages.keySet()) {
                if (place >> 32 == index) {
                    touch(place, Access.READS);
                }
            }
        }
    }

    @Override
    public void setLimit(Stage<?> stage, long nanos, Runnable act) {
        long place = place(stage);
        addTimer(place, nanos, act, () -> settled.contains(place), "the limit of " + stageName(stage) + " passes");
    }

    @Override
    public void runLater(long nanos, Runnable act) {
        addTimer(Move.place(Move.JOB, 0), nanos, act, () -> false, "what was put off is due");
    }

    private void addTimer(long place, long nanos, Runnable act, BooleanSupplier isLost, String text) {
        int request = (int) (place >> 32);
        touch(clockThing(request), Access.CHANGES);
        int number = timersMade.merge(request, 1, Integer::sum);
        long due = clocks.getOrDefault(request, 0L) + Math.max(0, nanos);
        timers.add(new WorldTimer(due < 0 ? Long.MAX_VALUE : due, number, place, act, isLost, text));
    }

    @Override
    public void submit(Watch.ReadyStage task) {
        long place = place(task.stage());
        readyStages.put(place, task);
        touch(place, Access.CHANGES);
    }

    @Override
    public void callUserCode(Runnable act) {
        touch(Footprint.USER, Access.CHANGES);
        runUserCode(act, false);
    }

    @Override
    public void takeOver(Watch.Turn turn) {
        if (!isInUserCode) {
            if (turn.tellToNext()) {
                Stage<?> stage = turn.stage();
                flights.add(new Flight(place(stage), stage.name(), caller, turn, false, null));
            }
            return;
        }
        while (turn.tellToNext()) {
            if (!settings.isFine) {
                letOthersIn(); // By which others have come before.
            }
            touch(place(turn.stage()), Access.READS);
            turn.callFunction();
            failOnAssertion(turn, turn.stage().name());
            letOthersIn();
            turn.finishStage();
        }
    }

    /** Lets others go on within a function's body, as real threads may anywhere, where it calls functions or has read what may change. */
    private void letOthersIn() {
        if (isInBody && !isClosing && reason == null) {
            letOthersGoOn();
        }
    }

    @Override
    public boolean endsRun(Throwable thrown) {
        return thrown instanceof Leaving;
    }

    // Functions that wait.

    @Override
    public void awaitStage(Stage<?> stage, long nanos) {
        long place = place(stage);
        if (nanos != 0) {
            waitFor(stageName(stage), place, () -> settled.contains(place), nanos, null);
        }
    }

    @Override
    public boolean awaitScope(Request request, BooleanSupplier isSettled) {
        historyRead(request);
        if (isSettled.getAsBoolean()) {
            return false;
        }
        waitFor("the stages of a scope", null, isSettled, -1, null);
        return true;
    }

    /** Lets others go on until a condition holds, or one of several ways is chosen, which it gives. */
    Object waitFor(String name, Long place, BooleanSupplier isOver, long nanos, Object[] ways) {
        return waitFor(new Flight.Wait(name, place, isOver, ways), nanos);
    }

    Object waitFor(Flight.Wait wait, long nanos) {
        String name = wait.name;
        if (isClosing) {
            throw new Leaving(Leaving.Reason.GONE);
        }
        if (isOver) {
            fail(name + " is never settled");
        }
        if (!settings.hasThreads) {
            needsThreads = true;
            throw new Leaving(Leaving.Reason.NEEDS_THREADS);
        }
        Flight flight = current;
        if (flight == null || Thread.currentThread() == homeThread) {
            fail("a callback waits for " + name + ", in the thread that settled its stage");
            return null;
        }
        flight.wait = wait;
        flight.isLate = false;
        flight.word = Action.GO;
        if (nanos >= 0) {
            addTimer(wait.thing instanceof Long ? (Long) wait.thing : Move.place(Move.MAIN, 0), nanos, () -> flight.isLate = true,
                    () -> flight.wait != wait || wait.isOver.getAsBoolean(), flight.name + " has waited " + nanos / 1e9 + " s for " + name);
        }
        flight.carrier.waitForTurn();
        return flight.chosen;
    }

    /** Lets others go on. */
    void letOthersGoOn() {
        waitFor("its turn", null, () -> true, -1, null);
    }

    // In words.

    /** Has it keep texts of what each move settles. */
    void tellMoves() {
        isTelling = true;
    }

    /** Texts of what the last move settled, but for relays. */
    List<String> settledTexts() {
        return settledTexts.stream().map(Supplier::get).collect(Collectors.toList());
    }

    /** The text of a value or an exception. */
    static String text(Object thing) {
        Object it = thing instanceof CompletionException && ((Throwable) thing).getCause() != null ? ((Throwable) thing).getCause() : thing;
        if (it instanceof Throwable) {
            String message = ((Throwable) it).getMessage();
            return it.getClass().getSimpleName() + (message == null ? "" : ": " + message);
        }
        return it == null ? "null" : Describe.ALL.describe(it);
    }

    /** The text of a move, which is asked for before it is made. */
    String text(Move move) {
        if (move.action.isOfStore()) {
            return store.text(move);
        }
        switch (move.action) {
            case COME:
                Arrival.Way way = arrivals.get(move.a).ways.get(move.b);
                String name = arrivals.get(move.a).name;
                return way.isNever ? name + " never comes" : way.error != null ? name + " fails: " + text(way.error) : name + " comes: " + text(way.value);
            case BY:
                Caller by = callers.get(move.a);
                return by.calls.size() == 1 ? by.name : by.name + ", call " + (move.b + 1);
            case LIMIT:
                return timer(move).text;
            case BEGIN:
                return stages.get(move.place()).name() + " is claimed";
            case STOP:
                return "no limit passes any more";
            default:
                return text(findFlight(move.place()), move);
        }
    }

    private String text(Flight flight, Move move) {
        switch (move.action) {
            case CALL:
                return flight.name + (settled.contains(flight.place) ? " isn't called any more" : flight.turn == null ? " is run" : " is called");
            case GO:
                return flight.name + " goes on";
            case CHOOSE:
                return flight.name + " gets " + text(flight.wait.ways[move.c]);
            case ASK:
                Answer answer = (Answer) flight.wait.ways[move.d];
                return flight.name + " " + flight.wait.name + (answer.text.isEmpty() ? "" : "; " + answer.text);
            default:
                return flight.name + (flight.turn.exception() == null ? " returns" : " throws");
        }
    }
}
