import java.io.BufferedReader;
import java.io.IOException;
import java.io.InputStreamReader;
import java.io.PrintStream;
import java.lang.reflect.Field;
import java.nio.charset.StandardCharsets;
import java.util.ArrayList;
import java.util.Arrays;
import java.util.HashMap;
import java.util.List;
import java.util.Map;
import java.util.concurrent.CancellationException;
import java.util.concurrent.Callable;
import java.util.concurrent.CompletableFuture;
import java.util.concurrent.CompletionException;
import java.util.concurrent.CompletionStage;
import java.util.concurrent.ExecutionException;
import java.util.concurrent.Executor;
import java.util.concurrent.ExecutorService;
import java.util.concurrent.Executors;
import java.util.concurrent.ScheduledThreadPoolExecutor;
import java.util.concurrent.Semaphore;
import java.util.concurrent.TimeUnit;
import java.util.concurrent.TimeoutException;
import java.util.function.BiConsumer;
import java.util.function.BiFunction;
import java.util.function.Consumer;
import java.util.function.Function;

/**
 * Runs scripts as java.util.concurrent.CompletableFutures, many in one run, and prints of each what `cf run` prints.
 * conformance/jdk/agree writes the scripts and compares.
 *
 * A script comes as lines of words: `script WAY ROOM`, then `stage FORM SOURCE.. [: FUNCTION]`, `limit STAGE MOMENT
 * timeout CODE` or `limit STAGE MOMENT value V`, the steps as scripts write them, with a code also where it is 0, with the
 * words of an attached stage behind `attach`, and `end`. Its report ends with a line `end` too. There are three ways:
 *
 *   prompt  the forms with Async, on an executor that begins each task at once: a function is called as soon as its stage
 *           is ready, and waits on a thread of its own until the script finishes it
 *   queued  the forms with Async, on an executor that keeps each task until a claim or work asks for it; then the
 *           function is called, and waits likewise
 *   direct  the forms without Async: functions answer at once, in the call that settles their sources, and work tells how
 *           many did since it was asked last
 *
 * One thread runs at a time, each handing on to the next, so a script's report is always the same.
 *
 * What the JDK says of each line:
 *
 *   true, false, settled, what is told now  the answers of its methods (isDone, getNow); a kept task is run first, and calls no function
 *   an outcome, pending                     what handle on that future is told
 *   granted ..                              that the function was called, and with what, wrapped or raw
 *   notready                                no task was handed in
 *   won, late                               whether the future was done before its function went on; a late one changed nothing
 *   worked N                                which functions were called; direct, how many by then
 *   fired N                                 how many tasks of its own clock settled their future; a tick runs them up to its moment
 *   attached N                              the method makes a future, of sources as they are
 *   badanswer                               how it is wrapped and passed on
 *
 * This program keeps count of the rest: which claim `granted` counts for, `taken`, `notyours`, that the lowest is next, the moment and
 * `past`, an attached stage's number, `stagesfull`, `nudged`, and that a bad answer's function throws it.
 */
public final class Agree {
    private static final int WORKER = 63;
    private static final int NOBODY = -1;
    private static final long PATIENCE_SECONDS = 60;
    private static final ExecutorService THREADS = Executors.newCachedThreadPool(task -> {
        Thread thread = new Thread(task);
        thread.setDaemon(true);
        return thread;
    });

    private enum Way { PROMPT, QUEUED, DIRECT }

    // Outcomes and their texts.

    private static final class Thrown extends RuntimeException {
        private final String code;

        Thrown(String code) {
            super(code, null, false, false);
            this.code = code;
        }
    }

    /** What a function throws in place of an answer that Java's types refuse, or of a stage that isn't lower. */
    private static final class BadAnswer extends RuntimeException {
        private final String code;

        BadAnswer(String code) {
            super(code, null, false, false);
            this.code = code;
        }
    }

    /** A time-out with a code, which Java's own has none of. */
    private static final class TimedOut extends TimeoutException {
        private final String code;

        TimedOut(String code) {
            super(code);
            this.code = code;
        }
    }

    /** A code behind a cause's word. 0 isn't written. */
    private static String coded(String word, String code) {
        return code.equals("0") ? word : word + " " + code;
    }

    private static Object value(String word) {
        return word.equals("nil") ? null : Integer.valueOf(word);
    }

    private static String text(Object value) {
        return value == null ? "nil" : value.toString();
    }

    private static String cause(Throwable x) {
        if (x instanceof Thrown thrown) {
            return "thrown " + thrown.code;
        }
        return x instanceof CancellationException ? "cancelled"
            : x instanceof TimedOut late ? coded("timeout", late.code)
            : x instanceof TimeoutException ? "timeout"
            : x instanceof BadAnswer bad ? coded("badanswer", bad.code)
            : "unknown " + x;
    }

    private static String outcome(Object value, Throwable x) {
        if (x == null) {
            return "value " + text(value);
        }
        return x instanceof CompletionException ? "fault " + cause(x.getCause()) + " wrapped" : "fault " + cause(x) + " raw";
    }

    /** What a future holds, as a function that depends on it is told. */
    private static String outcome(CompletableFuture<?> future) {
        return future.isDone() ? future.handle((v, x) -> outcome(v, x)).join() : "pending";
    }

    /** What a caller is told that asks for the value. */
    private static String told(Callable<Object> read) {
        try {
            return "value " + text(read.call());
        } catch (CancellationException x) {
            return "cancellation";
        } catch (CompletionException | ExecutionException x) {
            return "completion " + cause(x.getCause());
        } catch (Exception x) {
            return "unknown " + x;
        }
    }

    private static String now(CompletableFuture<Object> future, String absent) {
        Object none = new Object();
        boolean isAbsent = !future.isDone() && future.getNow(none) == none;
        return isAbsent ? "absent " + absent : told(() -> future.getNow(none));
    }

    /** What is wrong where the other readings of a future don't say the same as its outcome, else nothing. */
    private static String oddity(CompletableFuture<Object> future) {
        String outcome = outcome(future);
        boolean isFault = outcome.startsWith("fault");
        if (future.isDone() == outcome.equals("pending") || future.isCompletedExceptionally() != isFault
            || future.isCancelled() != outcome.equals("fault cancelled raw") || future.toCompletableFuture() != future) {
            return " odd state";
        }
        if (!future.isDone()) {
            return "";
        }
        String told = now(future, "nil");
        if (!told.equals(told(future::join)) || !told.equals(told(future::get))
            || !told.equals(told(() -> future.get(0, TimeUnit.SECONDS)))) {
            return " odd reading";
        }
        String passedOn = isFault ? outcome.replace(" raw", " wrapped") : outcome;
        CompletableFuture<Object> minimal = future.minimalCompletionStage().toCompletableFuture();
        if (!outcome(future.copy()).equals(passedOn) || !outcome(minimal).equals(passedOn)) {
            return " odd copy";
        }
        CompletableFuture<Object> made = future.handle((v, x) ->
            x == null ? CompletableFuture.completedFuture(v) : CompletableFuture.failedFuture(x)).join();
        CompletionStage<Object> stage = future.handle((v, x) ->
            x == null ? CompletableFuture.completedStage(v) : CompletableFuture.failedStage(x)).join();
        String ofStage = stage.handle((v, x) -> outcome(v, x)).toCompletableFuture().join();
        return outcome(made).equals(outcome) && ofStage.equals(outcome) ? "" : " odd making";
    }

    // Functions.

    /** What a function is called with: nothing, one value, two, or an outcome. */
    private record Args(String kind, Object first, Object second, Throwable fault) {
        private static final Args NONE = new Args("none", null, null, null);

        static Args one(Object v) {
            return new Args("one", v, null, null);
        }

        static Args two(Object v, Object w) {
            return new Args("two", v, w, null);
        }

        static Args got(Object v, Throwable x) {
            return new Args("got", v, null, x);
        }

        @Override
        public String toString() {
            return switch (kind) {
                case "one" -> "one " + text(first);
                case "two" -> "two " + text(first) + " " + text(second);
                case "got" -> "got " + outcome(first, fault);
                default -> kind;
            };
        }
    }

    /** What a function answers: that it gives a value, throws a code or links to a stage. */
    private record Answer(String kind, String content) {
        static Answer give(Object value) {
            return new Answer("give", text(value));
        }
    }

    private static int number(Object value) {
        return value == null ? 0 : (Integer) value;
    }

    private static String codeOf(Throwable x) {
        Throwable cause = x instanceof CompletionException ? x.getCause() : x;
        return cause instanceof Thrown thrown ? thrown.code : "0";
    }

    /** What the function that these words write answers. */
    private static Answer answer(String[] words, Args args) {
        String content = words.length > 1 ? words[1] : null;
        switch (words[0]) {
            case "const":
                return new Answer("give", content);
            case "throw":
                return new Answer("throw", content);
            case "goto":
                return new Answer("link", content);
            case "rescue":
                return args.fault == null ? Answer.give(args.first) : new Answer("give", content);
            default:
        }
        if (args.fault != null) {
            return new Answer("throw", codeOf(args.fault));
        }
        int x = number(args.first);
        return switch (words[0]) {
            case "add" -> Answer.give(x + Integer.parseInt(content));
            case "mul" -> Answer.give(x * Integer.parseInt(content));
            case "div" -> content.equals("0") ? new Answer("throw", "0") : Answer.give(x / Integer.parseInt(content));
            case "neg" -> Answer.give(-x);
            case "sum" -> Answer.give(x + number(args.second));
            case "select" -> new Answer("link", x == 0 ? content : words[2]);
            default -> throw new IllegalStateException("no function " + words[0]);
        };
    }

    // Stages.

    private static void await(Semaphore semaphore) {
        try {
            if (!semaphore.tryAcquire(PATIENCE_SECONDS, TimeUnit.SECONDS)) {
                throw new IllegalStateException("a thread didn't come");
            }
        } catch (InterruptedException x) {
            throw new IllegalStateException("a running function was interrupted", x);
        }
    }

    /** A stage as a future, with its own executor, by which it is known when the future's function is to be called. */
    private final class Stage implements Executor {
        private final int number = stages.size();
        private final String[] function;
        private final Semaphore paused = new Semaphore(0);
        private final Semaphore answered = new Semaphore(0);
        private final CompletableFuture<Object> future;
        private Runnable task; // that the future handed in, until it begins
        private Args args; // once the function was called
        private Answer answer;
        private boolean isTaken;
        private int claimant = NOBODY;

        /** A stage of words `FORM SOURCE.. [: FUNCTION]`, the first of which stands at a place. */
        Stage(String[] words, int at) {
            int colon = Arrays.asList(words).indexOf(":");
            int end = colon < 0 ? words.length : colon;
            function = colon < 0 ? null : Arrays.copyOfRange(words, colon + 1, words.length);
            List<CompletableFuture<Object>> sources = new ArrayList<>();
            for (String source : Arrays.copyOfRange(words, at + 1, end)) {
                sources.add(stages.get(Integer.parseInt(source)).future);
            }
            future = future(words[at], sources);
        }

        @SuppressWarnings("unchecked")
        private static CompletableFuture<Object> untyped(CompletableFuture<?> future) {
            return (CompletableFuture<Object>) future;
        }

        private CompletableFuture<Object> future(String form, List<CompletableFuture<Object>> sources) {
            return switch (form) {
                case "source" -> new CompletableFuture<>();
                case "supply" -> CompletableFuture.supplyAsync(() -> call(Args.NONE), this);
                case "runAsync" -> untyped(CompletableFuture.runAsync(() -> call(Args.NONE), this));
                case "allOf" -> untyped(CompletableFuture.allOf(sources.toArray(new CompletableFuture<?>[0])));
                case "anyOf" -> CompletableFuture.anyOf(sources.toArray(new CompletableFuture<?>[0]));
                default -> sources.size() == 1 ? ofOne(form, sources.get(0)) : ofTwo(form, sources.get(0), sources.get(1));
            };
        }

        private CompletableFuture<Object> ofOne(String form, CompletableFuture<Object> a) {
            boolean direct = way == Way.DIRECT;
            Function<Object, Object> apply = v -> call(Args.one(v));
            Consumer<Object> accept = v -> call(Args.one(v));
            Runnable run = () -> call(Args.NONE);
            Function<Object, CompletionStage<Object>> compose = v -> link(Args.one(v));
            BiFunction<Object, Throwable, Object> handle = (v, x) -> call(Args.got(v, x));
            BiConsumer<Object, Throwable> when = (v, x) -> call(Args.got(v, x));
            Function<Throwable, Object> rescue = x -> call(Args.got(null, x));
            Function<Throwable, CompletionStage<Object>> retry = x -> link(Args.got(null, x));
            return switch (form) {
                case "apply" -> direct ? a.thenApply(apply) : a.thenApplyAsync(apply, this);
                case "accept" -> untyped(direct ? a.thenAccept(accept) : a.thenAcceptAsync(accept, this));
                case "thenRun" -> untyped(direct ? a.thenRun(run) : a.thenRunAsync(run, this));
                case "compose" -> direct ? a.thenCompose(compose) : a.thenComposeAsync(compose, this);
                case "handle" -> direct ? a.handle(handle) : a.handleAsync(handle, this);
                case "whenComplete" -> direct ? a.whenComplete(when) : a.whenCompleteAsync(when, this);
                case "exceptionally" -> direct ? a.exceptionally(rescue) : a.exceptionallyAsync(rescue, this);
                case "exceptionallyCompose" ->
                    direct ? a.exceptionallyCompose(retry) : a.exceptionallyComposeAsync(retry, this);
                default -> throw new IllegalStateException("no form " + form);
            };
        }

        private CompletableFuture<Object> ofTwo(String form, CompletableFuture<Object> a, CompletableFuture<Object> b) {
            boolean direct = way == Way.DIRECT;
            Function<Object, Object> apply = v -> call(Args.one(v));
            Consumer<Object> accept = v -> call(Args.one(v));
            Runnable run = () -> call(Args.NONE);
            BiFunction<Object, Object, Object> combine = (v, w) -> call(Args.two(v, w));
            BiConsumer<Object, Object> acceptBoth = (v, w) -> call(Args.two(v, w));
            return switch (form) {
                case "combine" -> direct ? a.thenCombine(b, combine) : a.thenCombineAsync(b, combine, this);
                case "acceptBoth" ->
                    untyped(direct ? a.thenAcceptBoth(b, acceptBoth) : a.thenAcceptBothAsync(b, acceptBoth, this));
                case "runBoth" -> untyped(direct ? a.runAfterBoth(b, run) : a.runAfterBothAsync(b, run, this));
                case "applyEither" -> direct ? a.applyToEither(b, apply) : a.applyToEitherAsync(b, apply, this);
                case "acceptEither" -> untyped(direct ? a.acceptEither(b, accept) : a.acceptEitherAsync(b, accept, this));
                case "runEither" -> untyped(direct ? a.runAfterEither(b, run) : a.runAfterEitherAsync(b, run, this));
                default -> throw new IllegalStateException("no form " + form);
            };
        }

        /** Takes the task that calls the function, if by then it is still to be called. */
        @Override
        public void execute(Runnable handed) {
            if (way == Way.DIRECT) {
                handed.run();
                return;
            }
            task = handed;
            if (way == Way.PROMPT && !isOver) {
                begin();
            }
        }

        /** Runs the task on a thread, and comes back where it has called the function, or has ended without. */
        private void begin() {
            Runnable begun = task;
            task = null;
            THREADS.execute(() -> {
                begun.run();
                paused.release();
            });
            await(paused);
        }

        /** What the function answers once the script lets it go on. */
        private Answer answered(Args called) {
            if (args != null) {
                throw new IllegalStateException("the function of stage " + number + " is called twice");
            }
            args = called;
            if (way == Way.DIRECT) {
                isTaken = true;
                worked++;
                return Agree.answer(function, args);
            }
            paused.release();
            await(answered);
            return answer;
        }

        private Object call(Args called) {
            Answer it = answered(called);
            if (it.kind.equals("throw")) {
                throw new Thrown(it.content);
            }
            if (it.kind.equals("link")) {
                throw new BadAnswer("0");
            }
            return value(it.content);
        }

        private CompletionStage<Object> link(Args called) {
            Answer it = answered(called);
            if (it.kind.equals("throw")) {
                throw new Thrown(it.content);
            }
            if (it.kind.equals("give") || Integer.parseInt(it.content) >= number) {
                throw new BadAnswer("0");
            }
            return stages.get(Integer.parseInt(it.content)).future;
        }

        /** Lets the function go on with an answer, and comes back where its task has ended. */
        private void answer(Answer given) {
            answer = given;
            answered.release();
            await(paused);
        }

        private boolean isReady() {
            return !future.isDone() && !isTaken && (task != null || args != null);
        }

        private String claim(int who) {
            boolean wasDone = future.isDone();
            if (task != null) {
                begin();
            }
            if (wasDone && way == Way.QUEUED && args != null && !isTaken) {
                return "granted though settled";
            }
            if (future.isDone()) {
                return "settled";
            }
            if (isTaken) {
                return "taken";
            }
            if (args == null) {
                return "notready";
            }
            isTaken = true;
            claimant = who;
            return "granted " + args;
        }

        private String finish(int who, Answer given) {
            if (claimant != who) {
                return "notyours";
            }
            claimant = NOBODY;
            String before = outcome(future);
            answer(given);
            if (before.equals("pending")) {
                return "won";
            }
            return outcome(future).equals(before) ? "late" : "changed";
        }

        /** Lets go a function that no step finishes. */
        private void abandon() {
            if (way != Way.DIRECT && args != null && answer == null) {
                answer(Answer.give(null));
            }
        }
    }

    // Limits.

    /**
     * The limits as the JDK keeps them, on its clock, which the script moves: a moment of a script is a second of that
     * clock, behind a time that never comes, and a tick runs the clock's tasks up to its moment in the clock's order. A
     * later JDK hides the clock; there one like it is given the tasks that the documentation tells.
     */
    private static final class Clock {
        private static final long NEVER_SECONDS = 1_000_000;
        private static final ScheduledThreadPoolExecutor JDKS = ofJdk();
        private static final ScheduledThreadPoolExecutor TASKS = JDKS != null ? JDKS : ofOwn();
        private final Map<Runnable, Stage> stages = new HashMap<>();
        private final Map<Runnable, Long> moments = new HashMap<>();
        private long last = 0;

        private static ScheduledThreadPoolExecutor ofJdk() {
            try {
                Field field = Class.forName("java.util.concurrent.CompletableFuture$Delayer").getDeclaredField("delayer");
                field.setAccessible(true);
                return (ScheduledThreadPoolExecutor) field.get(null);
            } catch (ReflectiveOperationException | ClassCastException x) {
                return null;
            }
        }

        private static ScheduledThreadPoolExecutor ofOwn() {
            return new ScheduledThreadPoolExecutor(1, task -> {
                Thread thread = new Thread(task);
                thread.setDaemon(true);
                return thread;
            });
        }

        private static String name() {
            return JDKS != null ? "orTimeout and completeOnTimeout" : "a clock like the JDK's";
        }

        /** Takes the words `limit STAGE MOMENT timeout CODE` or `limit STAGE MOMENT value V`. Of a code but 0 the JDK's methods know nothing. */
        void add(Stage stage, String[] words) {
            long moment = Long.parseLong(words[2]);
            boolean isTimeout = words[3].equals("timeout");
            CompletableFuture<Object> future = stage.future;
            if (JDKS == null || isTimeout && !words[4].equals("0")) {
                Runnable fire = isTimeout
                    ? () -> future.completeExceptionally(new TimedOut(words[4]))
                    : () -> future.complete(value(words[4]));
                TASKS.schedule(fire, NEVER_SECONDS + moment, TimeUnit.SECONDS);
            } else if (isTimeout) {
                future.orTimeout(NEVER_SECONDS + moment, TimeUnit.SECONDS);
            } else {
                future.completeOnTimeout(value(words[4]), NEVER_SECONDS + moment, TimeUnit.SECONDS);
            }
            for (Runnable task : TASKS.getQueue()) {
                if (stages.putIfAbsent(task, stage) == null) {
                    moments.put(task, moment);
                }
            }
        }

        String tick(long now) {
            if (now < last) {
                return "past";
            }
            last = now;
            int fired = 0;
            Runnable task = TASKS.getQueue().peek();
            while (task != null && moments.get(task) <= now) {
                TASKS.getQueue().remove(task);
                boolean wasDone = stages.get(task).future.isDone();
                task.run();
                fired += !wasDone && stages.get(task).future.isDone() ? 1 : 0;
                task = TASKS.getQueue().peek();
            }
            return "fired " + fired;
        }

        void close() {
            TASKS.getQueue().clear();
        }
    }

    // Scripts.

    private final Way way;
    private int room;
    private final List<Stage> stages = new ArrayList<>();
    private final Clock clock = new Clock();
    private int worked = 0; // functions that were called since the last work, or by it
    private boolean isOver = false;

    private Agree(Way way, int room) {
        this.way = way;
        this.room = room;
    }

    /** Calls and finishes the functions of ready stages, the lowest first. Those of direct ones have been called by then. */
    private String work() {
        for (Stage lowest; (lowest = lowestReady()) != null;) {
            lowest.claim(WORKER);
            if (lowest.isTaken) {
                lowest.finish(WORKER, answer(lowest.function, lowest.args));
                worked++;
            }
        }
        String said = "worked " + worked;
        worked = 0;
        return said;
    }

    private Stage lowestReady() {
        return stages.stream().filter(Stage::isReady).findFirst().orElse(null);
    }

    private String attach(String[] words) {
        if (room == 0) {
            return "stagesfull";
        }
        room--;
        stages.add(new Stage(words, 1));
        return "attached " + (stages.size() - 1);
    }

    /** Does what a line asks for, and answers the line that it gives, or null where it gives none. */
    private String line(String[] words) {
        switch (words[0]) {
            case "stage":
                stages.add(new Stage(words, 1));
                return null;
            case "tick":
                return clock.tick(Long.parseLong(words[1]));
            case "work":
                return work();
            case "nudge":
                return "nudged";
            case "attach":
                return attach(words);
            case "claim":
                return stages.get(Integer.parseInt(words[2])).claim(Integer.parseInt(words[1]));
            case "finish":
                Answer answer = new Answer(words[3], words[4]);
                return stages.get(Integer.parseInt(words[2])).finish(Integer.parseInt(words[1]), answer);
            default:
        }
        Stage stage = stages.get(Integer.parseInt(words[1]));
        switch (words[0]) {
            case "limit":
                clock.add(stage, words);
                return null;
            case "complete":
                return String.valueOf(stage.future.complete(value(words[2])));
            case "fail":
                return String.valueOf(stage.future.completeExceptionally(new Thrown(words[2])));
            case "failAs":
                Throwable failure = words[2].equals("timeout") ? new TimedOut(words[3]) : new BadAnswer(words[3]);
                return String.valueOf(stage.future.completeExceptionally(failure));
            case "cancel":
                return String.valueOf(stage.future.cancel(true));
            case "now":
                return now(stage.future, words[2]);
            case "outcome":
                return outcome(stage.future);
            default:
                throw new IllegalStateException("no line " + String.join(" ", words));
        }
    }

    private void tellStages(PrintStream out) {
        for (Stage stage : stages) {
            out.println("stage " + stage.number + " " + outcome(stage.future) + oddity(stage.future));
        }
    }

    private void close() {
        isOver = true;
        for (Stage stage : new ArrayList<>(stages)) {
            stage.abandon();
        }
        clock.close();
    }

    public static void main(String[] none) throws IOException {
        BufferedReader in = new BufferedReader(new InputStreamReader(System.in, StandardCharsets.US_ASCII));
        PrintStream out = new PrintStream(System.out, false, StandardCharsets.US_ASCII);
        out.println(System.getProperty("java.vm.name") + " " + Runtime.version() + ", limits by " + Clock.name());
        out.flush();
        Agree script = null;
        for (String line; (line = in.readLine()) != null;) {
            String[] words = line.split(" ");
            if (words[0].equals("script")) {
                script = new Agree(Way.valueOf(words[1].toUpperCase()), Integer.parseInt(words[2]));
            } else if (words[0].equals("end")) {
                script.tellStages(out);
                script.close();
                out.println("end");
                out.flush();
            } else {
                String said = script.line(words);
                if (said != null) {
                    out.println(said);
                }
            }
        }
    }
}
