package cf.service;

import cf.internal.Form;
import cf.internal.Layout;
import cf.internal.Full;
import cf.internal.Text;
import java.util.ArrayList;
import java.util.List;
import java.util.Objects;
import java.util.concurrent.CompletionStage;
import java.util.concurrent.Executor;
import java.util.function.BiConsumer;
import java.util.function.BiFunction;
import java.util.function.Consumer;
import java.util.function.Function;
import java.util.function.Supplier;

/**
 * A plan of stages with their functions, built once and done again for each request, any number of which go on at the same time.
 *
 * <pre>{@code
 * Flow flow = new Flow("order");
 * Flow.Step<Integer> number = flow.promise();
 * Flow.Step<Total> total = number.thenApply(this::user).thenCombine(flow.supplyAsync(this::quote), Total::new);
 *
 * try (Request request = service.start(flow, 17)) {   // completes the promises in their order
 *     request.stage(total).get(5, SECONDS);
 * }
 * }</pre>
 *
 * <p>It may be added to until its first request is begun, by one thread; whatever changes it throws {@link IllegalStateException} then. It
 * has at most 4,096 steps, of which a composing one takes two, and in all 16,384 mentions of steps as others' sources; else
 * {@link RequestFullException}.
 */
public final class Flow {
    /** Stands for the executor of the service. */
    private static final Executor OF_SERVICE = act -> {
        throw new AssertionError();
    };

    private final String name;
    private final List<PlannedStage> planned = new ArrayList<>();
    private final List<Integer> promises = new ArrayList<>();
    private volatile PlannedStage[] fixedStages;
    private volatile Machine.Plan plan;
    private boolean startsReady;
    private int edges;

    static final class PlannedStage {
        final Form form;
        final int[] sources;
        final Object function;
        Executor executor;
        String name;

        PlannedStage(Form form, int[] of, Object function, Executor executor) {
            this.form = form;
            this.sources = of;
            this.function = function;
            this.executor = executor;
        }
    }

    /** A plan without steps. Its requests are called by this name. */
    public Flow(String name) {
        this.name = Objects.requireNonNull(name);
    }

    /**
     * A stage of each request of the flow: {@link Request#stage} gives it. Its methods plan one more, as those of {@link CompletionStage} do. Without
     * {@link #async()} its function is called by the thread that settles its source. A step has no limit: set one on the request's stage.
     */
    public final class Step<T> {
        private final int number;

        Step(int number) {
            this.number = number;
        }

        int number() {
            return number;
        }

        Flow flow() {
            return Flow.this;
        }

        /** Sets its name in histories, and gives the step itself. */
        public Step<T> named(String name) {
            synchronized (Flow.this) {
                changeableStage(number).name = name;
            }
            return this;
        }

        /** Has its function called by the service's executor, as Async does. This step itself is given back. */
        public Step<T> async() {
            return async(OF_SERVICE);
        }

        /** Has its function called by this executor. This step itself is given back. */
        public Step<T> async(Executor executor) {
            synchronized (Flow.this) {
                changeableStage(number).executor = Objects.requireNonNull(executor);
            }
            return this;
        }

        /** Plans a stage behind this one, as {@link CompletionStage#thenApply}. */
        public <U> Step<U> thenApply(Function<? super T, ? extends U> fn) {
            return step(Form.APPLY, fn, number);
        }

        /** Plans a stage behind this one, as {@link CompletionStage#thenAccept}. */
        public Step<Void> thenAccept(Consumer<? super T> action) {
            return step(Form.ACCEPT, action, number);
        }

        /** Plans a stage behind this one, as {@link CompletionStage#thenRun}. */
        public Step<Void> thenRun(Runnable action) {
            return step(Form.THEN_RUN, action, number);
        }

        /** Plans a stage behind this one, as {@link CompletionStage#thenCompose}. It takes two stages. */
        public <U> Step<U> thenCompose(Function<? super T, ? extends CompletionStage<U>> fn) {
            return step(Form.COMPOSE, fn, number);
        }

        /** Plans a stage behind this one, as {@link CompletionStage#handle}. */
        public <U> Step<U> handle(BiFunction<? super T, Throwable, ? extends U> fn) {
            return step(Form.HANDLE, fn, number);
        }

        /** Plans a stage behind this one, as {@link CompletionStage#whenComplete}. */
        public Step<T> whenComplete(BiConsumer<? super T, ? super Throwable> action) {
            return step(Form.WHEN_COMPLETE, action, number);
        }

        /** Plans a stage behind this one, as {@link CompletionStage#exceptionally}. */
        public Step<T> exceptionally(Function<Throwable, ? extends T> fn) {
            return step(Form.EXCEPTIONALLY, fn, number);
        }

        /** Plans a stage behind this one, as {@link Stage#exceptionallyCompose}. It takes two stages. */
        public Step<T> exceptionallyCompose(Function<Throwable, ? extends CompletionStage<T>> fn) {
            return step(Form.EXCEPTIONALLY_COMPOSE, fn, number);
        }

        /** Plans a stage behind this one, as {@link CompletionStage#thenCombine}. */
        public <U, V> Step<V> thenCombine(Step<? extends U> other, BiFunction<? super T, ? super U, ? extends V> fn) {
            return step(Form.COMBINE, fn, number, numberOf(other));
        }

        /** Plans a stage behind this one, as {@link CompletionStage#thenAcceptBoth}. */
        public <U> Step<Void> thenAcceptBoth(Step<? extends U> other, BiConsumer<? super T, ? super U> action) {
            return step(Form.ACCEPT_BOTH, action, number, numberOf(other));
        }

        /** Plans a stage behind this one, as {@link CompletionStage#runAfterBoth}. */
        public Step<Void> runAfterBoth(Step<?> other, Runnable action) {
            return step(Form.RUN_BOTH, action, number, numberOf(other));
        }

        /** Plans a stage behind this one, as {@link CompletionStage#applyToEither}. */
        public <U> Step<U> applyToEither(Step<? extends T> other, Function<? super T, U> fn) {
            return step(Form.APPLY_EITHER, fn, number, numberOf(other));
        }

        /** Plans a stage behind this one, as {@link CompletionStage#acceptEither}. */
        public Step<Void> acceptEither(Step<? extends T> other, Consumer<? super T> action) {
            return step(Form.ACCEPT_EITHER, action, number, numberOf(other));
        }

        /** Plans a stage behind this one, as {@link CompletionStage#runAfterEither}. */
        public Step<Void> runAfterEither(Step<?> other, Runnable action) {
            return step(Form.RUN_EITHER, action, number, numberOf(other));
        }
    }

    /** A step without a function: {@link Service#start} gets its value, or the request's stage is completed later. */
    public synchronized <U> Step<U> promise() {
        Step<U> step = add(Form.SOURCE, null, null);
        promises.add(step.number());
        return step;
    }

    /** A step without a source, whose function the service's executor calls. */
    public <U> Step<U> supplyAsync(Supplier<U> supplier) {
        return this.<U>step(Form.SUPPLY, supplier).async();
    }

    /** A step without a source and without a value, whose function the service's executor calls. */
    public Step<Void> runAsync(Runnable runnable) {
        return this.<Void>step(Form.RUN_ASYNC, runnable).async();
    }

    /** As {@link Request#allOf}, in one stage, of however many steps. */
    public Step<Void> allOf(Step<?>... of) {
        return add(Form.ALL_OF, null, null, numbersOf(of));
    }

    /** As {@link Request#anyOf}, in one stage, of however many steps. */
    public Step<Object> anyOf(Step<?>... of) {
        return add(Form.ANY_OF, null, null, numbersOf(of));
    }

    /** The name of its requests. */
    public String name() {
        return name;
    }

    private synchronized <U> Step<U> step(Form form, Object function, int... of) {
        Objects.requireNonNull(function);
        if (form.composes) {
            checkOpen(2, of.length);
            add(Form.SOURCE, null, null);
            changeableStage(planned.size() - 1).name = "relay";
        }
        return add(form, function, null, of);
    }

    private synchronized <U> Step<U> add(Form form, Object function, Executor executor, int... of) {
        checkOpen(1, of.length);
        edges += of.length;
        startsReady |= of.length == 0 && form != Form.SOURCE;
        planned.add(new PlannedStage(form, of, function, executor));
        return new Step<>(planned.size() - 1);
    }

    private int numberOf(Step<?> other) {
        if (other.flow() != this) {
            throw new IllegalArgumentException("the step is of another flow");
        }
        return other.number();
    }

    private int[] numbersOf(Step<?>[] of) {
        int[] numbers = new int[of.length];
        for (int k = 0; k < of.length; k++) {
            numbers[k] = numberOf(of[k]);
        }
        return numbers;
    }

    private void checkOpen() {
        if (fixedStages != null) {
            throw new IllegalStateException("a request of the flow \"" + Text.escape(name) + "\" was begun");
        }
    }

    /** Where there is place for so many steps, and sources of them. */
    private void checkOpen(int steps, int sources) {
        checkOpen();
        if (planned.size() + steps > Machine.MOST_STAGES || edges + sources > Machine.MOST_EDGES) {
            throw new RequestFullException(new Full(name));
        }
    }

    private PlannedStage changeableStage(int number) {
        checkOpen();
        return planned.get(number);
    }

    // For requests.

    Machine.Plan plan() {
        Machine.Plan made = plan;
        return made != null ? made : fix();
    }

    private synchronized Machine.Plan fix() {
        if (plan == null) {
            int length = 0;
            for (PlannedStage row : planned) {
                length += 3 + row.sources.length;
            }
            int[] numbers = new int[length];
            int at = 0;
            for (int k = 0; k < planned.size(); k++) {
                PlannedStage row = planned.get(k);
                // Its function is called by an executor, or by whoever makes it ready.
                numbers[at++] = row.form.ordinal() + (row.form.calls && row.executor != null ? Layout.FOR_EXECUTOR : 0);
                numbers[at++] = row.form.calls ? k : -1;
                numbers[at++] = row.sources.length;
                for (int source : row.sources) {
                    numbers[at++] = source;
                }
            }
            Machine.Plan made = new Machine.Plan(numbers, planned.size(), edges);
            fixedStages = planned.toArray(new PlannedStage[0]);
            plan = made; // Who reads it finds all that stands above.
        }
        return plan;
    }

    /** Whether a stage is ready before anything was done. */
    boolean startsReady() {
        return startsReady;
    }

    int stageCount() {
        return fixedStages.length;
    }

    int promiseCount() {
        return promises.size();
    }

    int promiseStage(int k) {
        return promises.get(k);
    }

    PlannedStage plannedStage(int number) {
        return fixedStages[number];
    }

    Form form(int number) {
        return fixedStages[number].form;
    }

    Object function(int number) {
        return fixedStages[number].function;
    }

    String name(int number) {
        return fixedStages[number].name;
    }

    <U> Stage<U> stage(Request request, int number) {
        PlannedStage row = fixedStages[number];
        boolean isRelay = number + 1 < fixedStages.length && fixedStages[number + 1].form.composes;
        return new Stage<>(request, number, row.form, isRelay ? Stage.ASIDE : row.function, row.executor == OF_SERVICE ? request.service.executor() : row.executor);
    }
}
