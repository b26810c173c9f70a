package cf.testing;

import cf.service.Request;
import cf.service.Stage;
import java.util.ArrayList;
import java.util.Arrays;
import java.util.List;
import java.util.Random;
import java.util.concurrent.CompletionException;
import java.util.concurrent.TimeUnit;
import java.util.concurrent.TimeoutException;
import java.util.function.Supplier;

/**
 * Random programs of user code, which the kit has to bring to the same ends with and without what it leaves out. What the functions of one do is
 * drawn once, so that each run does the same.
 */
public final class Programs {
    private static final int SHARED = 3;
    private static final String[] KINDS = {"set", "add", "read", "none", "complete", "cancel", "fail", "done", "attach", "now", "wait"};
    private static final String[] FORMS = {"supply", "promise", "adopt", "apply", "handle", "exceptionally", "combine", "either", "allOf", "anyOf", "compose", "copy"};

    private final Random random;
    private final int requests;
    private final List<Made> stages = new ArrayList<>();
    private final List<int[]> arrivals = new ArrayList<>(), limits = new ArrayList<>();
    private final List<List<Act>> callers = new ArrayList<>();
    private final int[] check;

    /** Something that is done: its kind, a variable, a value, a stage. */
    private static final class Act {
        final String kind;
        final int variable, value, stage;

        Act(String kind, int variable, int value, int stage) {
            this.kind = kind;
            this.variable = variable;
            this.value = value;
            this.stage = stage;
        }
    }

    private static final class Made {
        final String form, mark;
        final int[] of;
        final boolean isAsync;
        final List<Act> acts;

        Made(String form, String mark, int[] of, boolean isAsync, List<Act> acts) {
            this.form = form;
            this.mark = mark;
            this.of = of;
            this.isAsync = isAsync;
            this.acts = acts;
        }
    }

    private Programs(long seed) {
        random = new Random(seed);
        requests = random.nextInt(3) == 0 ? 2 : 1;
        int count = 2 + random.nextInt(3);
        for (int k = 0; k < count; k++) {
            stages.add(stage(k));
        }
        for (int k = random.nextInt(3); k > 0; k--) {
            arrivals.add(new int[] {random.nextInt(3), random.nextInt(3)});
        }
        for (int k = random.nextInt(3); k > 0; k--) {
            callers.add(acts(1 + random.nextInt(2), count));
        }
        for (int k = Math.max(0, random.nextInt(4) - 1); k > 0; k--) {
            limits.add(new int[] {random.nextInt(count), 1 + random.nextInt(3)});
        }
        check = random.nextInt(10) < 3 ? new int[] {random.nextInt(SHARED), 1 + random.nextInt(3), random.nextInt(count)} : null;
    }

    private Made stage(int k) {
        String form = FORMS[random.nextInt(k == 0 ? 3 : FORMS.length)];
        int[] of = k == 0 ? new int[2] : new int[] {random.nextInt(k), random.nextInt(k)};
        String mark = new String[] {"", "", "pure", "touches"}[random.nextInt(4)];
        return new Made(form, mark, of, random.nextBoolean(), acts(random.nextInt(3), k));
    }

    private List<Act> acts(int count, int stages) {
        List<Act> acts = new ArrayList<>();
        for (int k = 0; k < count; k++) {
            acts.add(new Act(KINDS[random.nextInt(stages == 0 ? 4 : KINDS.length)], random.nextInt(SHARED), random.nextInt(4),
                    random.nextInt(Math.max(stages, 1))));
        }
        return acts;
    }

    private Supplier<String> begin(World world) {
        return new Now(world)::end;
    }

    /** One run of it. */
    private final class Now {
        private final World world;
        private final int[] shared = new int[SHARED];
        private final List<Integer> log = new ArrayList<>();
        private final List<Stage<Integer>> made = new ArrayList<>();

        Now(World world) {
            this.world = world;
            List<Request> opened = new ArrayList<>();
            for (int k = 0; k < requests; k++) {
                opened.add(world.service().request());
            }
            List<Stage<Integer>> coming = new ArrayList<>();
            for (int[] each : arrivals) {
                String name = "arrival " + coming.size();
                coming.add(each[0] == 0 ? world.arrives(each[1], name) : each[0] == 1 ? world.fails(new IllegalStateException("x"), name)
                        : world.may(each[1], name));
            }
            for (int k = 0; k < stages.size(); k++) {
                made.add(made(opened.get(k % requests), stages.get(k), coming));
            }
            for (int[] limit : limits) {
                made.get(limit[0]).orTimeout(limit[1], TimeUnit.SECONDS);
            }
            for (int c = 0; c < callers.size(); c++) {
                Caller caller = world.caller("caller " + c);
                for (Act act : callers.get(c)) {
                    if (act.kind.equals("cancel")) {
                        caller.calls(made.get(act.stage), it -> it.cancel(true));
                    } else {
                        caller.calls(() -> act(act, false));
                    }
                }
            }
            if (check != null) {
                world.check(() -> shared[check[0]] < check[1] || !made.get(check[2]).isDone(), "checked");
            }
        }

        private Stage<Integer> made(Request request, Made said, List<Stage<Integer>> coming) {
            Stage<Integer> a = made.isEmpty() ? null : request.adopt(made.get(said.of[0])), b = made.isEmpty() ? null : request.adopt(made.get(said.of[1]));
            Supplier<Integer> fn = function(said);
            Stage<Integer> stage;
            switch (said.form) {
                case "supply": stage = request.supplyAsync(fn); break;
                case "promise": return request.promise();
                case "adopt": return coming.isEmpty() ? request.promise() : request.adopt(coming.get(0));
                case "apply": stage = said.isAsync ? a.thenApplyAsync(x -> fn.get()) : a.thenApply(x -> fn.get()); break;
                case "handle": stage = said.isAsync ? a.handleAsync((x, error) -> fn.get()) : a.handle((x, error) -> fn.get()); break;
                case "exceptionally": stage = said.isAsync ? a.exceptionallyAsync(error -> fn.get()) : a.exceptionally(error -> fn.get()); break;
                case "combine": stage = said.isAsync ? a.thenCombineAsync(b, (x, y) -> fn.get()) : a.thenCombine(b, (x, y) -> fn.get()); break;
                case "either": stage = said.isAsync ? a.applyToEitherAsync(b, x -> fn.get()) : a.applyToEither(b, x -> fn.get()); break;
                case "compose": stage = said.isAsync ? a.thenComposeAsync(x -> composed(said, fn, b)) : a.thenCompose(x -> composed(said, fn, b)); break;
                case "allOf": return request.allOf(a, b).thenApply(x -> 1);
                case "anyOf": return request.anyOf(a, b).thenApply(x -> 2);
                default: return a.copy();
            }
            return said.mark.isEmpty() ? stage : said.mark.equals("pure") ? world.pure(stage) : world.touches(stage, "log");
        }

        private Stage<Integer> composed(Made said, Supplier<Integer> fn, Stage<Integer> to) {
            fn.get();
            return said.acts.isEmpty() ? to : made.get(said.of[1]);
        }

        private Supplier<Integer> function(Made said) {
            switch (said.mark) {
                case "pure":
                    return () -> 7;
                case "touches":
                    return () -> {
                        log.add(log.size());
                        return log.size();
                    };
                default:
                    return () -> {
                        said.acts.forEach(each -> act(each, true));
                        return Arrays.stream(shared).sum();
                    };
            }
        }

        private void act(Act act, boolean mayWait) {
            Stage<Integer> stage = made.isEmpty() ? null : made.get(act.stage);
            switch (act.kind) {
                case "set": shared[act.variable] = act.value; break;
                case "add": shared[act.variable]++; break;
                case "read": shared[act.variable] = shared[(act.variable + 1) % SHARED] + 1; break;
                case "complete": stage.complete(act.value); break;
                case "cancel": stage.cancel(true); break;
                case "fail": stage.completeExceptionally(new IllegalStateException("y")); break;
                case "done": shared[act.variable] = stage.isDone() ? 1 : 0; break;
                case "now":
                    try {
                        Integer now = stage.getNow(9);
                        shared[act.variable] = now == null ? 8 : now;
                    } catch (RuntimeException failed) {
                        shared[act.variable] = 6;
                    }
                    break;
                case "attach":
                    made.add(act.value < 2 ? stage.handle((x, error) -> shared[act.variable] = act.value)
                            : stage.handleAsync((x, error) -> shared[act.variable] = act.value));
                    break;
                case "wait":
                    if (mayWait) {
                        wait(act, stage);
                    }
                    break;
                default:
            }
        }

        private void wait(Act act, Stage<Integer> stage) {
            try {
                Integer got = act.value == 0 ? stage.join() : stage.get(act.value, TimeUnit.SECONDS);
                shared[act.variable] = got != null && got != 0 ? 1 : 0;
            } catch (CompletionException | TimeoutException failed) {
                shared[act.variable] = 4;
            } catch (InterruptedException | java.util.concurrent.ExecutionException | RuntimeException failed) {
                shared[act.variable] = 5;
            }
        }

        String end() {
            StringBuilder end = new StringBuilder(Arrays.toString(shared)).append(log);
            for (Stage<Integer> stage : made) {
                end.append(' ').append(!stage.isDone() ? "open" : stage.handle((x, error) -> error == null ? String.valueOf(x) : text(error)).join());
            }
            return end.toString();
        }

        private String text(Throwable error) {
            Throwable cause = error instanceof CompletionException ? error.getCause() : error;
            return cause.getClass().getSimpleName() + (cause == error ? "" : " wrapped");
        }
    }

    /** FIRST COUNT MOST, as of {@link Compared#main}. */
    public static void main(String[] args) {
        Compared.main("programs", false, args, seed -> new Programs(seed)::begin);
    }
}
