package cf.testing;

import cf.service.Checks;
import cf.service.Request;
import cf.service.Stage;
import java.io.BufferedReader;
import java.io.InputStreamReader;
import java.nio.charset.StandardCharsets;
import java.util.ArrayList;
import java.util.Arrays;
import java.util.List;
import java.util.TreeMap;
import java.util.concurrent.CompletableFuture;
import java.util.concurrent.CompletionException;
import java.util.concurrent.TimeUnit;
import java.util.function.BiConsumer;
import java.util.function.BiFunction;
import java.util.function.Consumer;
import java.util.function.Function;
import java.util.function.Supplier;

/**
 * Questions of {@code cf_look explore}, asked of a service in all orders: conformance/clients/java-orders writes them, and compares the ends.
 *
 * <p>A question is a line {@code Q workers bounded room most counts}, then lines of stages ({@code S form function number sources..}), of limits
 * ({@code L stage kind value seconds}) and of callers ({@code C step;step..}), and {@code E}. A number is {@code -} for null. The answer has a line
 * {@code reduced whole orders cut failed}, a line for each end that came then, if orders are counted a line {@code plain} and one for each end with
 * its orders, and {@code .}.
 */
public final class Asked {
    private final List<String[]> stages = new ArrayList<>(), limits = new ArrayList<>(), callers = new ArrayList<>();
    private int workers, room, most;
    private boolean isBounded, counts;

    private Asked() {}

    /** What a function of a question throws. */
    static final class Thrown extends RuntimeException {
        private static final long serialVersionUID = 1;
        final int code;

        Thrown(int code) {
            super(String.valueOf(code));
            this.code = code;
        }
    }

    /** Answers the questions of standard input. */
    public static void main(String[] args) throws Exception {
        BufferedReader lines = new BufferedReader(new InputStreamReader(System.in, StandardCharsets.UTF_8));
        Asked asked = new Asked();
        for (String line; (line = lines.readLine()) != null;) {
            String[] words = line.split(" ");
            switch (words[0]) {
                case "Q":
                    asked = new Asked();
                    asked.workers = Integer.parseInt(words[1]);
                    asked.isBounded = words[2].equals("1");
                    asked.room = Integer.parseInt(words[3]);
                    asked.most = Integer.parseInt(words[4]);
                    asked.counts = words[5].equals("1");
                    break;
                case "S":
                    asked.stages.add(words);
                    break;
                case "L":
                    asked.limits.add(words);
                    break;
                case "C":
                    asked.callers.add(line.length() < 3 ? new String[0] : line.substring(2).split(";"));
                    break;
                default:
                    asked.answer();
            }
        }
    }

    private void answer() {
        Report reduced = orders(false).workers(isBounded ? workers : 0).most(5 * most).run();
        System.out.println("reduced " + reduced.whole() + " " + reduced.orders() + " " + reduced.cut() + " " + reduced.failed().size());
        reduced.failed().forEach(failure -> System.err.println(failure));
        new TreeMap<>(reduced.ends()).keySet().forEach(System.out::println);
        if (counts) {
            System.out.println("plain");
            new TreeMap<>(orders(true).workers(workers).unreduced().most(Integer.MAX_VALUE).run().ends())
                    .forEach((end, number) -> System.out.println(number + " " + end));
        }
        System.out.println(".");
        System.out.flush();
    }

    private Orders orders(boolean counts) {
        Question[] now = new Question[1];
        return Orders.of(world -> now[0] = new Question(world, counts)).freeClock().failures(Integer.MAX_VALUE).asFound().seconds(600)
                .ends(world -> now[0].end());
    }

    private static Integer number(String text) {
        return text.equals("-") ? null : Integer.valueOf(text);
    }

    /** One run of a question. */
    private final class Question {
        private final Request request;
        private final List<Stage<Integer>> made = new ArrayList<>();
        private final boolean counts;
        private int roomLeft = room;

        Question(World world, boolean counts) {
            this.counts = counts;
            request = world.service().request("q");
            stages.forEach(said -> made.add(attached(said)));
            for (String[] limit : limits) {
                Stage<Integer> stage = made.get(Integer.parseInt(limit[1]));
                if (limit[2].equals("timeout")) {
                    stage.orTimeout(Integer.parseInt(limit[4]), TimeUnit.SECONDS);
                } else {
                    stage.completeOnTimeout(number(limit[3]), Integer.parseInt(limit[4]), TimeUnit.SECONDS);
                }
            }
            for (int c = 0; c < callers.size(); c++) {
                Caller caller = world.caller("caller " + c);
                for (String step : callers.get(c)) {
                    add(caller, step.split(" "));
                }
            }
        }

        /** A step as calls. A join is as many looks as it may take, or where orders are counted as many as it takes. */
        private void add(Caller caller, String[] step) {
            if (step[0].equals("attach")) {
                caller.calls(() -> attachLater(step));
                return;
            }
            int stage = Integer.parseInt(step[1]);
            if (step[0].equals("join")) {
                for (int k = 0; k < (counts ? 1 : Integer.parseInt(step[2])); k++) {
                    caller.calls(() -> look(caller, stage, Integer.parseInt(step[2]), 1));
                }
                return;
            }
            caller.calls(made.get(stage), it -> act(it, step));
        }

        private void act(Stage<Integer> stage, String[] step) {
            switch (step[0]) {
                case "complete":
                    stage.complete(number(step[2]));
                    break;
                case "fail":
                    stage.completeExceptionally(new Thrown(Integer.parseInt(step[2])));
                    break;
                case "cancel":
                    stage.cancel(true);
                    break;
                default:
                    stage.isDone();
            }
        }

        /** A look; the next one is a call more. */
        private void look(Caller caller, int stage, int most, int looks) {
            boolean isDone = stage < made.size() && Checks.isSettled(made.get(stage));
            if (counts && !isDone && looks < most) {
                caller.calls.add(caller.callsMade, new Caller.CallerCall(() -> look(caller, stage, most, looks + 1), false));
            }
        }

        private void attachLater(String[] step) {
            if (roomLeft > 0) {
                roomLeft--;
                made.add(attached(step));
            }
        }

        /** A stage by its form, function and sources. */
        @SuppressWarnings("unchecked")
        private Stage<Integer> attached(String[] said) {
            String form = said[1];
            List<Stage<Integer>> of = new ArrayList<>();
            for (int k = 4; k < said.length; k++) {
                of.add(made.get(Integer.parseInt(said[k])));
            }
            Stage<Integer> a = of.isEmpty() ? null : of.get(0), b = of.size() < 2 ? null : of.get(1);
            Supplier<Integer> none = () -> give(said, false, null, null, null);
            Runnable runs = none::get;
            Function<Integer, Integer> one = x -> give(said, false, x, null, null);
            Consumer<Integer> accepts = one::apply;
            BiFunction<Integer, Integer, Integer> two = (x, y) -> give(said, true, x, y, null);
            BiConsumer<Integer, Integer> acceptsTwo = two::apply;
            BiFunction<Integer, Throwable, Integer> handles = (x, error) -> give(said, false, x, null, error);
            Stage<?> stage;
            switch (form) {
                case "source": stage = request.<Integer>promise(); break;
                case "supply": stage = request.supplyAsync(none); break;
                case "runAsync": stage = request.runAsync(runs); break;
                case "apply": stage = a.thenApplyAsync(one); break;
                case "accept": stage = a.thenAcceptAsync(accepts); break;
                case "thenRun": stage = a.thenRunAsync(runs); break;
                case "combine": stage = a.thenCombineAsync(b, two); break;
                case "acceptBoth": stage = a.thenAcceptBothAsync(b, acceptsTwo); break;
                case "runBoth": stage = a.runAfterBothAsync(b, runs); break;
                case "applyEither": stage = a.applyToEitherAsync(b, one); break;
                case "acceptEither": stage = a.acceptEitherAsync(b, accepts); break;
                case "runEither": stage = a.runAfterEitherAsync(b, runs); break;
                case "handle": stage = a.handleAsync(handles); break;
                case "whenComplete": stage = a.whenCompleteAsync(handles::apply); break;
                case "exceptionally": stage = a.exceptionallyAsync(error -> give(said, false, null, null, error)); break;
                case "compose": stage = a.thenComposeAsync(x -> links(said, x, null)); break;
                case "exceptionallyCompose": stage = a.exceptionallyComposeAsync(error -> links(said, null, error)); break;
                case "allOf": stage = request.allOf(of.toArray(new CompletableFuture<?>[0])); break;
                default: stage = request.anyOf(of.toArray(new CompletableFuture<?>[0]));
            }
            return (Stage<Integer>) stage;
        }

        /** What a function gives that isn't a stage. */
        private Integer give(String[] said, boolean isTwo, Integer x, Integer y, Throwable error) {
            Integer k = said[3].equals("-") ? null : Integer.valueOf(said[3]);
            Integer given;
            switch (said[2]) {
                case "const": given = k; break;
                case "throw": throw new Thrown(k);
                case "rescue": given = error != null ? k : x; break;
                default:
                    if (error != null) {
                        throw new Thrown(cause(error) instanceof Thrown ? ((Thrown) cause(error)).code : 0);
                    }
                    int number = x == null ? 0 : x;
                    given = said[2].equals("add") ? number + k : said[2].equals("mul") ? number * k : said[2].equals("neg") ? -number
                            : number + (isTwo && y != null ? y : 0);
            }
            return given;
        }

        private Stage<Integer> links(String[] said, Integer x, Throwable error) {
            if (!said[2].equals("goto")) {
                throw new IllegalArgumentException(Arrays.toString(said));
            }
            return made.get(Integer.parseInt(said[3]));
        }

        private Throwable cause(Throwable error) {
            return error instanceof CompletionException && error.getCause() != null ? error.getCause() : error;
        }

        /** The outcomes of all stages, as texts of scripts. */
        String end() {
            String[] lines = Arrays.stream(request.history().report().split("\n")).filter(line -> line.startsWith("stage ")).toArray(String[]::new);
            StringBuilder end = new StringBuilder();
            for (Stage<Integer> stage : made) {
                String[] words = lines[stage.number()].split(" ");
                String text = String.join(" ", Arrays.asList(words).subList(2, words.length));
                if (words[2].equals("value")) {
                    Object value = stage.join();
                    text = "value " + (value == null ? "nil" : value);
                } else if (words[2].equals("fault") && words[3].equals("thrown")) {
                    text = "fault thrown " + ((Thrown) stage.exceptionNow()).code + " " + words[5];
                }
                end.append(end.length() == 0 ? "" : ",").append(text);
            }
            return end.toString();
        }
    }
}
