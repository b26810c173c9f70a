package cf.service;

import static cf.service.Checks.INLINE;
import static cf.service.Checks.is;
import static cf.service.Checks.thrown;

import cf.internal.Text;
import java.lang.ref.WeakReference;
import java.nio.file.Files;
import java.nio.file.Path;
import java.util.ArrayList;
import java.util.Arrays;
import java.util.Collections;
import java.util.List;
import java.util.concurrent.CompletableFuture;
import java.util.concurrent.CompletionException;
import java.util.concurrent.TimeUnit;
import java.util.concurrent.atomic.AtomicInteger;

/** How much is told of a value or an exception, as Describe says: types, nothing, by a function; values whose text can't be had. */
final class DescribeTest {
    private DescribeTest() {}

    /** A cut text isn't cut within a character. */
    private static void cut() {
        StringBuilder faces = new StringBuilder();
        while (faces.length() < 80) {
            faces.append("\ud83d\ude00");
        }
        String told = Text.describe(Describe.ALL, faces);
        is(told, faces.substring(0, 56) + "...");
        is(Text.describe(Describe.ALL, String.join("", Collections.nCopies(60, "x"))).length(), 60);
        is(Text.describe(Describe.ALL, String.join("", Collections.nCopies(61, "x"))), String.join("", Collections.nCopies(57, "x")) + "...");
    }

    private static final class Secret extends RuntimeException {
        private static final long serialVersionUID = 1;

        Secret() {
            super("bearer 123");
        }
    }

    /** A request with values and exceptions that are secret, in each way in which a history or a stage tells of one. */
    private static List<String> told(Service describing, Request described) throws Exception {
        Stage<String> first = described.<String>promise().named("first");
        Stage<Integer> length = first.thenCombine(described.completedFuture("bearer 123"), (a, b) -> a.length() + b.length());
        Stage<String> failed = first.<String>thenApply(x -> {
            throw new Secret();
        });
        Stage<String> handled = failed.handle((x, e) -> "bearer 123");
        Stage<String> relayed = described.adopt(CompletableFuture.completedFuture("bearer 123"));
        Stage<String> late = described.promise();
        late.completeExceptionally(new Secret());
        late.complete("bearer 123");
        first.complete("bearer 123");
        is(length.join() + handled.join() + relayed.join(), "20bearer 123bearer 123");
        List<String> told = new ArrayList<>(Arrays.asList(described.history().toString(), described.history().line(), described.history().account(),
                described.history().script(), described.history().report(), first.toString(), failed.toString(), handled.toString(),
                late.toString()));
        Flow flow = new Flow("flow");
        Flow.Step<String> given = flow.promise(), doubled = given.thenApply(x -> x + x);
        Request started = describing.start(flow, "bearer 123");
        is(started.stage(doubled).join(), "bearer 123bearer 123");
        told.add(started.history().toString());
        told.add(describing.supplyAsync(() -> "bearer 123").request().history().toString());
        return told;
    }

    static void described() throws Exception {
        cut();
        Service types = INLINE.withDescribe(Describe.TYPES), nothing = INLINE.withDescribe(Describe.NOTHING);
        Path file = Files.createTempFile("cf", ".jfr");
        try (jdk.jfr.Recording recording = new jdk.jfr.Recording()) {
            recording.enable("cf.Word");
            recording.enable("cf.Stage");
            recording.start();
            for (Service describing : Arrays.asList(types, nothing)) {
                for (String told : told(describing, describing.request("described"))) {
                    is(told.contains("bearer"), false);
                }
            }
            recording.stop();
            recording.dump(file);
        } catch (NoClassDefFoundError none) {
            return; // A JVM without recordings.
        }
        List<String> ends = new ArrayList<>();
        for (jdk.jfr.consumer.RecordedEvent event : jdk.jfr.consumer.RecordingFile.readAllEvents(file)) {
            if (event.getEventType().getName().startsWith("cf.")) {
                is(event.toString().contains("bearer"), false);
                ends.add(event.getEventType().getName().equals("cf.Stage") ? event.getString("outcome") : "");
            }
        }
        Files.delete(file);
        is(ends.contains("-") && ends.contains("java.lang.String of 10") && ends.contains("cf.service.DescribeTest$Secret"), true);
        is(told(INLINE, INLINE.request("all")).get(0).contains("bearer 123"), true);
        is(told(INLINE, INLINE.request("one", Describe.NOTHING)).get(0).contains("bearer 123"), false);
        Request goesOn = types.request("goes on").continueInNext();
        Stage<String> last = goesOn.completedFuture("bearer 123");
        while (goesOn.next() == null) {
            last = last.thenApply(x -> x);
        }
        is(last.request() == goesOn.next(), true);
        is(last.request().history().toString().contains("bearer"), false);
        is(types.request().name().equals(nothing.request().name()), false);
        thrown(NullPointerException.class, () -> INLINE.withDescribe(null));
        thrown(NullPointerException.class, () -> INLINE.request("null", (Describe) null));
    }

    private static History held(List<WeakReference<Object>> held) {
        Request described = INLINE.request("held", Describe.TYPES);
        Object value = new Object();
        Throwable error = new Secret();
        described.completedFuture(value);
        described.failedFuture(error);
        held.add(new WeakReference<>(value));
        held.add(new WeakReference<>(error));
        return described.history();
    }

    static void describers() throws Exception {
        String long_ = String.join("", Collections.nCopies(100, "x"));
        is(Text.describe(Describe.TYPES, "four"), "java.lang.String of 4");
        is(Text.describe(Describe.TYPES, new byte[7]), "byte[] of 7");
        is(Text.describe(Describe.TYPES, Arrays.asList(1, 2)), "java.util.Arrays$ArrayList of 2");
        is(Text.describe(Describe.TYPES, Collections.singletonMap(1, 2)), "java.util.Collections$SingletonMap of 1");
        is(Text.describe(Describe.TYPES, 5), "java.lang.Integer");
        is(Text.describe(Describe.TYPES, new Secret()), "cf.service.DescribeTest$Secret");
        is(Text.describe(Describe.NOTHING, 5), "-");
        // One's own is told as it is, and where it throws, a question mark is.
        Request own = INLINE.request("own", value -> value instanceof String ? long_ + "\n" : null);
        own.completedFuture("a");
        own.completedFuture(1);
        String said = own.history().toString();
        is(said.contains("with " + long_ + "\\n\n") && said.contains("with null"), true);
        for (Throwable each : Arrays.asList(new IllegalStateException(), new StackOverflowError(), new LinkageError(), new OutOfMemoryError())) {
            Request described = INLINE.request("throws", value -> DescribeTest.<RuntimeException>thrower(each));
            Stage<Integer> one = described.completedFuture(1);
            Stage<Integer> failed = described.failedFuture(new Secret());
            is(one.join(), 1);
            said = described.history().toString();
            is(said.contains("0 source ends: ?\n") && said.contains("fails 1 source with ?\n"), true);
            is(described.history().line().contains("1 source by ?"), true);
            is(failed.toString().contains("Completed exceptionally: ?"), true);
        }
        // It is called under no lock of the request: another thread uses that meanwhile.
        Request[] locked = new Request[1];
        AtomicInteger asked = new AtomicInteger();
        locked[0] = INLINE.request("unlocked", value -> {
            CompletableFuture<Integer> meanwhile = new CompletableFuture<>();
            Thread other = new Thread(() -> meanwhile.complete(locked[0].completedFuture(2).join()));
            other.start();
            try {
                asked.addAndGet(meanwhile.get(20, TimeUnit.SECONDS));
            } catch (Exception held) {
                asked.set(-1000);
            }
            return "seen";
        });
        Stage<Integer> failed = locked[0].failedFuture(new Secret());
        is(locked[0].history().toString().contains("seen") && failed.toString().contains("seen"), true);
        is(asked.get() >= 4, true);
        // A history that tells less holds less.
        List<WeakReference<Object>> held = new ArrayList<>();
        History history = held(held);
        Checks.until(() -> {
            System.gc();
            return held.get(0).get() == null && held.get(1).get() == null;
        });
        is(history.toString().contains("ends: java.lang.Object") && history.account().contains("\"values\":[\"java.lang.Object\"]"), true);
    }

    private static <E extends Throwable> String thrower(Throwable error) throws E {
        @SuppressWarnings("unchecked")
        E thrown = (E) error;
        throw thrown;
    }

    private static AutoCloseable recording() {
        try {
            jdk.jfr.Recording recording = new jdk.jfr.Recording();
            recording.enable("cf.Stage");
            recording.start();
            return recording;
        } catch (NoClassDefFoundError none) {
            return () -> { };
        }
    }

    /** A value whose text can't be had ends its stage all the same, and what is behind it goes on, with a recording, too. */
    static void unspeakable() throws Exception {
        List<Object> mute = new ArrayList<>();
        for (Throwable each : Arrays.asList(new IllegalStateException(), new StackOverflowError(), new NoClassDefFoundError(),
                new OutOfMemoryError())) {
            mute.add(new Object() {
                @Override
                public String toString() {
                    return DescribeTest.<RuntimeException>thrower(each);
                }
            });
        }
        mute.add(new Object() {
            @Override
            public String toString() {
                return null;
            }
        });
        mute.add(new RuntimeException() {
            private static final long serialVersionUID = 1;

            @Override
            public String getMessage() {
                throw new AssertionError();
            }

            @Override
            public String toString() {
                throw new AssertionError();
            }
        });
        try (AutoCloseable recording = recording()) {
            for (Object each : mute) {
                Request described = INLINE.request("mute");
                Stage<Object> first = described.promise();
                Stage<String> behind = first.handle((x, e) -> "told");
                is(each instanceof Throwable ? first.completeExceptionally((Throwable) each) : first.complete(each), true);
                is(behind.getNow("not told"), "told");
                is(described.history().toString().split("\n").length, 8);
                is(described.history().line().contains("mute: 5 events"), true);
                is(described.history().account().contains("\"name\":\"mute\""), true);
                is(first.toString().contains("mute: 0 source: Completed"), true);
            }
        }
    }

    /** So does an exception whose text can't be had, and stages behind it have it wrapped. */
    static void unspeakableWrapped() throws Exception {
        class Mute extends RuntimeException {
            private static final long serialVersionUID = 1;

            @Override
            public String toString() {
                throw new IllegalStateException();
            }
        }
        Request described = INLINE.request("mute");
        Stage<Integer> first = described.promise();
        Stage<Integer> behind = first.thenApply(x -> x + 1), last = behind.thenApply(x -> x + 1), beside = first.exceptionally(e -> 7);
        Mute mute = new Mute();
        is(first.completeExceptionally(mute), true);
        is(beside.getNow(0), 7);
        for (Stage<Integer> each : Arrays.asList(behind, last)) {
            is(each.isCompletedExceptionally(), true);
            is(each.exceptionNow() == mute, true);
            is(each.handle((x, e) -> e instanceof CompletionException && e.getCause() == mute).join(), true);
        }
    }
}
