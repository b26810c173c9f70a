package cf.store;

import static cf.service.Checks.is;

import cf.internal.Form;
import cf.internal.Host;
import cf.internal.Words;
import java.lang.reflect.InvocationTargetException;
import java.lang.reflect.Method;
import java.lang.reflect.Proxy;
import java.nio.charset.StandardCharsets;
import java.nio.file.Files;
import java.nio.file.Path;
import java.nio.file.Paths;
import java.util.ArrayDeque;
import java.util.ArrayList;
import java.util.Arrays;
import java.util.Collections;
import java.util.Deque;
import java.util.EnumMap;
import java.util.HashMap;
import java.util.LinkedHashMap;
import java.util.List;
import java.util.Locale;
import java.util.Map;
import java.util.concurrent.CancellationException;
import java.util.concurrent.CountDownLatch;
import java.util.concurrent.TimeUnit;
import java.util.concurrent.TimeoutException;
import java.util.function.Supplier;
import java.util.stream.Collectors;

/**
 * What a process decides of a request in a store: the rows of {@code conformance/stores/decisions.rows}, whose head says what their lines mean.
 * Nothing runs beside a row: a function is called within the look that claims its stage, and the row's lines go on within the call.
 */
public final class DecisionsTest {
    private static final long SECOND = 1_000_000_000L, LEASE = 10 * SECOND, LOOKS = SECOND / 5;
    private static final long OWN = 1;
    private static final Map<String, Long> OTHERS = Map.of("B", 2L, "C", 3L, "D", 4L);
    private static final Map<String, Form> FORMS = Map.of("supply", Form.SUPPLY, "apply", Form.APPLY, "either", Form.APPLY_EITHER, "promise",
            Form.SOURCE, "again", Form.EXCEPTIONALLY, "compose", Form.COMPOSE);
    /** Errors that a client makes, which a row calls by their kind. */
    private static final List<String> KINDS = Arrays.asList("Abandoned", "StoreError", "CancelledError");

    private DecisionsTest() {}

    /** What may come of a move, in the order in which a row tells it. */
    private enum Told { PUTS, CALLS, SHOWS, TOLD, CLOSES }

    /** Runs all rows. */
    public static void rows() throws Exception {
        Path rows = Paths.get("conformance/stores/decisions.rows");
        String text = "\n" + Files.readString(Files.exists(rows) ? rows : Paths.get("../..").resolve(rows));
        List<String> wrong = new ArrayList<>();
        for (String row : text.substring(text.indexOf("\n== ") + 4).split("\n== ")) {
            List<String> lines = row.lines().filter(line -> !line.isEmpty() && !line.startsWith("#")).collect(Collectors.toList());
            int first = lines.indexOf(lines.stream().filter(line -> line.startsWith("> ")).findFirst().get());
            String wanted = lines.stream().skip(first).filter(line -> line.startsWith("> ") || line.startsWith("  ")).collect(Collectors.joining("\n"));
            String told = String.join("\n", new Row(lines.subList(1, lines.size())).playAll());
            if (!told.equals(wanted)) {
                wrong.add("\n" + lines.get(0) + "\n  wanted\n" + wanted + "\n  as it is\n" + told);
            }
        }
        is(String.join("\n", wrong), "");
    }

    private static StoreException.Unknown silent() {
        return new StoreException.Unknown("the row says so", null);
    }

    private static String errorText(RemoteException error) {
        return KINDS.contains(error.kind()) ? error.kind() : error.text();
    }

    private static String valueText(Object value) {
        return value instanceof RemoteException ? errorText((RemoteException) value) : new String(Json.write(value), StandardCharsets.UTF_8);
    }

    /** How a stage is shown. */
    private static String endText(Object value, Throwable fault) {
        return fault == null ? valueText(value) : fault instanceof CancellationException ? "cancelled"
                : fault instanceof TimeoutException ? "timed out" : fault instanceof StoreException.Gone ? "gone"
                : fault instanceof StoreException.Broken ? "broken" : fault instanceof RemoteException ? errorText((RemoteException) fault) : fault.toString();
    }

    private static byte[] bytes(String text) {
        return text.getBytes(StandardCharsets.UTF_8);
    }

    /** A process whose clock and threads the row leads. */
    private static final class Led extends Host {
        final Deque<Runnable> jobs = new ArrayDeque<>();
        private final Row row;
        private final long session;

        Led(Row row, long session) {
            this.row = row;
            this.session = session;
        }

        @Override
        public long nanoTime() {
            return row.clock;
        }

        @Override
        public void sleep(long millis) {
            row.pass(millis * 1_000_000);
        }

        @Override
        public long randomBits(int bits) {
            return session;
        }

        @Override
        public void startThreads(int threads, Runnable looks) {}

        @Override
        public void execute(Job job, String request, Runnable act) {
            jobs.add(act);
        }

        @Override
        public void shutDown() throws InterruptedException {
            row.isDone.await();
        }

        @Override
        public void warn(String text, String request, Throwable thrown) {}

        @Override
        public void warnBroken(String text, boolean isDropped) {}
    }

    /** One request in memory. */
    private static class Memory implements Store {
        final List<Entry> entries = new ArrayList<>();
        final Map<Integer, byte[]> payloads = new HashMap<>();
        private final Map<Long, Long> beats = new HashMap<>();
        private final Map<Integer, Timer> timers = new HashMap<>();
        private final Row row;
        Opened opened;
        private boolean isClosed;
        private int changes;

        Memory(Row row) {
            this.row = row;
        }

        @Override
        public Opened open(String name, String plan) {
            opened = new Opened(name, plan, 1);
            changes++;
            return opened;
        }

        @Override
        public Opened find(String name) {
            return opened;
        }

        @Override
        public List<Entry> append(Put put) {
            if (entries.size() > put.at()) {
                return new ArrayList<>(entries.subList(put.at(), entries.size()));
            }
            entries.addAll(put.entries());
            payloads.putAll(put.payloads());
            isClosed &= !put.opens();
            changes++;
            return null;
        }

        @Override
        public List<Entry> read(String name, long number, int at) {
            return new ArrayList<>(entries.subList(at, entries.size()));
        }

        @Override
        public byte[] payload(String name, long number, int place) {
            return payloads.get(place);
        }

        @Override
        public News news(Object mark) {
            boolean isTold = mark == null ? !isClosed : changes > (Integer) mark;
            return new News(isTold ? Collections.singletonMap(opened.name(), isClosed ? -1 : entries.size()) : Collections.emptyMap(), changes);
        }

        @Override
        public void awaitChange(long millis) {}

        @Override
        public boolean end(String name, long number, int at) {
            boolean closes = !isClosed && entries.size() == at;
            isClosed |= closes;
            if (closes) {
                timers.clear();
            }
            return closes;
        }

        @Override
        public void beat(long session) {
            beats.merge(session, 1L, Long::sum);
        }

        @Override
        public Map<Long, Long> beats() {
            return new HashMap<>(beats);
        }

        @Override
        public void dropBeat(long session) {
            beats.remove(session);
        }

        @Override
        public void nameSession(long session, String name) {}

        @Override
        public double now() {
            return row.clock / 1e9;
        }

        @Override
        public void setTimer(Timer timer) {
            timers.put(timer.stage(), timer);
        }

        @Override
        public List<Timer> dueTimers(double now) {
            return timers.values().stream().filter(timer -> timer.due() <= now).collect(Collectors.toList());
        }

        @Override
        public void dropTimer(Timer timer) {
            timers.remove(timer.stage());
        }

        @Override
        public void close() {}
    }

    /** A move that was made, and what came of it. */
    private static final class Move {
        final Map<Told, List<String>> told = new EnumMap<>(Told.class);
        private final String line;

        Move(String line) {
            this.line = line;
        }

        /** As a row has it. */
        List<String> lines() {
            List<String> lines = new ArrayList<>(Collections.singletonList(line));
            told.forEach((kind, all) -> all.forEach(it -> lines.add("  " + kind.name().toLowerCase(Locale.ROOT) + (it.isEmpty() ? "" : ": " + it))));
            return lines;
        }
    }

    /** A row that is played. */
    private static final class Row {
        final CountDownLatch isDone = new CountDownLatch(1);
        private final List<String> given;
        private final List<String> names = new ArrayList<>();
        private final Memory memory = new Memory(this);
        private final Map<String, RowView> others = new HashMap<>();
        private final List<Move> moves = new ArrayList<>();
        private final Led host = new Led(this, OWN);
        /** The functions that run, the last one first; and how many have ended. */
        private final Deque<String> running = new ArrayDeque<>();
        private int ended;
        /** What comes of the next puts; and until when the store is silent, say, or how long beats take. */
        private final Deque<String> puts = new ArrayDeque<>();
        private final Map<String, Long> until = new HashMap<>();
        private boolean isDropped, isOver;
        private int at, threads = 1;
        private List<String> known = Arrays.asList("f", "g", "h");
        private StoreService service;
        private StoredRequest request;
        private Thread stops;
        long clock;

        Row(List<String> lines) {
            given = lines.stream().filter(line -> !line.startsWith("  ")).collect(Collectors.toList());
        }

        /** Plays all lines, and gives the moves with what came of each. */
        List<String> playAll() throws Exception {
            playHead();
            Functions functions = new Functions();
            known.forEach(name -> functions.byName(name, 1, (args, named) -> call(name, args)));
            Store asked = (Store) Proxy.newProxyInstance(Store.class.getClassLoader(), new Class<?>[] {Store.class},
                    (proxy, method, args) -> answer(method, args));
            service = StoreService.builder(asked, functions).threads(threads).lease(LEASE, TimeUnit.NANOSECONDS).takesAll(true).host(host).build();
            request = service.open("r");
            play();
            isDone.countDown();
            if (stops == null) {
                service.close();
            } else {
                stops.join();
            }
            return moves.stream().flatMap(move -> move.lines().stream()).collect(Collectors.toList());
        }

        /** Plays what stands before the process begins. */
        private void playHead() {
            boolean isRequest = false;
            List<String> plan = new ArrayList<>(), before = new ArrayList<>();
            for (; !given.get(at).startsWith("> ") && !given.get(at).startsWith("store: "); at++) {
                String line = given.get(at);
                if (line.startsWith("threads ")) {
                    threads = Integer.parseInt(line.substring(8));
                } else if (line.startsWith("knows ")) {
                    known = Arrays.asList(line.substring(6).split(" "));
                } else if (line.equals("request")) {
                    isRequest = true;
                } else {
                    (line.contains(": ") ? before : plan).add(line);
                }
            }
            List<Object> stages = new ArrayList<>();
            for (String line : isRequest ? Collections.<String>emptyList() : plan) {
                StageLine read = new StageLine(line);
                read.spec.put("form", read.form.text);
                read.spec.put("of", Arrays.stream(read.of).boxed().collect(Collectors.toList()));
                names.add(read.name);
                stages.add(read.spec);
            }
            memory.open("r", StoredPlan.text(isRequest ? "" : "row", stages, Collections.emptyMap()));
            if (isRequest) {
                plan.forEach(line -> putOther("D: attach " + line));
            }
            before.forEach(this::putOther);
        }

        /** A line that says what a stage is. */
        private final class StageLine {
            final String name;
            final Form form;
            final int[] of;
            final Map<String, Object> spec = new LinkedHashMap<>();

            StageLine(String line) {
                List<String> words = new ArrayList<>(Arrays.asList(line.split(" ")));
                name = words.get(0);
                form = FORMS.get(words.get(2));
                int into = words.indexOf("into");
                spec.put("name", name);
                if (into >= 0) {
                    spec.put("to", number(words.get(into + 1)));
                }
                List<String> rest = words.subList(3, into < 0 ? words.size() : into);
                of = rest.stream().filter(names::contains).mapToInt(this::sourceNumber).toArray();
                if (form == Form.EXCEPTIONALLY) {
                    spec.put("again", of[0]);
                } else if (form.calls) {
                    spec.put("fn", rest.get(rest.size() - 1));
                    spec.put("version", 1);
                }
            }

            private int sourceNumber(String source) {
                return number(source);
            }
        }

        private int number(String name) {
            int number = names.indexOf(name);
            if (number < 0) {
                throw new AssertionError("there is no stage " + name);
            }
            return number;
        }

        /** Goes through the lines, until one ends the function that was called last; how it ends, or null. */
        private String[] play() {
            while (at < given.size()) {
                String line = given.get(at++);
                if (line.startsWith("store: ")) {
                    prepare(line.substring(7));
                } else if (line.startsWith("> ")) {
                    moves.add(new Move(line));
                    String[] words = line.substring(2).split(" ");
                    if (words.length > 2 && (words[1].equals("gives") || words[1].equals("throws"))) {
                        is(line + ": " + running.peek(), line + ": " + words[0]);
                        ended++;
                        return words;
                    }
                    move(words);
                    look();
                } else {
                    putOther(line);
                }
            }
            isOver = true;
            return null;
        }

        private void tell(Told kind, String said) {
            if (!isOver) {
                moves.get(moves.size() - 1).told.computeIfAbsent(kind, it -> new ArrayList<>()).add(said);
            }
        }

        // The process.

        /** Lets the process look what is new, and work until nothing is left to do. */
        private void look() {
            int before;
            do {
                before = ended;
                if (!service.isStopped()) {
                    try {
                        service.runRound();
                    } catch (StoreException silent) {
                        // It looks again later.
                    }
                }
                while (!host.jobs.isEmpty() && running.size() < Math.max(threads, 1)) {
                    host.jobs.poll().run();
                }
            } while (ended != before);
        }

        void pass(long nanos) {
            clock += nanos;
            memory.beat(OTHERS.get("B"));
        }

        private Object call(String name, List<Object> args) {
            if (isOver) {
                return null;
            }
            tell(Told.CALLS, name + "(" + args.stream().map(DecisionsTest::valueText).collect(Collectors.joining(", ")) + ")");
            running.push(name);
            look();
            String[] end = play();
            running.pop();
            if (end != null && end[1].equals("throws")) {
                throw new IllegalStateException(end[2]);
            }
            return end == null ? null : Json.read(bytes(end[2]));
        }

        private void move(String[] words) {
            if (words[0].equals("stops")) {
                stops = new Thread(service::close);
                stops.setDaemon(true);
                stops.start();
                while (!service.isStopped()) {
                    Thread.onSpinWait();
                }
            } else if (words[0].equals("waits")) {
                request.stage(number(words[2])).future.whenComplete((value, fault) -> tell(Told.SHOWS, words[2] + " " + endText(value, fault)));
            } else if (words[0].equals("stands")) {
                pass(Long.parseLong(words[2]) * SECOND);
            } else if (words[words.length - 1].equals("pass")) {
                int line = at;
                for (long end = clock + Long.parseLong(words[0]) * SECOND; clock < end && at == line;) {
                    pass(LOOKS);
                    look();
                }
            } else if (!words[0].equals("looks")) {
                tell(Told.TOLD, answerOf(() -> act(words)));
            }
        }

        private static String answerOf(Supplier<Object> act) {
            try {
                return String.valueOf(act.get());
            } catch (StoreException.Unknown silent) {
                return "unknown";
            } catch (StoreException.Gone gone) {
                return "gone";
            } catch (StoreException refused) {
                return "refused";
            }
        }

        private Object act(String[] words) {
            StoredStage stage = request.stage(number(words[0].equals("attach") ? words[4] : words[1]));
            switch (words[0]) {
                case "attach":
                    stage.then(words[5]);
                    names.add(words[1]);
                    return "done";
                case "limit":
                    long seconds = Long.parseLong(words[2]);
                    if (words.length > 4) {
                        stage.completeOnTimeout(Json.read(bytes(words[5])), seconds, TimeUnit.SECONDS);
                    } else {
                        stage.orTimeout(seconds, TimeUnit.SECONDS);
                    }
                    return "done";
                case "complete":
                    return stage.complete(Json.read(bytes(words[2])));
                case "fail":
                    return stage.fail(new IllegalStateException(words[2]));
                case "cancel":
                    return stage.cancel();
                case "abandon":
                    return stage.abandon();
                default:
                    throw new AssertionError(String.join(" ", words) + " is no move");
            }
        }

        // The store.

        private void prepare(String said) {
            String[] words = said.split(" ");
            int last = words.length - 1;
            if (said.equals("dropped")) {
                isDropped = true;
            } else if (words[last].equals("times")) {
                String play = String.join(" ", Arrays.copyOf(words, last - 1));
                puts.addAll(Collections.nCopies(Integer.parseInt(words[last - 1]), play));
            } else if (words[last].equals("s") && !words[0].equals("unanswered")) {
                String what = String.join(" ", Arrays.copyOf(words, last - 1));
                until.put(what, Long.parseLong(words[last - 1]) * SECOND + (what.equals("beats take") ? 0 : clock));
            } else {
                puts.add(said);
            }
        }

        private boolean isNow(String what) {
            return !isOver && clock < until.getOrDefault(what, 0L);
        }

        /** What the store answers to a call of the process's. */
        private Object answer(Method method, Object[] args) throws Throwable {
            String call = method.getName();
            if (isNow("silent") || call.equals("payload") && isNow("payloads silent")) {
                throw silent();
            }
            if (isDropped && Arrays.asList("append", "read", "payload", "end").contains(call)) {
                throw new StoreException.Gone("r");
            }
            if (Arrays.asList("append", "beat").contains(call) && isNow("takes nothing")) {
                throw new StoreException("the row says so");
            }
            if (isDropped && call.equals("news")) {
                return new Store.News(Collections.emptyMap(), args[0]);
            }
            if (call.equals("append")) {
                return append((Store.Put) args[0]);
            }
            if (call.equals("beats") && !isOver && until.containsKey("beats take")) {
                pass(until.get("beats take"));
            }
            try {
                Object answer = method.invoke(memory, args);
                if (call.equals("end") && (Boolean) answer) {
                    tell(Told.CLOSES, "");
                }
                return answer;
            } catch (InvocationTargetException thrown) {
                throw thrown.getCause();
            }
        }

        private List<Store.Entry> append(Store.Put put) {
            String play = puts.isEmpty() ? "" : puts.poll();
            if (play.equals("lost")) {
                throw silent();
            }
            if (play.equals("refuses")) {
                throw new StoreException("the row says so");
            }
            if (play.startsWith("first ")) {
                putOther(play.substring(6));
            }
            List<Store.Entry> stands = memory.append(put);
            if (stands == null) {
                List<String> words = new ArrayList<>();
                for (int k = 0; k < put.entries().size(); k++) {
                    words.add(wordText(put.entries().get(k).word(), put.payloads().get(put.at() + 1 + k)));
                }
                tell(Told.PUTS, String.join(", ", words));
            }
            if (play.startsWith("unanswered")) {
                if (play.contains(" and ")) {
                    prepare(play.substring(play.indexOf(" and ") + 5));
                }
                throw silent();
            }
            return stands;
        }

        /** A word of the process's, as the row tells it. */
        private String wordText(long word, byte[] payload) {
            String name = Words.kind(word) == Words.ATTACH ? "" : " " + names.get(Words.stage(word));
            String value = payload == null ? "null" : new String(payload, StandardCharsets.UTF_8);
            switch (Words.kind(word)) {
                case Words.CLAIM:
                    return "claim" + name;
                case Words.CANCEL:
                    return "cancel" + name;
                case Words.FAIL_AS:
                    return "time out" + name;
                case Words.ATTACH:
                    return "attach";
                case Words.FAIL:
                    return "fail" + name + " " + errorText(RemoteException.fromMap(Json.read(payload)));
                case Words.COMPLETE:
                    return "complete" + name + " " + value;
                default:
                    return "finish" + name + (Words.isThrowing(word) ? " throws " + errorText(RemoteException.fromMap(Json.read(payload))) : " " + value);
            }
        }

        // Other processes.

        /** Puts a word of another process's. */
        private void putOther(String line) {
            String who = line.substring(0, line.indexOf(": ")), said = line.substring(line.indexOf(": ") + 2);
            if (said.equals("close")) {
                memory.end("r", 1, memory.entries.size());
                return;
            }
            RowView view = others.computeIfAbsent(who, it -> {
                memory.beat(OTHERS.get(who));
                RowView made = new RowView(memory, memory.opened, OTHERS.get(who), new Led(this, OTHERS.get(who)));
                made.freeWith(this);
                return made;
            });
            view.catchUp();
            RowView.WantedWord wanted = otherWord(view, said.split(" "), said);
            view.act(it -> Collections.singletonList(wanted));
        }

        private RowView.WantedWord otherWord(RowView view, String[] words, String said) {
            if (words[0].equals("attach")) {
                StageLine read = new StageLine(said.substring(7));
                names.add(read.name);
                int first = read.of.length > 0 ? read.of[0] : 0, second = read.of.length > 1 ? read.of[1] : 0;
                long word = Words.attach(0, read.form, read.of.length, first, second, read.form.calls ? view.stageCount() : 0);
                return new RowView.WantedWord(word, Json.write(read.spec));
            }
            int stage = number(words[1]);
            byte[] payload = words.length < 3 || words[2].equals("null") ? null : bytes(words[2]);
            switch (words[0] + (words.length > 3 ? " " + words[2] : "")) {
                case "claim":
                    return new RowView.WantedWord(Words.claim(0, stage), null);
                case "cancel":
                    return new RowView.WantedWord(Words.cancel(0, stage), null);
                case "complete":
                    return new RowView.WantedWord(Words.complete(0, stage, Words.NIL), payload);
                case "fail":
                    return new RowView.WantedWord(Words.fail(0, stage, 0), Json.write(new RemoteException(words[2], "the row says so").toMap()));
                case "finish":
                    return view.finishWord(RowView.Finish.withValue(stage, payload));
                case "finish without":
                    return new RowView.WantedWord(Words.finish(0, stage, view.wordCount() + 1), null);
                case "finish into":
                    byte[] link = Json.write(Collections.singletonMap("stage", number(words[5])));
                    return view.finishWord(RowView.Finish.withLink(stage, link, number(words[3])));
                default:
                    throw new AssertionError(said + " is no word");
            }
        }
    }
}
