import cf.service.RequestFullException;
import cf.store.Functions;
import cf.store.RemoteException;
import cf.store.Store;
import cf.store.StoreException;
import cf.store.StoreService;
import cf.store.StoredRequest;
import cf.store.StoredStage;
import java.io.FileOutputStream;
import java.io.IOException;
import java.io.OutputStream;
import java.io.UncheckedIOException;
import java.lang.reflect.InvocationTargetException;
import java.lang.reflect.Method;
import java.lang.reflect.Proxy;
import java.nio.charset.StandardCharsets;
import java.nio.file.Files;
import java.nio.file.Path;
import java.nio.file.Paths;
import java.util.ArrayList;
import java.util.Arrays;
import java.util.Collections;
import java.util.HashMap;
import java.util.HashSet;
import java.util.List;
import java.util.Map;
import java.util.Random;
import java.util.Set;
import java.util.concurrent.CancellationException;
import java.util.concurrent.ConcurrentHashMap;
import java.util.concurrent.ExecutionException;
import java.util.concurrent.ThreadLocalRandom;
import java.util.concurrent.TimeUnit;
import java.util.concurrent.TimeoutException;
import java.util.concurrent.atomic.AtomicInteger;
import java.util.function.Supplier;
import java.util.logging.Handler;
import java.util.logging.LogRecord;
import java.util.logging.Logger;
import java.util.stream.Collectors;
import java.util.stream.Stream;

/**
 * A worker of {@code conformance/stores/engines faults languages}: it works on the requests of a run with others, in Python and Rust, until it is told
 * to stop or is killed. Its functions are those of {@code languages_functions.py}. It is called with the address of the store, the run's folder and
 * a seed. What it means to do, what it is told and what it sees it writes to {@code log-java-PID} in the folder at once, before it goes on, so a log
 * outlives a kill. With SPOILT it is a worker that the judge has to find, as the head of {@code cf-store/examples/faults.rs} says.
 */
public final class Faults {
    private static final Logger LIBRARY = Logger.getLogger("cf.store");
    /** How many requests are worked on at a time, how many stages one has at most, more or less, and after how many seconds a call hangs. */
    private static final int WINDOW = 8, MOST = 16, HANG = 60;
    private static final long BELOW = 1L << 32;
    /** The functions of one value, as often as they are to be taken. */
    private static final String[] ONE = {"give", "next", "next", "list", "wait", "fail", "give", "list"};
    private static final List<String> PROMISES = Arrays.asList("promise", "alarm");
    private static final Set<String> PLAIN = new HashSet<>(Arrays.asList("promise", "alarm", "all of", "first of"));

    private final Path folder;
    private final Notes notes;
    private final StoreService service;
    private final String seed;
    private final Random chance;
    private final Map<Integer, Kept> kept = new HashMap<>();
    private final Set<Integer> done = new HashSet<>();
    private int count;

    private Faults(String address, Path folder, Notes notes, String seed) throws InterruptedException {
        this.folder = folder;
        this.notes = notes;
        this.seed = seed;
        chance = new Random(Long.parseLong(seed));
        service = StoreService.builder(notes.noted(Address.opened(address)), functions(notes)).threads(2)
                .lease(700, TimeUnit.MILLISECONDS).takesAll(true).build();
    }

    // The process's own log.

    private static final class Notes {
        final String spoilt = System.getenv("SPOILT");
        /** The numbers of requests. */
        final Map<String, Long> numbers = new ConcurrentHashMap<>();
        /** When the main thread went on last. */
        volatile long last = System.nanoTime();
        private final OutputStream log;
        private final AtomicInteger count = new AtomicInteger();
        /** Tokens of words that were put, and of which it isn't known whether they stand. */
        private final Set<Long> doubt = ConcurrentHashMap.newKeySet();

        Notes(Path folder, long process) throws IOException {
            log = new FileOutputStream(folder.resolve("log-java-" + process).toFile(), true);
        }

        void write(Object... said) {
            try {
                log.write((text(Arrays.asList(said)) + "\n").getBytes(StandardCharsets.UTF_8));
            } catch (IOException fault) {
                throw new UncheckedIOException(fault);
            }
        }

        /** Whether this is every second time, at which a spoilt worker does so. */
        boolean spoils(String how) {
            return how.equals(spoilt) && count.getAndIncrement() % 2 == 1;
        }

        /** The words of a row that this process put, and of which it is told that they stand. */
        private void told(String name, long number, int at, List<Store.Entry> entries) {
            numbers.put(name, number);
            for (int k = 0; k < entries.size(); k++) {
                Store.Entry entry = entries.get(k);
                if (doubt.remove(entry.token())) {
                    write("did", name, number, entry.token() >>> 23, name, at + 1 + k + (spoils("puts") ? 1000 : 0), entry.word(), null);
                }
            }
        }

        private List<Store.Entry> append(Store store, Store.Put put) {
            put.entries().forEach(it -> doubt.add(it.token()));
            List<Store.Entry> stands = store.append(put);
            Store.Entry own = put.entries().get(0);
            if (stands == null || stands.get(0).token() == own.token() && stands.get(0).word() == own.word()) {
                told(put.request(), put.number(), put.at(), put.entries());
            } else {
                put.entries().forEach(it -> doubt.remove(it.token()));
                told(put.request(), put.number(), put.at(), stands);
            }
            return stands;
        }

        /** A store whose answers to puts are written down before anybody goes on with them. */
        @SuppressWarnings("unchecked")
        Store noted(Store store) {
            return (Store) Proxy.newProxyInstance(Store.class.getClassLoader(), new Class<?>[] {Store.class}, (proxy, method, args) -> {
                if (method.getName().equals("append")) {
                    return append(store, (Store.Put) args[0]);
                }
                Object answer = answer(store, method, args);
                if (method.getName().equals("read")) {
                    told((String) args[0], (Long) args[1], (Integer) args[2], (List<Store.Entry>) answer);
                }
                return answer;
            });
        }

        private static Object answer(Object on, Method method, Object[] args) throws Throwable {
            try {
                return method.invoke(on, args);
            } catch (InvocationTargetException fault) {
                throw fault.getCause();
            }
        }

        /** Tells what goes wrong in the service. */
        Handler handler() {
            return new Handler() {
                @Override
                public void publish(LogRecord record) {
                    Throwable thrown = record.getThrown();
                    String message = String.valueOf(record.getMessage());
                    boolean isWrong = thrown == null ? message.contains(", place ") || message.contains("isn't known")
                            : !(thrown instanceof StoreException.Unknown);
                    write(isWrong ? "error" : "warned", "", message + (thrown == null ? "" : ": " + thrown));
                }

                @Override
                public void flush() {
                    // Nothing is kept back.
                }

                @Override
                public void close() {
                    // The log ends with the process.
                }
            };
        }
    }

    /** A value as JSON. */
    private static String text(Object value) {
        if (value instanceof List) {
            return ((List<?>) value).stream().map(Faults::text).collect(Collectors.joining(",", "[", "]"));
        }
        if (value instanceof Map) {
            Stream<String> pairs = ((Map<?, ?>) value).entrySet().stream().map(it -> text(it.getKey()) + ":" + text(it.getValue()));
            return pairs.collect(Collectors.joining(",", "{", "}"));
        }
        if (!(value instanceof String)) {
            return String.valueOf(value);
        }
        StringBuilder text = new StringBuilder("\"");
        for (char it : ((String) value).toCharArray()) {
            text.append(it == '"' || it == '\\' ? "\\" + it : it < ' ' ? String.format("\\u%04x", (int) it) : String.valueOf(it));
        }
        return text.append('"').toString();
    }

    // The functions.

    private static long numberOf(String text) {
        long total = 2_166_136_261L;
        for (byte it : text.getBytes(StandardCharsets.UTF_8)) {
            total = (total ^ it & 0xff) * 16_777_619 % BELOW;
        }
        return total;
    }

    /** A number that tells values apart. */
    private static long numberOf(Object value) {
        long total = 0;
        if (value instanceof String) {
            return numberOf((String) value);
        } else if (value instanceof List) {
            total = 1;
            for (Object it : (List<?>) value) {
                total = (total * 31 + numberOf(it)) % BELOW;
            }
        } else if (value instanceof Map) {
            for (Map.Entry<?, ?> it : ((Map<?, ?>) value).entrySet()) {
                total = (total + numberOf((String) it.getKey()) * 31 + numberOf(it.getValue())) % BELOW;
            }
        } else if (value instanceof Boolean) {
            total = (Boolean) value ? 1 : 0;
        } else if (value != null) {
            total = (Long) value % BELOW;
        }
        return total;
    }

    /** What an exception is to others. */
    private static Object said(String kind, String text) {
        Map<String, Object> said = new HashMap<>();
        said.put("error", kind);
        said.put("text", text);
        return said;
    }

    private static Object said(Object fault) {
        return fault == null ? null : said(((RemoteException) fault).kind(), ((RemoteException) fault).text());
    }

    /** Says that a function runs, lets it take a while, and gives what it comes to. */
    private static Object called(Notes notes, String name, int version, List<Object> args, int most, Supplier<Object> result) throws Exception {
        for (int k = notes.spoils("twice") ? 2 : 1; k > 0; k--) {
            notes.write("run", name, version, args);
        }
        Thread.sleep(ThreadLocalRandom.current().nextInt(most));
        notes.write("ran", name, version);
        Object value = result.get();
        return notes.spoils("gives") ? "another" : value;
    }

    private static Functions functions(Notes notes) {
        Functions functions = new Functions();
        one(functions, notes, "give", 1, 3, it -> it);
        one(functions, notes, "next", 1, 3, it -> numberOf(it) + 1);
        one(functions, notes, "next", 2, 3, it -> numberOf(it) + 2);
        one(functions, notes, "list", 1, 3, it -> Arrays.asList(numberOf(it), Collections.singletonMap("as ü", it)));
        one(functions, notes, "wait", 1, 150, it -> Collections.singletonMap("waited", numberOf(it)));
        one(functions, notes, "fail", 1, 3, it -> {
            throw new RemoteException("ValueError", numberOf(it) + " fails");
        });
        functions.with("add", 1, (one, other) -> called(notes, "add", 1, Arrays.asList(one, other), 3, () -> (numberOf(one) * 31 + numberOf(other)) % BELOW));
        functions.with("told", 1, (value, fault) -> called(notes, "told", 1, Arrays.asList(value, said(fault)), 3, () -> {
            RemoteException thrown = (RemoteException) fault;
            return Arrays.asList(numberOf(value), thrown == null ? null : thrown.kind(), thrown == null ? null : thrown.text());
        }));
        return functions.with("rescue", 1, fault -> called(notes, "rescue", 1, Collections.singletonList(said(fault)), 3,
                () -> Arrays.asList(((RemoteException) fault).kind(), ((RemoteException) fault).text())));
    }

    private static void one(Functions functions, Notes notes, String name, int version, int most, java.util.function.Function<Object, Object> result) {
        functions.with(name, version, it -> called(notes, name, version, Collections.singletonList(it), most, () -> result.apply(it)));
    }

    // What a user does.

    /** A request that this process has for a while, with the stages that it has seen settled and those whose timers it has set. */
    private static final class Kept {
        final StoredRequest request;
        final Set<Integer> shown = new HashSet<>(), timed = new HashSet<>();

        Kept(StoredRequest request) {
            this.request = request;
        }
    }

    /** Something that is called of a stage, and whether it settled the stage, or null. */
    private interface Settling {
        Boolean of(StoredStage stage);
    }

    /** Whether the request of a number is a flow's. Processes in Python begin these, and others are begun by whoever comes first. */
    private static boolean isFlow(int number) {
        return number % 3 != 0;
    }

    /** A text that no other call has, here or elsewhere. */
    private String token() {
        return "java ü " + seed + "-" + ++count;
    }

    private <T> T one(List<T> of) {
        return of.get(chance.nextInt(of.size()));
    }

    /** The numbers that aren't finished, from the lowest on, so many at most: none once all are that were begun before the run was told to stop. */
    private List<Integer> active() throws IOException {
        Set<String> finished;
        try (Stream<Path> listed = Files.list(folder.resolve("done"))) {
            finished = listed.map(it -> it.getFileName().toString()).collect(Collectors.toSet());
        }
        Path stop = folder.resolve("stop");
        int last = Files.exists(stop) ? Integer.parseInt(new String(Files.readAllBytes(stop), StandardCharsets.US_ASCII)) : Integer.MAX_VALUE;
        List<Integer> active = new ArrayList<>();
        for (int number = 0; number < last && active.size() < WINDOW; number++) {
            if (!finished.contains(String.valueOf(number)) && !done.contains(number)) {
                active.add(number);
            }
        }
        return active;
    }

    /** The request of a number, or null if there is none and this process may not begin it. */
    private Kept opened(int number) {
        Kept known = kept.get(number);
        if (known != null) {
            return known;
        }
        String name = String.valueOf(number);
        StoredRequest request;
        try {
            request = service.open(name);
        } catch (StoreException.Gone none) {
            if (isFlow(number)) {
                return null;
            }
            request = service.request(name);
        }
        kept.put(number, new Kept(request));
        return kept.get(number);
    }

    private static List<StoredStage> stages(StoredRequest request) {
        List<StoredStage> stages = new ArrayList<>();
        for (StoredStage stage = request.stage(0); stage != null; stage = request.stage(stages.size())) {
            stages.add(stage);
        }
        return stages;
    }

    private long requestNumber(StoredRequest request) {
        return notes.numbers.getOrDefault(request.name(), 0L);
    }

    /** The stages that aren't settled. What the others have come to is written down. */
    private List<StoredStage> look(Kept known, List<StoredStage> stages) throws InterruptedException {
        List<StoredStage> open = new ArrayList<>();
        for (StoredStage stage : stages) {
            if (!stage.isDone()) {
                open.add(stage);
            } else if (known.shown.add(stage.number())) {
                notes.write("shown", known.request.name(), requestNumber(known.request), stage.number(), shown(stage));
            }
        }
        return open;
    }

    private List<Object> shown(StoredStage stage) throws InterruptedException {
        try {
            Object value = stage.get();
            return Arrays.asList("value", notes.spoils("shows") ? "another" : value);
        } catch (CancellationException cancelled) {
            return Collections.singletonList("cancelled");
        } catch (ExecutionException thrown) {
            Throwable cause = thrown.getCause();
            if (cause instanceof StoreException) {
                throw (StoreException) cause;
            }
            String text = cause.getMessage() == null ? "" : cause.getMessage();
            return Arrays.asList("error", cause instanceof RemoteException ? said(cause)
                    : said(cause instanceof TimeoutException ? "TimeoutError" : cause.getClass().getSimpleName(), text));
        }
    }

    /** Says what it is about to put, with a token; does it; and says what it was answered. */
    private void means(StoredRequest request, StoredStage stage, String token, Settling call) {
        notes.write("means", request.name(), requestNumber(request), stage.number(), token);
        Boolean told = call.of(stage);
        notes.write("answered", request.name(), requestNumber(request), stage.number(), token, told == null ? null : told != notes.spoils("answers"));
    }

    private void settle(StoredRequest request, StoredStage stage) {
        String token = token();
        if (chance.nextInt(5) > 0) {
            means(request, stage, token, it -> it.complete(Collections.singletonMap("token", token)));
        } else {
            means(request, stage, token, it -> it.fail(new RemoteException("ValueError", token)));
        }
    }

    private void setTimer(Kept known, StoredStage stage) {
        long micros = 50_000 + chance.nextInt(450_000);
        known.timed.add(stage.number());
        if (chance.nextBoolean()) {
            means(known.request, stage, TimeUnit.MICROSECONDS.toNanos(micros) / 1e9 + " s", it -> {
                it.orTimeout(micros, TimeUnit.MICROSECONDS);
                return null;
            });
        } else {
            String token = "timer " + token();
            means(known.request, stage, token, it -> {
                it.completeOnTimeout(Collections.singletonMap("token", token), micros, TimeUnit.MICROSECONDS);
                return null;
            });
        }
        notes.write("timer", known.request.name(), requestNumber(known.request), stage.number());
    }

    /** A stage more, with or without further tries. */
    private void attach(StoredRequest request, List<StoredStage> stages) {
        StoredStage made = stages.isEmpty() || chance.nextInt(10) < 2 ? request.supply(ONE[chance.nextInt(ONE.length)], Collections.singletonMap("token", token()))
                : attached(request, one(stages), one(stages), ONE[chance.nextInt(ONE.length)]);
        notes.write("attached", request.name(), requestNumber(request), made.number());
        if (!PLAIN.contains(made.name())) {
            notes.write("attached", request.name(), requestNumber(request), made.again(chance.nextInt(3)).number());
        }
    }

    private StoredStage attached(StoredRequest request, StoredStage one, StoredStage other, String function) {
        switch (chance.nextInt(9)) {
            case 0:
                return request.promise(chance.nextInt(3) == 0 ? "alarm" : "promise");
            case 1:
                return request.allOf(one, other, one);
            case 2:
                return request.anyOf(one, other);
            case 3:
                return one.combine(other, "add");
            case 4:
                return one.either(other, function);
            case 5:
                return one.handle("told");
            case 6:
                return one.recover("rescue");
            default:
                return one.then(function);
        }
    }

    private void step(int number) throws InterruptedException, IOException {
        Kept known = opened(number);
        if (known == null) {
            return;
        }
        StoredRequest request = known.request;
        List<StoredStage> stages = stages(request), open = look(known, stages), promises = new ArrayList<>();
        if (!stages.isEmpty() && open.isEmpty()) {
            settled(number, request, stages);
            return;
        }
        for (StoredStage stage : open) {
            String name = stage.name();
            if (name.equals("promise")) {
                promises.add(stage);
            } else if (name.equals("alarm") && !known.timed.contains(stage.number())) {
                setTimer(known, stage);
            }
        }
        int pick = chance.nextInt(100);
        if (stages.isEmpty() || pick < 20 && stages.size() < MOST) {
            attach(request, stages);
        } else if (pick < 60 && !promises.isEmpty()) {
            settle(request, one(promises));
        } else if (pick < 68) {
            setTimer(known, one(open));
        } else if (pick < 74) {
            StoredStage stage = one(open);
            boolean isCancelled = chance.nextInt(3) > 0 ? stage.cancel() : stage.abandon();
            notes.write("cancelled", request.name(), requestNumber(request), stage.number(), isCancelled);
        } else if (pick < 90) {
            kept.remove(number);
        }
    }

    /** All is settled: it is gone on with, or it is left to be. */
    private void settled(int number, StoredRequest request, List<StoredStage> stages) throws IOException {
        if (stages.size() < MOST && chance.nextBoolean()) {
            attach(request, stages);
            return;
        }
        if (!isFlow(number)) {
            request.end();
        }
        done.add(number);
        kept.remove(number);
        new FileOutputStream(folder.resolve("done/" + number).toFile()).close();
    }

    /** Settles the promises of a request, and closes it where nothing is left. */
    private void finish(int number) throws InterruptedException {
        Kept known = opened(number);
        if (known == null) {
            return;
        }
        List<StoredStage> open = look(known, stages(known.request));
        for (StoredStage stage : open) {
            if (PROMISES.contains(stage.name())) {
                settle(known.request, stage);
            }
        }
        if (open.isEmpty() && !isFlow(number)) {
            known.request.end();
        }
    }

    /** One thing that a user does to the request of a number. */
    private interface Doing {
        void to(int number) throws InterruptedException, IOException;
    }

    private void does(int number, Doing doing) throws InterruptedException, IOException {
        try {
            doing.to(number);
        } catch (StoreException.Unknown | RequestFullException told) {
            kept.remove(number);
        } catch (RuntimeException fault) {
            kept.remove(number);
            notes.write("error", String.valueOf(number), fault.toString());
        }
    }

    /** Works until all is finished that was begun, and then until all requests of the store are closed. */
    private void run() throws InterruptedException, IOException {
        for (List<Integer> active = active(); !active.isEmpty(); active = active()) {
            for (int k = 0; k < 3; k++) {
                does(one(active), this::step);
            }
            notes.last = System.nanoTime();
        }
        for (List<StoredRequest> open = open(); !open.isEmpty(); open = open()) {
            for (StoredRequest request : open) {
                does(Integer.parseInt(request.name()), this::finish);
            }
            notes.last = System.nanoTime();
            Thread.sleep(50);
        }
        service.close();
        notes.write("end");
    }

    private List<StoredRequest> open() throws InterruptedException {
        while (true) {
            try {
                return service.resume();
            } catch (StoreException.Unknown silent) {
                Thread.sleep(50);
            }
        }
    }

    // The process.

    /** Ends the process if its main thread doesn't go on, and tells what its threads do. */
    private static void watch(Notes notes, Path folder, long process) {
        try {
            while (System.nanoTime() - notes.last < TimeUnit.SECONDS.toNanos(HANG)) {
                Thread.sleep(1000);
            }
            StringBuilder told = new StringBuilder();
            Thread.getAllStackTraces().forEach((thread, stack) -> told.append(thread).append(' ').append(Arrays.toString(stack)).append('\n'));
            Files.write(folder.resolve("hang-" + process), told.toString().getBytes(StandardCharsets.UTF_8));
        } catch (InterruptedException | IOException fault) {
            fault.printStackTrace();
        }
        Runtime.getRuntime().halt(3);
    }

    /** Attaches one stage after another until it is killed, and writes a line to a file for each that it is told of. */
    private static void write(String address, String log) throws Exception {
        StoreService service = new StoreService(Address.opened(address), new Functions());
        try (OutputStream out = new FileOutputStream(log, true)) {
            for (int number = 0;; number++) {
                StoredRequest request = service.request("java " + number);
                for (int k = 0; k < 200; k++) {
                    request.promise("promise");
                    out.write("attached\n".getBytes(StandardCharsets.US_ASCII));
                }
            }
        }
    }

    /** Works until it is killed, or all is done. With {@code write}, an address and a file it only attaches stages, as {@code power.py} wants. */
    public static void main(String[] args) throws Exception {
        if (args[0].equals("write")) {
            write(args[1], args[2]);
        }
        Path folder = Paths.get(args[1]);
        long process = ProcessHandle.current().pid();
        Notes notes = new Notes(folder, process);
        LIBRARY.setUseParentHandlers(false);
        LIBRARY.addHandler(notes.handler());
        Thread watch = new Thread(() -> watch(notes, folder, process));
        watch.setDaemon(true);
        watch.start();
        new Faults(args[0], folder, notes, args[2]).run();
    }
}
