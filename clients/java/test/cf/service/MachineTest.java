package cf.service;

import static cf.service.Checks.is;
import static cf.service.Checks.thrown;

import cf.internal.Form;
import cf.internal.Layout;
import cf.internal.Native;
import cf.internal.Words;
import java.util.ArrayList;
import java.util.Arrays;
import java.util.List;
import java.util.concurrent.ExecutorService;
import java.util.concurrent.Executors;
import java.util.concurrent.Future;
import java.util.concurrent.TimeUnit;

/** Machines and their cores: cores used again, attaches that fail, words, and numbers that would read past an array's end. */
final class MachineTest {
    private static final Service SERVICE = new Service(Runnable::run);
    private static final int WHO = Request.FIRST_THREAD;

    private MachineTest() {}

    private static long source() {
        return Words.attach(WHO, Form.SOURCE, 0, 0, 0, 0);
    }

    /** A core that was given back has no mark of the ledger before: no time, no event, nothing of whose function is whose. */
    static void usedAgain() throws Exception {
        Flow flow = new Flow("again");
        Flow.Step<Integer> first = flow.promise();
        Machine one = new Machine(flow.plan(), 8);
        one.attach(Words.attach(WHO, Form.APPLY, 1, 0, 0, 1), Machine.BY_EXECUTOR, WHO);
        one.apply(Words.complete(WHO, 0, 7), WHO);
        is(one.claimedCount() + " " + one.readyCount() + " " + one.readyStage(0) + " " + one.settledCount() + " " + one.settledStage(0) + " "
                + one.settledKind(0) + " " + one.isWrapped(0) + " " + one.settledNumber(0), "0 1 1 1 0 " + Layout.VALUE + " false 7");
        is(one.events(), 2);
        one.giveBackCore(null);
        long began = Native.ticks();
        Machine two = new Machine(flow.plan(), 8);
        two.attach(Words.attach(WHO, Form.APPLY, 1, 0, 0, 1), Machine.HERE, WHO);
        two.apply(Words.complete(WHO, 0, 7), WHO);
        is(two.claimedCount() + " " + two.readyCount() + " " + two.claimedStage(0) + " " + two.argumentsKind(0) + " " + two.firstArgument(0), "1 0 1 "
                + Layout.ONE + " 7");
        two.finish(1, false, 8, WHO);
        is(two.answer() + " " + two.settledCount() + " " + two.settledNumber(0), Layout.WON + " 1 8");
        long[] kept = two.wordsAndMoments();
        is(two.events(), 4);
        is(kept.length, 4 + 3);
        is(kept[4] >>> 8 >= began && kept[5] >= kept[4] && kept[6] >>> 8 >= kept[5] >>> 8, true);
        is((kept[4] & 0xff) + " " + (kept[5] & 0xff) + " " + (kept[6] & 0xff), "1 2 1");
        is(Words.kindName(kept[0]) + " " + Words.kindName(kept[1]) + " " + Words.kindName(kept[2]), "attach complete claim");
        two.giveBackCore(null);
        // One that goes on has the lanes of before.
        one.apply(Words.claim(WHO, 1), WHO);
        is(one.answer() + " " + one.claimedCount() + " " + one.firstArgument(0) + " " + one.settledCount(), Layout.GRANTED + " 1 7 0");
        one.giveBackCore(null);
        // The same by requests: the executor's functions stay its own.
        ExecutorService pool = Executors.newSingleThreadExecutor(run -> new Thread(run, "pool"));
        Service pooled = new Service(pool);
        for (int round = 0; round < 20; round++) {
            boolean async = round % 2 == 1;
            try (Request request = pooled.start(flow)) {
                Stage<Integer> given = request.stage(first);
                List<Stage<String>> names = new ArrayList<>();
                for (int k = 0; k < 70; k++) {
                    names.add(async ? given.thenApplyAsync(x -> Thread.currentThread().getName())
                            : given.thenApply(x -> Thread.currentThread().getName()));
                }
                given.complete(1);
                for (Stage<String> name : names) {
                    is(name.get(20, TimeUnit.SECONDS), async ? "pool" : "main");
                }
                is(request.history().events(), 1 + 3 * 70);
            }
        }
        pool.shutdown();
    }

    /** What a request's last finish has brought isn't taken for the words of the core that it has again. */
    static void wordsBrought() {
        Flow flow = new Flow("few");
        Flow.Step<Integer> first = flow.promise(), second = first.thenApply(x -> x + 1);
        Request one = SERVICE.start(flow, 1);
        String report = one.history().report();
        one.close();
        try (Request other = SERVICE.start(flow)) {
            for (int k = 0; k < 5; k++) {
                other.promise();
            }
        }
        is(one.stage(second).join(), 2);
        is(one.history().report(), report);
        is(one.history().events(), 3);
    }

    /** A request of one call is opened by whoever calls its function, and has the moment at which the call came. */
    static void oneCall() {
        List<Runnable> tasks = new ArrayList<>();
        Stage<Integer> stage = new Service(tasks::add).supplyAsync(() -> 5);
        long came = Native.ticks();
        tasks.get(0).run();
        is(stage.join(), 5);
        long[] kept = stage.request().machine.wordsAndMoments();
        is(kept.length, 3 + 3);
        is(Words.kindName(kept[0]) + " " + Words.kindName(kept[1]) + " " + Words.kindName(kept[2]), "attach claim finish");
        is(kept[3] >>> 8 <= came && kept[4] >>> 8 >= came && kept[5] >>> 8 >= kept[4] >>> 8, true);
        is(stage.request().history().report(), "attached 0\ngranted none\nwon\nstage 0 value 0\n");
        // Where its opening is refused, it is opened by the next call.
        Machine machine = new Machine(Words.attach(WHO, Form.SUPPLY, 0, 0, 0, 0));
        thrown(AssertionError.class, () -> machine.apply(-1, WHO));
        machine.apply(Words.claim(WHO, 0), WHO);
        is(machine.answer() + " " + machine.claimedCount() + " " + machine.events(), Layout.GRANTED + " 1 2");
        machine.finish(0, false, 3, WHO);
        is(machine.answer() + " " + machine.settledCount() + " " + machine.isOver(), Layout.WON + " 1 true");
        machine.giveBackCore(null);
    }

    /** Two requests never have one core: not where one is closed twice, nor where several threads open and close them. */
    static void oneCoreEach() throws Exception {
        Flow flow = new Flow("each");
        Flow.Step<Object> first = flow.promise(), second = first.thenApply(x -> x + "!");
        Request done = SERVICE.start(flow);
        done.close();
        done.close();
        Request a = SERVICE.start(flow), b = SERVICE.start(flow);
        Stage<Object> x = a.stage(first), y = b.stage(first);
        x.complete("x");
        is(y.isDone(), false);
        y.complete("y");
        is(a.stage(second).join() + "" + b.stage(second).join(), "x!y!");
        is(a.history().report() + b.history().events(), "true\ngranted one 0\nwon\nstage 0 value 0\nstage 1 value 1\n3");
        ExecutorService pool = Executors.newFixedThreadPool(4);
        List<Future<?>> ends = new ArrayList<>();
        for (int t = 0; t < 4; t++) {
            int who = t;
            ends.add(pool.submit(() -> {
                for (int k = 0; k < 500; k++) {
                    try (Request one = SERVICE.start(flow); Request two = SERVICE.start(flow, who + "b" + k)) {
                        Stage<Object> given = one.stage(first);
                        Thread.yield();
                        is(given.complete(who + "a" + k), true);
                        is(one.stage(second).join() + "" + two.stage(second).join(), who + "a" + k + "!" + who + "b" + k + "!");
                    }
                }
            }));
        }
        for (Future<?> end : ends) {
            end.get(60, TimeUnit.SECONDS);
        }
        pool.shutdown();
    }

    /** What an attach that failed has said of its stage isn't true of the next one of that number. */
    static void failedAttach() {
        Request[] request = new Request[1];
        ExecutorService pool = Executors.newSingleThreadExecutor(run -> new Thread(run, "pool"));
        request[0] = new Service(pool).request("nearly full");
        Stage<Integer> first = request[0].promise();
        while (request[0].history().stages() < 4095) {
            request[0].promise();
        }
        thrown(RequestFullException.class, () -> first.thenCompose(x -> first));
        Stage<String> async = first.thenApplyAsync(x -> Thread.currentThread().getName());
        first.complete(1);
        is(async.orTimeout(20, TimeUnit.SECONDS).join(), "pool");
        pool.shutdown();
    }

    /** A word is refused in the midst of those that wait, as where memory is. The next call does it, and those behind it, each in its lane. */
    static void refusedWords() {
        Machine.Plan plan = new Flow("refused").plan();
        Machine.Core core = Machine.Core.reuseOrCreate(plan.pool);
        is(plan.pool.put(core, 0), true);
        Machine machine = new Machine(plan, 8);
        machine.attachLater(source(), Machine.HERE);
        machine.attachLater(Words.attach(WHO, Form.APPLY, 1, 1, 0, 2), Machine.HERE);
        machine.attachLater(Words.attach(WHO, Form.APPLY, 1, 0, 0, 3), Machine.BY_EXECUTOR);
        machine.attachLater(Words.attach(WHO, Form.APPLY, 1, 0, 0, 4), Machine.HERE);
        thrown(AssertionError.class, machine::flush);
        is(machine.events(), 4);
        // The source of the second one, which wasn't there.
        is(machine.apply(core.address, 0, source(), Machine.HERE, Machine.NOBODY), Layout.OK);
        machine.apply(Words.complete(WHO, 0, 7), WHO);
        is(machine.readyCount() + " " + machine.readyStage(0) + " " + machine.claimedCount() + " " + machine.claimedStage(0), "1 3 1 4");
        is(machine.events(), 7);
        machine.giveBackCore(null);
    }

    /** A history tells both causes, of which requests have but the first, with their codes. */
    static void failedAs() {
        Machine machine = new Machine(null, 8);
        machine.attachLater(source(), Machine.HERE);
        machine.attachLater(Words.attach(WHO, Form.HANDLE, 1, 0, 0, 1), Machine.HERE);
        machine.attachLater(source(), Machine.HERE);
        machine.attachLater(source(), Machine.HERE);
        for (long word : new long[] {Words.failAs(WHO, 0, Words.BAD_ANSWER, -1), Words.claim(WHO, 1),
            Words.failAs(WHO, 2, Words.TIMED_OUT, 0), Words.failAs(WHO, 2, Words.BAD_ANSWER, 7)}) {
            machine.apply(word, Machine.NOBODY);
        }
        machine.setDeadline(3, 9, false, 8);
        machine.passTimeTo(9, Machine.NOBODY);
        is(machine.settledCount() + " " + machine.settledKind(0) + " " + machine.settledNumber(0), "1 " + Layout.TIMED_OUT + " 8");
        String[] threads = {"main"};
        History history = new History("causes", null, machine, new String[4], new Object[0], new Throwable[0], new java.util.BitSet(), threads, null);
        is(history.script(), "{\"cf\":3,\"room\":4,\"stages\":[],\"steps\":[[\"attach\",{\"form\":\"source\"}],"
                + "[\"attach\",{\"form\":\"handle\",\"of\":[0],\"fn\":{\"const\":1}}],[\"attach\",{\"form\":\"source\"}],[\"attach\",{\"form\":\"source\"}],"
                + "[\"failAs\",0,\"badanswer\",4294967295],[\"claim\",3,1],[\"failAs\",2,\"timeout\"],[\"failAs\",2,\"badanswer\",7],"
                + "[\"failAs\",3,\"timeout\",8]]}");
        is(history.report(), "attached 0\nattached 1\nattached 2\nattached 3\ntrue\ngranted got fault badanswer 4294967295 raw\ntrue\nfalse\ntrue\n"
                + "stage 0 fault badanswer 4294967295 raw\nstage 1 pending\nstage 2 fault timeout raw\nstage 3 fault timeout 8 raw\n");
        String said = history.toString();
        is(said.contains("main fails 0 source with a bad answer, code 4294967295\n"), true);
        is(said.contains("0 source ends: a bad answer, code 4294967295\n"), true);
        is(said.contains("main claims 1 handle and calls it with a bad answer, code 4294967295\n"), true);
        is(said.contains("main times out 2 source\n") && said.contains("2 source ends: timed out\n"), true);
        is(said.contains("main fails 2 source with a bad answer, code 7: too late\n"), true);
        is(said.contains("clock times out 3 source, code 8\n") && said.contains("3 source ends: timed out, code 8\n"), true);
        machine.giveBackCore(null);
    }

    /** Numbers that are told beside an array or a place don't make the library read past them. */
    static void huge() {
        int[][] wrong = {{0}, {0, -1}, {0, -1, 1}, {0, -1, -1}, {0, -1, Integer.MAX_VALUE}, {0, -1, Integer.MIN_VALUE}, {3, 0, 5000, 0},
            {0, -1, 0, 3, 0, 1}, {16, -1, 3, 0, 0}, {Integer.MAX_VALUE, Integer.MIN_VALUE, 0}};
        for (int[] rows : wrong) {
            is(Native.plan(rows) < 0, true);
        }
        int[] wide = new int[3 + 5000];
        wide[0] = Form.ALL_OF.ordinal();
        wide[1] = -1;
        wide[2] = 5000;
        is(Native.plan(wide) < 0, true);
        Machine machine = new Machine(null, 8);
        long core = Machine.create(true);
        for (int room : new int[] {-1, 4097, 65536 + 32, Integer.MAX_VALUE, Integer.MIN_VALUE}) {
            is(machine.open(core, 0, room, null, 0, null) != Layout.OK, true);
        }
        for (int n : new int[] {-1, 2, Integer.MAX_VALUE, Integer.MIN_VALUE}) {
            is(machine.open(core, 0, 8, new long[1], n, null) != Layout.OK, true);
            is(machine.open(core, 0, 8, null, n, null) != Layout.OK, true);
        }
        is(machine.open(core, 0, 8, new long[] {-1}, 1, null) != Layout.OK, true);
        is(machine.open(core, 0, 8, new long[] {source(), 5, 1}, 1, new long[0]), Layout.OK);
        for (int waiting : new int[] {-1, 65, Integer.MAX_VALUE, Integer.MIN_VALUE}) {
            is(machine.apply(core, waiting, source(), 0, WHO), 26);
        }
        for (int stage : new int[] {-1, 1, 4096, Integer.MAX_VALUE}) {
            is(machine.fetchOutcome(core, stage) != Layout.OK, true);
            is(machine.setDeadline(core, 0, stage, 5, false, 0) != Layout.OK, true);
            is(machine.finish(core, 0, stage, false, 0, WHO, true) != Layout.OK, true);
        }
        for (short[] of : new short[][] {{0, 1, 0}, {0, 0, -1}, {0, 4096, 0}, new short[5000]}) {
            is(machine.gather(core, 0, Form.ALL_OF.ordinal(), of, WHO) != Layout.OK, true);
        }
        for (int number : new int[] {-1, 64, Form.COMBINE.ordinal(), Integer.MAX_VALUE}) {
            is(machine.gather(core, 0, number, new short[3], WHO) != Layout.OK, true);
            is(machine.gather(core, number == 6 ? -1 : 0, Form.ALL_OF.ordinal(), new short[3], number) != Layout.OK, true);
        }
        is(machine.passTimeTo(core, 0, -1, Integer.MAX_VALUE), 0);
        is(machine.apply(core, 0, Words.complete(WHO, 0, 3), Integer.MAX_VALUE, Integer.MAX_VALUE), 34);
        is(machine.apply(core, 0, Words.complete(WHO, 0, 3), 0, WHO), 0);
        for (int n : new int[] {-1, 3, 100, Integer.MAX_VALUE}) {
            is(machine.words(core, new long[0], 0, n) != Layout.OK && machine.words(core, new long[200], 0, n) != Layout.OK, true);
        }
        is(machine.words(core, new long[100], 0, 2), Layout.OK);
        is(machine.words(core, new long[100], 2, 0) + machine.words(core, new long[1], 1, 1), Layout.OK);
        long supply = Words.attach(WHO, Form.SUPPLY, 0, 0, 0, 0);
        for (long word : new long[] {-1, Words.claim(WHO, 1), Words.claim(64, 0)}) {
            is(machine.openWith(core, word, 1, Words.claim(WHO, 0), WHO) != Layout.OK, true);
            is(machine.openWith(core, supply, 1, word, WHO) != Layout.OK, true);
        }
        is(machine.openWith(core, supply, Long.MIN_VALUE, supply, Integer.MAX_VALUE), Layout.OK);
        Machine.destroy(core);
        machine.giveBackCore(null);
    }

    private static Machine sources(Machine machine, int count) {
        for (int k = 0; k < count; k++) {
            machine.attachLater(source(), Machine.HERE);
        }
        return machine;
    }

    /** A core of many stages, or of many words, isn't kept for the next request. */
    static void largeCores() {
        for (int stages : new int[] {512, 513}) {
            Machine.Plan plan = new Flow("stages").plan();
            sources(new Machine(plan, 8), stages).giveBackCore(null);
            is(plan.pool.take(0) != null, stages == 512);
        }
        for (int late : new int[] {1000, 16 * 512}) {
            Machine.Plan plan = new Flow("words").plan();
            Machine machine = sources(new Machine(plan, 8), 1);
            for (int k = 0; k < late; k++) {
                machine.apply(Words.cancel(WHO, 0), WHO);
            }
            machine.giveBackCore(null);
            is(plan.pool.take(0) != null, late == 1000);
        }
    }

    /** A request that was closed and can't come again has its words all the same, and comes by the next call that can. */
    static void failsToComeAgain() {
        Machine machine = sources(new Machine(null, 8), 3);
        boolean[] fails = {true};
        machine.giveBackCore(() -> {
            if (fails[0]) {
                Checks.breaks();
            }
        });
        thrown(Checks.Broken.class, () -> machine.apply(Words.complete(WHO, 2, 7), WHO));
        is(machine.events() + " " + machine.wordsAndMoments().length, "3 4");
        fails[0] = false;
        machine.apply(Words.complete(WHO, 2, 7), WHO);
        is(machine.answer() + " " + machine.settledCount() + " " + machine.events(), "1 1 4");
        machine.giveBackCore(null);
    }

    /** Words that wait have the moment of the first of them. */
    static void moments() {
        Machine machine = sources(new Machine(null, 8), 1);
        long came = Native.ticks();
        sources(machine, 1).apply(Words.complete(WHO, 0, 7), WHO);
        long[] kept = machine.wordsAndMoments();
        is(kept.length, 3 + 2);
        is(kept[3] >>> 8 <= came && kept[4] >>> 8 >= came, true);
        is((kept[3] & 0xff) + " " + (kept[4] & 0xff), "2 1");
        machine.giveBackCore(null);
    }

    /** More events come at one moment than a number tells. Once all words are done again, they have their moments, and nothing is told again. */
    static void manyOfOneMoment() {
        Machine machine = sources(new Machine(null, 8), 300);
        short[] of = new short[300];
        for (int k = 0; k < of.length; k++) {
            of[k] = (short) k;
        }
        machine.gather(Form.ANY_OF, of, WHO);
        machine.apply(Words.fail(WHO, 0, 1), WHO);
        int told = machine.settledCount();
        while (machine.fetchMore(WHO)) {
            told += machine.settledCount();
        }
        is(told, 300);
        int events = machine.events();
        long[] kept = machine.wordsAndMoments();
        int sum = 0;
        for (int k = events; k < kept.length; k++) {
            sum += (int) kept[k] & 0xff;
            is(k == events || kept[k] >>> 8 >= kept[k - 1] >>> 8, true);
        }
        is(events + " " + sum, "600 600");
        machine.giveBackCore(null);
        machine.apply(Words.cancel(WHO, 1), WHO);
        is(machine.settledCount() + " " + machine.settledStage(0) + " " + machine.fetchMore(WHO), "1 1 false");
        long[] again = machine.wordsAndMoments();
        is(machine.events(), 601);
        is(again.length, kept.length + 2);
        is(Arrays.equals(Arrays.copyOfRange(again, 601, 601 + kept.length - 600), Arrays.copyOfRange(kept, 600, kept.length)), true);
        machine.giveBackCore(null);
    }

    /** One request of a call has a stage more of an executor. Another one's isn't such a stage, also once its words are done again. */
    static void lanesOfOneCall() {
        List<Runnable> tasks = new ArrayList<>();
        Service later = new Service(tasks::add);
        later.supplyAsync(() -> 1).thenApplyAsync(x -> x + 1);
        Stage<Integer> call = later.supplyAsync(() -> 5), behind = call.thenApply(x -> x + 1);
        call.request().close();
        tasks.get(1).run();
        is(behind.getNow(0), 6);
    }

    /** As many functions become ready at once as one crossing brings for this thread, or some more, and some for an executor. */
    static void manyOfBothLanes() {
        for (int here : new int[] {31, 32, 33, 64, 65, 66, 200, 0}) {
            List<Runnable> tasks = new ArrayList<>();
            Request request = new Service(tasks::add).request("both");
            Stage<Integer> source = request.promise();
            List<Stage<Integer>> behind = new ArrayList<>();
            int all = here + Math.min(here + 3, 70);
            for (int k = 0; k < all; k++) {
                int own = k;
                behind.add(k < here ? source.thenApply(x -> own) : source.thenApplyAsync(x -> own));
            }
            source.complete(1);
            is(tasks.size(), all - here);
            for (int k = 0; k < all; k++) {
                is(behind.get(k).getNow(-1), k < here ? k : -1);
            }
            tasks.forEach(Runnable::run);
            for (int k = 0; k < all; k++) {
                is(behind.get(k).getNow(-1), k);
            }
            request.close();
        }
    }
}
