import static jdk.incubator.foreign.CLinker.C_CHAR;
import static jdk.incubator.foreign.CLinker.C_INT;
import static jdk.incubator.foreign.CLinker.C_LONG;
import static jdk.incubator.foreign.CLinker.C_POINTER;
import static jdk.incubator.foreign.CLinker.C_SHORT;

import java.lang.invoke.MethodHandle;
import java.lang.invoke.MethodType;
import java.nio.file.Path;
import java.util.Arrays;
import java.util.LinkedHashMap;
import java.util.Map;
import jdk.incubator.foreign.CLinker;
import jdk.incubator.foreign.FunctionDescriptor;
import jdk.incubator.foreign.MemoryAccess;
import jdk.incubator.foreign.MemoryAddress;
import jdk.incubator.foreign.MemoryLayout;
import jdk.incubator.foreign.MemorySegment;
import jdk.incubator.foreign.ResourceScope;
import jdk.incubator.foreign.SymbolLookup;

/**
 * A chain of 512 stages settled over the library for C, by the foreign functions of Java 17: bench/library/run builds and runs it, with the path of
 * libcf.so. Each stage takes cf_lowest_ready, cf_claim and cf_finish_with, or one call: cf_next, cf_sweep_next, cf_round with 16 tasks,
 * cf_ledger_step, cf_desk_next. A graph and a ledger are started again, a desk is opened anew, which isn't counted. The ways take their
 * rounds in turn. A line for each, as bench/library/steps.c prints them.
 */
public final class Steps {
    private static final int STAGES = 512;
    private static final int WARM = 2_000;
    private static final int ROUNDS = 2_000;
    private static final int TASKS = 16;
    private static final int NEWS = 4;
    private static final short LOG = 3 * STAGES;
    private static final byte ME = 0;
    private static final long ONE = 1L << 32 | 1;
    private static final int SOURCE = 0;
    private static final int APPLY = 3;

    private static final SymbolLookup LOADED = load();
    private static final MethodHandle BUILDER_NEW = call("cf_builder_new", C_POINTER, C_SHORT, C_SHORT);
    private static final MethodHandle BUILDER_STAGE = call("cf_builder_stage", C_POINTER, C_INT, C_POINTER, C_LONG, C_INT, C_POINTER);
    private static final MethodHandle BUILD = call("cf_build", C_POINTER);
    private static final MethodHandle GRAPH_NEW = call("cf_graph_new", C_POINTER, C_SHORT, C_POINTER);
    private static final MethodHandle RESTART = call("cf_restart", C_POINTER);
    /** A cf_value has 8 bytes, which C hands over as one number of 64 bits. */
    private static final MethodHandle COMPLETE = call("cf_complete", C_POINTER, C_SHORT, C_LONG, C_POINTER);
    private static final MethodHandle LOWEST_READY = call("cf_lowest_ready", C_POINTER, C_POINTER);
    private static final MethodHandle CLAIM = call("cf_claim", C_POINTER, C_CHAR, C_SHORT, C_POINTER);
    private static final MethodHandle FINISH_WITH = call("cf_finish_with", C_POINTER, C_CHAR, C_SHORT, C_POINTER, C_POINTER);
    private static final MethodHandle NEXT = call("cf_next", C_POINTER, C_CHAR, C_POINTER);
    private static final MethodHandle ROUND = call("cf_round", C_POINTER, C_CHAR, C_POINTER, C_LONG);
    private static final MethodHandle SWEEP_BEGIN = call("cf_sweep_begin", C_POINTER);
    private static final MethodHandle SWEEP_NEXT = call("cf_sweep_next", C_POINTER, C_POINTER);
    private static final MethodHandle SWEEP_END = call("cf_sweep_end", C_POINTER);
    private static final MethodHandle LEDGER_NEW = call("cf_ledger_new", C_POINTER, C_SHORT, C_POINTER);
    private static final MethodHandle LEDGER_RESTART = call("cf_ledger_restart", C_POINTER);
    private static final MethodHandle LEDGER_APPLY = call("cf_ledger_apply", C_POINTER, C_LONG, C_POINTER, C_POINTER, C_LONG, C_POINTER);
    private static final MethodHandle LEDGER_STEP = call("cf_ledger_step", C_POINTER, C_POINTER, C_POINTER, C_POINTER, C_LONG, C_POINTER);
    private static final MethodHandle WORD_OF = call("cf_word_of_event", C_POINTER, C_POINTER);
    private static final MethodHandle DESK_OPEN = call("cf_desk_open", C_POINTER, C_POINTER, C_LONG, C_SHORT, C_SHORT);
    private static final MethodHandle DESK_COMPLETE = call("cf_desk_complete", C_POINTER, C_SHORT, C_LONG, C_POINTER);
    private static final MethodHandle DESK_NEXT = call("cf_desk_next", C_POINTER, C_POINTER);
    private static final MethodHandle FREE = free();

    /** Where the numbers stand in a cf_task, a cf_reply, a cf_answer, a cf_step and a cf_event. */
    private static final int TASK = 72;
    private static final int TASK_STAGE = 4;
    private static final int TASK_FIRST = 16;
    private static final int TASK_ANSWER = 48;
    private static final int REPLY_FIRST = 16;
    private static final int VALUE = 8;
    private static final int STEP_FROM = 2;
    private static final int EVENT_VALUE = 8;

    /** A way to settle the chain. It gives the number that the last stage was finished with. */
    private interface Way {
        int settle() throws Throwable;
    }

    private final MemorySegment plan = memory(16);
    private final MemorySegment graph = memory(16);
    private final MemorySegment ledger = memory(16);
    private final MemorySegment caller = memory(16);
    private final MemorySegment task = memory(TASK);
    private final MemorySegment tasks = memory(TASKS * TASK);
    private final MemorySegment step = memory(32);
    private final MemorySegment news = memory(NEWS * 36);
    private final MemorySegment count = memory(8);
    private final long first;
    private final MemorySegment reply = memory(48);
    private final MemorySegment answer = memory(20);
    private final MemorySegment told = memory(20);

    private Steps() throws Throwable {
        MemorySegment source = memory(2);
        MemorySegment event = memory(72);
        must((int) BUILDER_NEW.invokeExact(plan.address(), (short) STAGES, (short) STAGES));
        for (int stage = 0; stage < STAGES; stage++) {
            MemoryAccess.setShort(source, (short) Math.max(stage - 1, 0));
            int form = stage == 0 ? SOURCE : APPLY;
            long sources = stage == 0 ? 0 : 1;
            int function = stage == 0 ? -1 : 0;
            must((int) BUILDER_STAGE.invokeExact(plan.address(), form, source.address(), sources, function, told.address()));
        }
        must((int) BUILD.invokeExact(plan.address()));
        must((int) GRAPH_NEW.invokeExact(plan.address(), (short) 0, graph.address()));
        must((int) LEDGER_NEW.invokeExact(plan.address(), (short) 0, ledger.address()));
        setValue(event, EVENT_VALUE, 1);
        must((int) WORD_OF.invokeExact(event.address(), count.address()));
        first = MemoryAccess.getLong(count);
    }

    private void start() throws Throwable {
        must((int) RESTART.invokeExact(graph.address()));
        must((int) COMPLETE.invokeExact(graph.address(), (short) 0, ONE, reply.address()));
    }

    private int byThree() throws Throwable {
        MemoryAddress at = graph.address();
        int last = 0;
        start();
        while ((int) LOWEST_READY.invokeExact(at, told.address()) == 0) {
            short stage = MemoryAccess.getShort(told);
            must((int) CLAIM.invokeExact(at, ME, stage, reply.address()));
            last = MemoryAccess.getIntAtOffset(reply, REPLY_FIRST) + 1;
            setValue(answer, VALUE, last);
            must((int) FINISH_WITH.invokeExact(at, ME, stage, answer.address(), reply.address()));
        }
        return last;
    }

    /** Puts one more than the argument into the task, and gives it. */
    private int answered() {
        int number = MemoryAccess.getIntAtOffset(task, TASK_FIRST) + 1;
        setValue(task, TASK_ANSWER + VALUE, number);
        return number;
    }

    private int byNext() throws Throwable {
        MemoryAddress at = graph.address();
        MemoryAddress held = task.address();
        int last = 0;
        start();
        while ((int) NEXT.invokeExact(at, ME, held) == 0) {
            last = answered();
        }
        return last;
    }

    private int bySweep() throws Throwable {
        MemoryAddress at = graph.address();
        MemoryAddress held = task.address();
        int last = 0;
        start();
        must((int) SWEEP_BEGIN.invokeExact(at));
        while ((int) SWEEP_NEXT.invokeExact(at, held) == 0) {
            last = answered();
        }
        must((int) SWEEP_END.invokeExact(at));
        return last;
    }

    private int byRound() throws Throwable {
        MemoryAddress at = graph.address();
        MemoryAddress held = tasks.address();
        int last = 0;
        start();
        while ((int) ROUND.invokeExact(at, ME, held, (long) TASKS) == 0) {
            for (int of = 0; of < TASKS * TASK && MemoryAccess.getIntAtOffset(tasks, of) != 0; of += TASK) {
                last = MemoryAccess.getIntAtOffset(tasks, of + TASK_FIRST) + 1;
                setValue(tasks, of + TASK_ANSWER + VALUE, last);
            }
        }
        return last;
    }

    private int byLedgerStep() throws Throwable {
        MemoryAddress at = ledger.address();
        MemoryAddress held = task.address();
        int last = 0;
        must((int) LEDGER_RESTART.invokeExact(at));
        must((int) LEDGER_APPLY.invokeExact(at, first, reply.address(), news.address(), (long) NEWS, count.address()));
        MemoryAccess.setShortAtOffset(step, STEP_FROM, (short) 0);
        while ((int) LEDGER_STEP.invokeExact(at, step.address(), held, news.address(), (long) NEWS, count.address()) == 0) {
            MemoryAccess.setShortAtOffset(step, STEP_FROM, MemoryAccess.getShortAtOffset(task, TASK_STAGE));
            last = answered();
        }
        return last;
    }

    private int byDeskNext() throws Throwable {
        MemoryAddress at = caller.address();
        MemoryAddress held = task.address();
        int last = 0;
        must((int) DESK_COMPLETE.invokeExact(at, (short) 0, ONE, reply.address()));
        while ((int) DESK_NEXT.invokeExact(at, held) == 0) {
            last = answered();
        }
        return last;
    }

    /** Writes a cf_value that is a number. */
    private static void setValue(MemorySegment memory, long offset, int number) {
        MemoryAccess.setIntAtOffset(memory, offset, 1);
        MemoryAccess.setIntAtOffset(memory, offset + 4, number);
    }

    /** What a round of a way takes, in nanoseconds. A desk is opened for it, and freed. */
    private long time(Way way) throws Throwable {
        must((int) DESK_OPEN.invokeExact(plan.address(), caller.address(), 1L, LOG, LOG));
        long since = System.nanoTime();
        int last = way.settle();
        long took = System.nanoTime() - since;
        if (last != STAGES) {
            throw new AssertionError("the last stage");
        }
        FREE.invokeExact(caller.address());
        return took;
    }

    private static void show(String way, long[] nanos) {
        Arrays.sort(nanos);
        System.out.printf(
                "step Java, %s: best %d ps, median %d ps, %d rounds%n",
                way, nanos[0] * 1000 / STAGES, nanos[nanos.length / 2] * 1000 / STAGES, nanos.length);
    }

    private static MemorySegment memory(long bytes) {
        return MemorySegment.allocateNative(bytes, 8, ResourceScope.globalScope());
    }

    private static void must(int code) {
        if (code != 0) {
            throw new AssertionError("a call answered " + code);
        }
    }

    private static SymbolLookup load() {
        System.load(Path.of(System.getProperty("cf.library")).toAbsolutePath().toString());
        return SymbolLookup.loaderLookup();
    }

    private static MethodHandle call(String name, MemoryLayout... arguments) {
        Class<?>[] carriers = Arrays.stream(arguments).map(Steps::carrier).toArray(Class<?>[]::new);
        return CLinker.getInstance().downcallHandle(
                LOADED.lookup(name).orElseThrow(() -> new UnsatisfiedLinkError(name)),
                MethodType.methodType(int.class, carriers),
                FunctionDescriptor.of(C_INT, arguments));
    }

    private static MethodHandle free() {
        return CLinker.getInstance().downcallHandle(
                LOADED.lookup("cf_free").orElseThrow(() -> new UnsatisfiedLinkError("cf_free")),
                MethodType.methodType(void.class, MemoryAddress.class),
                FunctionDescriptor.ofVoid(C_POINTER));
    }

    private static Class<?> carrier(MemoryLayout layout) {
        if (layout.equals(C_POINTER)) {
            return MemoryAddress.class;
        }
        return switch ((int) layout.byteSize()) {
            case 1 -> byte.class;
            case 2 -> short.class;
            case 4 -> int.class;
            default -> long.class;
        };
    }

    public static void main(String[] words) throws Throwable {
        Steps steps = new Steps();
        Map<String, Way> ways = new LinkedHashMap<>();
        ways.put("three calls", steps::byThree);
        ways.put("by cf_next", steps::byNext);
        ways.put("by cf_sweep_next", steps::bySweep);
        ways.put("by cf_round", steps::byRound);
        ways.put("by cf_ledger_step", steps::byLedgerStep);
        ways.put("by cf_desk_next", steps::byDeskNext);
        Map<String, long[]> took = new LinkedHashMap<>();
        for (String name : ways.keySet()) {
            took.put(name, new long[ROUNDS]);
        }
        for (int round = -WARM; round < ROUNDS; round++) {
            for (Map.Entry<String, Way> way : ways.entrySet()) {
                long nanos = steps.time(way.getValue());
                if (round >= 0) {
                    took.get(way.getKey())[round] = nanos;
                }
            }
        }
        took.forEach(Steps::show);
    }
}
