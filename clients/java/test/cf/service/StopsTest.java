package cf.service;

import static cf.service.Checks.is;

import cf.internal.Form;
import cf.internal.Freed;
import cf.internal.Words;
import com.sun.jdi.Bootstrap;
import com.sun.jdi.ClassType;
import com.sun.jdi.Location;
import com.sun.jdi.ObjectReference;
import com.sun.jdi.ThreadReference;
import com.sun.jdi.VMDisconnectedException;
import com.sun.jdi.VirtualMachine;
import com.sun.jdi.connect.Connector;
import com.sun.jdi.connect.ListeningConnector;
import com.sun.jdi.event.BreakpointEvent;
import com.sun.jdi.event.ClassPrepareEvent;
import com.sun.jdi.event.Event;
import com.sun.jdi.event.EventSet;
import com.sun.jdi.event.StepEvent;
import com.sun.jdi.event.VMDeathEvent;
import com.sun.jdi.event.VMDisconnectEvent;
import com.sun.jdi.request.BreakpointRequest;
import com.sun.jdi.request.ClassPrepareRequest;
import com.sun.jdi.request.EventRequest;
import com.sun.jdi.request.StepRequest;
import java.nio.charset.StandardCharsets;
import java.nio.file.Files;
import java.nio.file.Path;
import java.util.Arrays;
import java.util.Iterator;
import java.util.LinkedHashSet;
import java.util.List;
import java.util.Map;
import java.util.Set;
import java.util.concurrent.TimeUnit;

/**
 * A thread is stopped before each bytecode by which a core is found, opened, given back and freed, as Thread.stop may stop it there: a debugger
 * leads another process through them all. Memory that is freed twice, or used once it was freed, ends that process.
 */
public final class StopsTest {
    /** What is thrown there. */
    static final ThreadDeath DEATH = new ThreadDeath();
    private static final int WHO = Request.FIRST_THREAD;
    private static final Flow FLOW = new Flow("stopped");
    private static volatile boolean over;
    private static Machine broken;

    private StopsTest() {}

    // In the process that is led.

    public static void main(String[] args) throws Exception {
        FLOW.promise();
        Machine.Plan plan = FLOW.plan();
        int stopped = 0;
        while (!over) {
            try {
                uses(plan);
            } catch (ThreadDeath stop) {
                stopped++;
            }
            try {
                broken.apply(Words.complete(WHO, 0, 4), WHO);
            } catch (Error | RuntimeException unusable) { // It may be, but what is freed is left alone.
                stopped += unusable == DEATH ? 1 : 0;
            }
            if (stopped % 8 == 0) {
                System.gc(); // Cores that were lost are found by those who come next.
            }
        }
        Thread.interrupted();
        for (int k = 0; k < 3; k++) {
            uses(plan);
            System.gc();
            Thread.sleep(20);
            Freed.freeAll();
        }
        System.out.println("survived " + stopped + " stops");
        System.exit(0);
    }

    /** A core is lost, found, given back, used again, has not all set again, and finds no place where it is given back. */
    private static void uses(Machine.Plan plan) {
        Machine.Core lost = Machine.Core.reuseOrCreate(plan.pool);
        lost.freed.enqueue();
        lost = null;
        Machine one = new Machine(plan, 8), two = new Machine(plan, 8);
        broken = one;
        is(done(one) + done(two), 2);
        one.giveBackCore(() -> {
            throw new IllegalStateException();
        });
        two.giveBackCore(null);
        try {
            one.apply(Words.complete(WHO, 0, 3), WHO);
        } catch (IllegalStateException notAgain) {
            // Its core is freed.
        }
        Machine single = new Machine(Words.attach(WHO, Form.SUPPLY, 0, 0, 0, 0));
        single.apply(Words.claim(WHO, 0), WHO);
        single.finish(0, false, 3, WHO);
        single.tryGiveBackCore();
        Machine first = new Machine(plan, 8), second = new Machine(plan, 8);
        is(done(first) + done(second), 2);
        first.giveBackLater();
        second.giveBackLater();
    }

    private static int done(Machine machine) {
        machine.apply(Words.complete(WHO, 0, 7), WHO);
        return machine.settledCount();
    }

    // In the one that leads it.

    static void everywhere() throws Exception {
        ListeningConnector listens = Bootstrap.virtualMachineManager().listeningConnectors().stream()
                .filter(each -> each.name().equals("com.sun.jdi.SocketListen")).findFirst().get();
        Map<String, Connector.Argument> arguments = listens.defaultArguments();
        arguments.get("localAddress").setValue("127.0.0.1");
        arguments.get("timeout").setValue("60000");
        String address = listens.startListening(arguments);
        ProcessBuilder led = new ProcessBuilder(System.getProperty("java.home") + "/bin/java", "-Xint", "-Xmx16m", "-XX:+UseSerialGC", "-Dcf.kept=1",
                "-agentlib:jdwp=transport=dt_socket,suspend=y,address=" + address, "-cp", System.getProperty("java.class.path"),
                StopsTest.class.getName());
        led.environment().put("MALLOC_PERTURB_", "90"); // What is freed is of no use from then on.
        Path told = Files.createTempFile("stops", ".txt");
        Process process = led.redirectErrorStream(true).redirectOutput(told.toFile()).start();
        try {
            VirtualMachine machine = listens.accept(arguments);
            listens.stopListening(arguments);
            int stops = new StopsTest().lead(machine);
            is(process.waitFor(60, TimeUnit.SECONDS), true);
            String text = new String(Files.readAllBytes(told), StandardCharsets.UTF_8);
            is(text + "status " + process.exitValue(), "survived " + stops + " stops\nstatus 0");
            is(stops > 300, true);
        } finally {
            process.destroyForcibly();
            Files.delete(told);
        }
    }

    /** Where cores are handled: all of these classes, and these methods of a machine. */
    private static final List<String> CLASSES = Arrays.asList("cf.service.Machine$Core", "cf.service.Machine$Core$Outside", "cf.service.Machine$Pool",
            "cf.internal.Freed"), METHODS = Arrays.asList("<init>", "core", "taken", "open", "first", "over", "rest", "rests", "restsUnasked");

    private final Set<Location> places = new LinkedHashSet<>();
    private Iterator<Location> left;
    private BreakpointRequest next;
    private ObjectReference death;
    private int stops;

    /** Steps through it once, to see where it comes by, and then has it stopped at each of these places. */
    private int lead(VirtualMachine led) throws Exception {
        ClassPrepareRequest loads = led.eventRequestManager().createClassPrepareRequest();
        loads.addClassFilter(StopsTest.class.getName());
        loads.enable();
        led.resume();
        for (boolean goesOn = true; goesOn;) {
            EventSet events = led.eventQueue().remove();
            try {
                for (Event each : events) {
                    goesOn &= !(each instanceof VMDeathEvent || each instanceof VMDisconnectEvent);
                    heard(led, each);
                }
                events.resume();
            } catch (VMDisconnectedException gone) {
                goesOn = false;
            }
        }
        return stops;
    }

    private void heard(VirtualMachine led, Event event) throws Exception {
        if (event instanceof ClassPrepareEvent) {
            ClassType own = (ClassType) ((ClassPrepareEvent) event).referenceType();
            led.eventRequestManager().createBreakpointRequest(own.methodsByName("uses").get(0).location()).enable();
        } else if (event instanceof StepEvent) {
            stepped(event.request(), ((StepEvent) event).location());
        } else if (event instanceof BreakpointEvent) {
            ThreadReference thread = ((BreakpointEvent) event).thread();
            if (event.request() == next) {
                stops++;
                thread.stop(death);
            } else if (left != null) {
                next(led, (ClassType) ((BreakpointEvent) event).location().declaringType());
            } else if (death == null) {
                ClassType own = (ClassType) ((BreakpointEvent) event).location().declaringType();
                death = (ObjectReference) own.getValue(own.fieldByName("DEATH"));
                StepRequest steps = led.eventRequestManager().createStepRequest(thread, StepRequest.STEP_MIN, StepRequest.STEP_INTO);
                steps.addClassFilter("cf.*");
                steps.enable();
            }
        }
    }

    private void stepped(EventRequest steps, Location place) {
        String type = place.declaringType().name(), method = place.method().name();
        if (CLASSES.contains(type) || type.equals("cf.service.Machine") && METHODS.contains(method)) {
            places.add(place);
        } else if (method.equals("main")) {
            steps.disable();
            left = places.iterator();
        }
    }

    /** Has the thread come by the next place, where it is stopped once. */
    private void next(VirtualMachine led, ClassType own) throws Exception {
        if (next != null && next.isEnabled()) {
            next.disable(); // It didn't come by.
        }
        if (left.hasNext()) {
            next = led.eventRequestManager().createBreakpointRequest(left.next());
            next.addCountFilter(1);
            next.enable();
        } else {
            own.setValue(own.fieldByName("over"), led.mirrorOf(true));
        }
    }
}
