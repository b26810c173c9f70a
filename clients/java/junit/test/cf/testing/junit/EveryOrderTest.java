package cf.testing.junit;

import cf.service.Stage;
import cf.testing.World;
import java.util.ArrayList;
import java.util.List;
import java.util.Map;
import java.util.TreeMap;
import java.util.concurrent.TimeUnit;
import org.junit.jupiter.api.Assertions;
import org.junit.jupiter.api.BeforeEach;
import org.junit.jupiter.api.Test;
import org.junit.jupiter.api.TestInfo;
import org.junit.platform.engine.discovery.DiscoverySelectors;
import org.junit.platform.launcher.core.LauncherDiscoveryRequestBuilder;
import org.junit.platform.launcher.core.LauncherFactory;
import org.junit.platform.launcher.listeners.SummaryGeneratingListener;
import org.junit.platform.launcher.listeners.TestExecutionSummary;

/** Are tests of JUnit run in every order, and does the one that fails tell the story? Runs them by JUnit's own launcher. */
public final class EveryOrderTest {
    private static final String ROW = "come.0.0 call.0.1 limit.0.1.1 call.0.2";

    private EveryOrderTest() {}

    private static void charged(World world, boolean isOnce) {
        List<Integer> charges = new ArrayList<>();
        Stage<Integer> price = world.service().request("order 17").adopt(world.arrives(4900, "price"));
        Stage<?> paid = isOnce ? price.orTimeout(2, TimeUnit.SECONDS).thenApply(charges::add)
                : price.thenApply(charges::add).named("charge").orTimeout(2, TimeUnit.SECONDS);
        world.check(() -> charges.size() <= 1, "charged at most once");
        world.settles(paid.handle((did, error) -> error == null || charges.add(4900)));
    }

    /** What is run. */
    static final class Tests {
        private static int before, orders;

        @BeforeEach
        void before() {
            before++;
        }

        @EveryOrder
        void failing(World world) {
            charged(world, false);
        }

        @EveryOrder(row = ROW)
        void failingAlone(World world) {
            charged(world, false);
        }

        @EveryOrder
        void assertion(World world) {
            world.service().request().runAsync(() -> Assertions.assertEquals(1, 2));
        }

        @EveryOrder(whole = true)
        void sound(TestInfo info, World world) {
            Assertions.assertEquals("sound(TestInfo, World)", info.getDisplayName());
            orders++;
            charged(world, true);
        }

        @EveryOrder(most = 1, whole = true)
        void notAll(World world) {
            charged(world, true);
        }

        @EveryOrder
        void withoutWorld() {}

        @Test
        void usual() {}
    }

    /** Fails if they don't do as they should. */
    public static void main(String[] args) {
        SummaryGeneratingListener told = new SummaryGeneratingListener();
        LauncherFactory.create().execute(LauncherDiscoveryRequestBuilder.request().selectors(DiscoverySelectors.selectClass(Tests.class)).build(), told);
        TestExecutionSummary summary = told.getSummary();
        Map<String, Throwable> failed = new TreeMap<>();
        summary.getFailures().forEach(it -> failed.put(it.getTestIdentifier().getDisplayName(), it.getException()));
        Assertions.assertEquals("[assertion(World), failing(World), failingAlone(World), notAll(World), withoutWorld()]", failed.keySet().toString());
        Assertions.assertEquals(2, summary.getTestsSucceededCount());
        Assertions.assertEquals(7, Tests.before);
        Assertions.assertTrue(Tests.orders > 2, "the sound one was called " + Tests.orders + " times");
        for (String name : new String[] {"failing(World)", "failingAlone(World)"}) {
            String story = failed.get(name).getMessage();
            Assertions.assertTrue(story.contains("charged at most once: not so in this order of 4 moves"), story);
            Assertions.assertTrue(story.contains(".row(\"" + ROW + "\")"), story);
        }
        Assertions.assertTrue(failed.get("failingAlone(World)").getMessage().startsWith("1 orders, "));
        Assertions.assertEquals("expected: <1> but was: <2>", failed.get("assertion(World)").getCause().getMessage());
        Assertions.assertTrue(failed.get("notAll(World)").getMessage().contains("which aren't all"));
        Assertions.assertTrue(failed.get("withoutWorld()").getMessage().contains("has a parameter of type World"));
        System.out.println(summary.getTestsFoundCount() + " tests of JUnit are run in every order");
    }
}
