package cf.service;

import cf.internal.Native;
import cf.store.DecisionsTest;
import cf.store.EtcdTest;
import cf.store.StoreFaultsTest;
import cf.store.StoredFunctionsTest;
import cf.store.StoresTest;
import cf.testing.OrdersTest;
import cf.testing.ScopedOrdersTest;
import cf.testing.StoredOrdersTest;
import java.util.Arrays;
import java.util.LinkedHashSet;
import java.util.Set;
import java.util.concurrent.Callable;

/**
 * Runs all tests, or those that are named, one after another in one process. They ask what OpenJDK's tests can't know of.
 *
 * <p>Requests in stores are tested over SQLite, if the class path has its driver, and over etcd, if {@code etcd} is there. If {@code CF_STORES} is
 * the address of a PostgreSQL, as {@code postgresql://postgres@127.0.0.1:5432/postgres}, they are tested over that, and nothing else is;
 * {@code conformance/stores/over} starts one. What Java and Python do together is tested if {@code CF_LIBRARY} names {@code libcf.so}. Threads are
 * stopped by a debugger, if the JDK has the module {@code jdk.jdi}. {@code told.json} is found from the top, or from {@code clients/java}.
 */
public final class AllTests {
    private static int tests;
    /** Names of tests that are still to be run; null where all are. */
    private static Set<String> chosen;

    private AllTests() {}

    /** Runs the tests of these names, or all. */
    public static void main(String[] args) {
        chosen = args.length == 0 ? null : new LinkedHashSet<>(Arrays.asList(args));
        if (StoresTest.InPostgres.address() == null) {
            allTests();
        } else {
            overDatabase(StoresTest.InPostgres::new, "PostgreSQL", "database");
            over(StoresTest.InPostgres::new, "puts beside a drop", StoreFaultsTest::dropped);
            over(StoresTest.InPostgres::new, "locks that aren't free in time", StoreFaultsTest::lockedOut);
            over(StoresTest.InPostgres::new, "notices of a closed store", StoreFaultsTest::noticesEnd);
            over(StoresTest.InPostgres::new, "who connects while others put", StoreFaultsTest::connects);
            over(StoresTest.InPostgres::new, "a server that can only be read for a while", StoreFaultsTest::switchesOver);
        }
        if (chosen != null && !chosen.isEmpty()) {
            System.err.println("there are no tests " + chosen);
            System.exit(2);
        }
        System.out.println(tests + " tests passed, with " + Native.version() + " on Java " + System.getProperty("java.version"));
        System.exit(0);
    }

    private static void allTests() {
        test("Java's own classes", JavasFuturesTest::statics);
        test("Java's methods that take stages", JavasFuturesTest::takenByJava);
        test("who only asks", AskingTest::onlyAsks);
        test("other requests", RelaysTest::acrossRequests);
        test("stages that can't be asked", RelaysTest::refusedToTell);
        test("cancellations of one's own", RelaysTest::ownCancellations);
        test("a full request", FullRequestsTest::full);
        test("a full request that goes on", FullRequestsTest::goesOn);
        test("a full request that goes on for many threads", FullRequestsTest::goesOnByMany);
        test("what finds no place in a full request", FullRequestsTest::letsGoWithoutPlace);
        test("all of many, or one", GatheringTest::asJavas);
        test("room for all of many", GatheringTest::room);
        test("many in parts", GatheringTest::parts);
        test("the first success", JoinsTest::first);
        test("all or the first failure", JoinsTest::all);
        test("a quorum", JoinsTest::quorum);
        test("joins of others", JoinsTest::others);
        test("joins of requests that are closed", JoinsTest::closed);
        test("what is told of joins", JoinsTest::told);
        test("joins in threads", JoinsTest::inThreads);
        test("scopes", ScopesTest::ends);
        test("scopes that end meanwhile", ScopesTest::endsMeanwhile);
        test("scopes that end with a stage", ScopesTest::endsWith);
        test("limits of scopes and requests", ScopesTest::limits);
        test("who waits for a scope", ScopesTest::joins);
        test("scopes of requests that are closed", ScopesTest::closed);
        test("scopes of full requests", ScopesTest::full);
        test("functions that ask whether to stop", ScopesTest::isStopping);
        test("functions that are interrupted", ScopesTest::interrupts);
        test("threads that have gone on", ScopesTest::interruptsInThreads);
        test("scopes in threads", ScopesTest::inThreads);
        test("tries", RetriesTest::times);
        test("what is tried again", RetriesTest::kinds);
        test("pauses between tries", RetriesTest::pauses);
        test("tries that are given up", RetriesTest::ends);
        test("structured: two subtasks", StructuredTest::handles);
        test("structured: all", StructuredTest::invokesAll);
        test("structured: a race", StructuredTest::races);
        test("structured: collected results", StructuredTest::collects);
        test("structured: a server", StructuredTest::serves);
        test("structured: a tree", StructuredTest::nests);
        test("chains through requests", ChainsTest::backAndForth);
        test("chains of finished futures", ChainsTest::finishedChains);
        test("chains of links", ChainsTest::linkedChains);
        test("chains through Java's futures", ChainsTest::foreignChains);
        test("stacks that end", ChainsTest::deepStacks);
        test("futures that live long", FreeingTest::longLived);
        test("many behind one", FreeingTest::manyBehindOne);
        test("what settled stages keep", FreeingTest::keptBySettled);
        test("closed requests", ClosingTest::closed);
        test("requests closed by their users", ClosingTest::closedWithin);
        test("requests closed by others in every order", ClosingTest::closedAtAnyMoment);
        test("requests closed before time", ClosingTest::closedBefore);
        test("all that is cancelled", ClosingTest::cancelsAll);
        test("users' code under a lock", UserCodeTest::unlocked);
        test("calls by states", EndsTest::byStates);
        test("ends behind relays that nothing needs", EndsTest::toldWithoutRelays);
        test("what could go on behind random programs", LeftTest::programs);
        test("exceptions beside Java's", FaultsTest::besideJavas);
        test("hooks that throw behind many stages", FaultsTest::hooks);
        test("who has cancelled a stage", FaultsTest::stacks);
        test("what breaks in Java's own classes", FaultsTest::breaksInJavas);
        test("late answers", TimeoutsTest::late);
        test("waiting in a pool of one", FunctionsTest::waitsWhileRunning);
        test("refused tasks", FunctionsTest::refusedTasks);
        test("errors", FunctionsTest::errors);
        test("errors of executors", FunctionsTest::executorErrors);
        test("a row that is broken off", RelaysTest::brokenOff);
        test("timeouts", TimeoutsTest::timeouts);
        test("timeouts in order", TimeoutsTest::inOrder);
        test("what timed out", TimeoutsTest::timedOut);
        test("which of several timed out", TimeoutsTest::whose);
        test("relays of what timed out", TimeoutsTest::timedOutElsewhere);
        test("functions here", FunctionsTest::here);
        test("functions of one event", FunctionsTest::together);
        test("tasks of one request", FunctionsTest::handedOnce);
        test("functions of others", FunctionsTest::elsewhere);
        test("one call", HistoriesTest::oneCall);
        test("histories", HistoriesTest::histories);
        test("histories of many threads", HistoriesTest::manyThreads);
        test("numbers of callers", HistoriesTest::callers);
        test("pages", HistoriesTest::pages);
        test("open requests that are listed", MeterTest::listed);
        test("open requests of all kinds", MeterTest::ofAllKinds);
        test("why a request is open", MeterTest::why);
        test("requests that a meter lets go", MeterTest::letGo);
        test("a meter as a bean", MeterTest::bean);
        test("what the library tells", TaleTest::told);
        test("texts of all kinds", TaleTest::texts);
        test("tales that are refused", TaleTest::refused);
        test("what is told now", AskingTest::toldNow);
        test("texts of stages", HistoriesTest::texts);
        test("interrupts", AskingTest::interrupts);
        test("waits in every order", WaitsTest::searched);
        test("races", RacesTest::races);
        test("who settles a stage in every order", RacesTest::everyOrder);
        test("cancels that wait for the lock", RacesTest::cancelsTooLate);
        test("races of relays", RacesTest::relayRaces);
        test("contexts", TracesTest::contexts);
        test("contexts that break", TracesTest::brokenContexts);
        test("ends of requests", TracesTest::ends);
        test("hooks that break", TracesTest::brokenHooks);
        test("spans", TracesTest::spans);
        test("spans in files", TracesTest::files);
        test("spans at OpenTelemetry", TracesTest::openTelemetry);
        test("flows", FlowsTest::flows);
        test("flows with what goes wrong", FlowsTest::flowFaults);
        test("many news", AskingTest::manyNews);
        test("more than 60 threads", FunctionsTest::manyThreads);
        test("recordings", RecordingsTest::recordings);
        test("recordings that ask for nothing", RecordingsTest::unasked);
        test("texts that would forge lines", HistoriesTest::forged);
        test("what is told of values", DescribeTest::described);
        test("what describes values", DescribeTest::describers);
        test("values that can't be shown", DescribeTest::unspeakable);
        test("exceptions that can't be shown", DescribeTest::unspeakableWrapped);
        test("what ends a request, instead", InsteadTest::ends);
        test("what comes of several stages, instead", InsteadTest::ofSeveral);
        test("what begins later, instead", InsteadTest::later);
        test("cores used again", MachineTest::usedAgain);
        test("words that a last finish brings", MachineTest::wordsBrought);
        test("a request of one call", MachineTest::oneCall);
        test("requests of one plan each have a core", MachineTest::oneCoreEach);
        test("attaches that fail", MachineTest::failedAttach);
        test("words that are refused", MachineTest::refusedWords);
        test("words that fail a stage for a cause", MachineTest::failedAs);
        test("large cores", MachineTest::largeCores);
        test("a request that can't come again", MachineTest::failsToComeAgain);
        test("moments of words that wait", MachineTest::moments);
        test("many events of one moment", MachineTest::manyOfOneMoment);
        test("lanes of one call", MachineTest::lanesOfOneCall);
        test("many functions of both lanes", MachineTest::manyOfBothLanes);
        test("cores of other plans", FreeingTest::otherPlans);
        test("flows that several threads start first", FlowsTest::startedTogether);
        test("flows with errors", FlowsTest::flowErrors);
        test("a flow without steps", FlowsTest::emptyFlow);
        test("no collection is asked for", FreeingTest::noCollection);
        test("memory of what nobody closes", FreeingTest::bounded);
        test("huge arguments", MachineTest::huge);
        test("class loaders", LoaderTest::unloaded);
        test("a named library in several class loaders", LoaderTest::named);
        test("no library", LoaderTest::missing);
        test("hostile code", HostileTest::survived);
        test("threads that are stopped anywhere", StopsTest::everywhere);
        test("virtual threads", FunctionsTest::virtualThreads);
        test("what can't be reached", FreeingTest::unreachable);
        test("requests that are over", FreeingTest::over);
        test("services with a fault of order", OrdersTest::plantedFaults);
        test("sound services in every order", OrdersTest::soundServices);
        test("what a failing order tells", OrdersTest::stories);
        test("scopes in every order", ScopedOrdersTest::first);
        test("who waits for a scope in every order", ScopedOrdersTest::joins);
        test("tries in every order", ScopedOrdersTest::retries);
        test("who attaches beside an end in every order", ScopedOrdersTest::attaches);
        test("failing orders made smaller", OrdersTest::smaller);
        test("orders as assertions", OrdersTest::assertions);
        test("bounds of a search", OrdersTest::bounds);
        test("orders by chance", OrdersTest::byChance);
        test("functions that wait in a world", OrdersTest::waits);
        test("choices in a world", OrdersTest::choices);
        test("what blocks a search", OrdersTest::blocked);
        test("faults of what is tried", OrdersTest::faults);
        test("what isn't deterministic", OrdersTest::notDeterministic);
        test("orders behind a failure", OrdersTest::failing);
        test("orders that are left out", OrdersTest::leftOut);
        test("a relay that was let go", OrdersTest::letGo);
        test("what functions and checks read", OrdersTest::read);
        test("threads that come between", OrdersTest::between);
        test("limits in a world", OrdersTest::limits);
        test("cancels at any moment", OrdersTest::cancelled);
        test("points within functions", OrdersTest::points);
        test("flows in a world", OrdersTest::flows);
        test("moves that touch something else", OrdersTest::touchesElse);
        test("functions of either source in every order", OrdersTest::ready);
        test("moves behind a function that was started", OrdersTest::behindStarted);
        test("failing orders with fewer switches", OrdersTest::fewerSwitches);
        test("functions that are called in a row", OrdersTest::inRow);
        test("services over a store with a fault of order", StoredOrdersTest::plantedFaults);
        test("sound services over a store in every order", StoredOrdersTest::soundServices);
        test("what a failing order over a store tells", StoredOrdersTest::stories);
        test("histories of a failing order over a store", StoredOrdersTest::histories);
        test("answers of a store that go wrong", StoredOrdersTest::answers);
        test("how often answers go wrong", StoredOrdersTest::bounds);
        test("puts that come late", StoredOrdersTest::late);
        test("moves between an answer and the next line", StoredOrdersTest::between);
        test("killed processes in every order", StoredOrdersTest::killed);
        test("who attaches to a closed request in every order", StoredOrdersTest::attached);
        test("further tries in every order", StoredOrdersTest::triesAgain);
        test("processes taken for gone in every order", StoredOrdersTest::slow);
        test("clocks of processes", StoredOrdersTest::clocks);
        test("waits for stages of a store in every order", StoredOrdersTest::waits);
        test("limits in a store at any moment", StoredOrdersTest::limits);
        test("threads of a process in every order", StoredOrdersTest::threads);
        test("faults of what is tried over a store", StoredOrdersTest::faults);
        test("what hangs on stages of a store", StoredOrdersTest::heard);
        test("transactional functions in every order", StoredOrdersTest::transactions);
        test("commits that come late", StoredOrdersTest::lateCommits);
        test("places of a row that a transaction has", StoredOrdersTest::places);
        test("the connection of a world", StoredOrdersTest::connections);
        test("effects in the order of their commits", StoredOrdersTest::effects);
        test("looks at stages of a process", StoredOrdersTest::looks);
        test("who has a stage of a store", StoredOrdersTest::granted);
        test("what is promised of a store in every order", StoredOrdersTest::promises);
        test("orders over a store that are left out", StoredOrdersTest::leftOut);
        test("orders over a store by chance", StoredOrdersTest::byChance);
        test("what a process decides over a store", DecisionsTest::rows);
        test("JSON", StoresTest::json);
        test("who is gone", StoresTest::gone);
        test("which errors of PostgreSQL say that it is away", StoreFaultsTest::away);
        test("which errors of SQLite say so", StoreFaultsTest::awayFromFile);
        test("statements that are prepared once", StoreFaultsTest::prepared);
        test("puts of no words", StoreFaultsTest::plansNothing);
        test("entries that change many stages", StoreFaultsTest::changesMany);
        test("what a function has attached before", StoredFunctionsTest::alike);
        test("the module of JDBC", StoresTest::module);
        test("what the module exports", StoresTest::exported);
        if (StoresTest.hasDriver()) {
            over(StoresTest.InFile::new, "puts of several threads to SQLite", StoresTest::together);
            test("jobs that no thread took", StoresTest::noThread);
            overDatabase(StoresTest.InFile::new, "SQLite", "file");
            over(StoresTest.InFile::new, "who reads many requests at first", StoreFaultsTest::beats);
            over(StoresTest.InFile::new, "what is there as a request is first met", StoreFaultsTest::beginsAtOnce);
            over(StoresTest.InFile::new, "what a relay makes ready", StoreFaultsTest::relaysAtOnce);
            over(StoresTest.InFile::new, "a session's name", StoreFaultsTest::namesItself);
            over(StoresTest.InFile::new, "open requests that stay known", StoreFaultsTest::keepsOpen);
            over(StoresTest.InFile::new, "connections of a closed store", StoredFunctionsTest::closes);
            over(StoresTest.InFile::new, "further tries of what composes", StoreFaultsTest::composesAgain);
            over(StoresTest.InFile::new, "a stage that isn't there", StoreFaultsTest::givesNoStage);
            over(StoresTest.InFile::new, "functions that run at the end", StoreFaultsTest::closes);
            over(StoresTest.InFile::new, "who waits at the end", StoreFaultsTest::over);
            over(StoresTest.InFile::new, "payloads that can't be read for a while", StoreFaultsTest::unread);
            if (StoresTest.onPath("flock")) {
                over(StoresTest.InFile::new, "the line of who writes to a file", StoredFunctionsTest::line);
                over(StoresTest.InFile::new, "a transaction that can't begin", StoreFaultsTest::cantBegin);
            } else {
                System.out.println("left out the line of who writes to a file, and a transaction that can't begin: there is no flock");
            }
        } else {
            System.out.println("left out requests in SQLite: the class path has no driver, as sqlite-jdbc.jar of Debian's libxerial-sqlite-jdbc-java");
        }
        if (EtcdTest.hasServer()) {
            over(EtcdTest.Server::new, "puts to etcd", StoresTest::puts);
            over(EtcdTest.Server::new, "functions of requests in etcd", StoresTest::functions);
            over(EtcdTest.Server::new, "services that share a cluster", StoresTest::others);
            over(EtcdTest.Server::new, "closed requests in etcd", StoresTest::closed);
            over(EtcdTest.Server::new, "words that open a request again in etcd", StoresTest::opens);
            over(EtcdTest.Server::new, "who attaches to a closed request in etcd, and is killed", StoresTest::killedAtAttach);
            over(EtcdTest.Server::new, "an attach that etcd is silent about", StoresTest::silentAtAttach);
            over(EtcdTest.Server::new, "timers in etcd", StoresTest::timers);
            over(EtcdTest.Server::new, "stages in etcd, settled once", StoresTest::settled);
            over(EtcdTest.Server::new, "a request in etcd that is cancelled", StoresTest::cancelledRequest);
            over(EtcdTest.Server::new, "functions that compose in etcd", StoredFunctionsTest::composing);
            over(EtcdTest.Server::new, "flows in etcd", StoredFunctionsTest::flows);
            over(EtcdTest.Server::new, "histories of requests in etcd", StoredFunctionsTest::histories);
            over(EtcdTest.Server::new, "no transactions in etcd", StoredFunctionsTest::noTransactions);
            over(EtcdTest.Server::new, "words in etcd", EtcdTest::words);
            over(EtcdTest.Server::new, "what etcd tells of changes", EtcdTest::changes);
            over(EtcdTest.Server::new, "connections to etcd that are cut", EtcdTest::cut);
            over(EtcdTest.Server::new, "members of etcd that don't answer", EtcdTest::silent);
            if (EtcdTest.hasPython()) {
                over(EtcdTest.Server::new, "requests in etcd, in Java and Python", EtcdTest::python);
            } else {
                System.out.println("left out requests in etcd beside Python's: it takes python3, CF_LIBRARY, and clients/python in the working folder");
            }
        } else {
            System.out.println("left out requests in etcd: there is no etcd, as Debian's etcd-server has it");
        }
    }

    /** What holds of an engine of JDBC's. */
    private static <P extends StoresTest.Database> void overDatabase(Callable<P> place, String engine, String kind) {
        over(place, "puts to " + engine, StoresTest::puts);
        over(place, "functions of requests in " + engine, StoresTest::functions);
        over(place, "services that share a " + kind, StoresTest::others);
        over(place, "closed requests in " + engine, StoresTest::closed);
        over(place, "words that open a request again in " + engine, StoresTest::opens);
        over(place, "news of closed requests in " + engine, StoresTest::news);
        over(place, "who attaches to a closed request in " + engine + ", and is killed", StoresTest::killedAtAttach);
        over(place, "an attach that " + engine + " is silent about", StoresTest::silentAtAttach);
        over(place, "who waits for the last word in " + engine, StoresTest::toldAtTheEnd);
        over(place, "timers in " + engine, StoresTest::timers);
        over(place, "stages in " + engine + ", settled once", StoresTest::settled);
        over(place, "a request that is cancelled", StoresTest::cancelledRequest);
        over(place, "a process that dies", StoresTest::dies);
        over(place, "what hangs on an abandoned stage", StoresTest::hangs);
        over(place, "further tries of what was settled by hand", StoresTest::again);
        over(place, "a further try whose process is gone", StoresTest::onceMore);
        over(place, "another request of a name", StoresTest::another);
        over(place, "a value that can't be read once", StoresTest::unread);
        over(place, "rows that can't be gone on with", StoresTest::broken);
        over(place, "functions that compose in " + engine, StoredFunctionsTest::composing);
        over(place, "stages that stand for bad answers", StoredFunctionsTest::badAnswers);
        over(place, "functions of other processes", StoredFunctionsTest::elsewhere);
        over(place, "arguments by name", StoredFunctionsTest::named);
        over(place, "transactional functions", StoredFunctionsTest::transactions);
        over(place, "a process that dies in a transaction", StoredFunctionsTest::dies);
        over(place, "contexts in " + engine, StoredFunctionsTest::contexts);
        over(place, "flows in " + engine, StoredFunctionsTest::flows);
        over(place, "ends of requests in " + engine, StoredFunctionsTest::ends);
        over(place, "histories of requests in " + engine, StoredFunctionsTest::histories);
        over(place, "calls that are broken off", StoreFaultsTest::brokenOff);
        over(place, "transactions that are undone", StoreFaultsTest::undone);
        over(place, "puts that a trigger forbids", StoreFaultsTest::forbidden);
        over(place, "waits while nothing changes", StoreFaultsTest::quiet);
    }

    /** Runs a test where its requests stand. */
    private static <P extends StoresTest.Place> void over(Callable<P> place, String name, PlaceTest<? super P> test) {
        test(name, () -> {
            try (P at = place.call()) {
                test.run(at);
            }
        });
    }

    private interface PlaceTest<P> {
        void run(P place) throws Exception;
    }

    private static void test(String name, Checks.Test test) {
        if (Boolean.getBoolean("test.list")) {
            System.out.println("test: " + name);
            return;
        }
        if (chosen != null && !chosen.remove(name)) {
            return;
        }
        long began = System.nanoTime();
        try {
            test.run();
        } catch (Throwable thrown) {
            new AssertionError(name, thrown).printStackTrace();
            System.err.println("failed: " + name + ": " + thrown);
            System.exit(1); // Threads of the test's mustn't hold the process up.
        }
        tests++;
        if (Boolean.getBoolean("test.times")) {
            System.out.printf("%6d ms  %s%n", (System.nanoTime() - began) / 1_000_000, name);
        }
    }
}
